//! Accepted sheets, one for every seed.
//!
//! A sheet gets its style first: how large it is, how often a figure stands at an end of its range,
//! whether distincts are tied, and so on. The sections are then drawn one after the other, and a
//! few shapes that chance alone would seldom give are put in on purpose.

mod classes;
mod columns;
mod edges;
mod expressions;
mod figures;
mod full;
mod keys;
mod scalars;
mod shapes;
mod sketches;
mod style;
mod universe;

use crate::random::Random;
use crate::values::Sheet;
use edges::Edge;
use scalars::Domain;
use style::Style;
use universe::Universe;

/// What the draws of one sheet have in common.
struct Draw {
    random: Random,
    style: Style,
    domain: Domain,
    universe: Universe,
    edges: Vec<Edge>,
}

/// The sheet of a seed.
pub fn sheet(seed: u64) -> Sheet {
    let mut draw = begin(seed);
    let mut sheet = blank(&mut draw);
    columns::fill(&mut draw, &mut sheet);
    keys::fill(&mut draw, &mut sheet);
    classes::fill(&mut draw, &mut sheet);
    shapes::fill(&mut draw, &mut sheet);
    expressions::fill(&mut draw, &mut sheet);
    full::fill(&mut draw, &mut sheet);
    sheet
}

fn begin(seed: u64) -> Draw {
    let mut random = Random::new(seed);
    let style = Style::draw(&mut random);
    let domain = Domain::draw(&mut random);
    let universe = Universe::draw(&mut random, &style, &domain);
    let edges = edges::draw(&mut random, &style, &universe);
    Draw {
        random,
        style,
        domain,
        universe,
        edges,
    }
}

/// A sheet with its rows and settings and nothing else.
fn blank(draw: &mut Draw) -> Sheet {
    let rows = figures::both_rows(&mut draw.random, &draw.style);
    Sheet::bare(rows, figures::settings(&mut draw.random, &draw.style))
}
