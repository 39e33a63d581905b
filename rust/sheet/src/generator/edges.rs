//! The equalities between columns that stand as conjuncts of their own.

use super::style::{Size, Style};
use super::universe::Universe;
use crate::random::Random;

#[derive(Debug, Clone, Copy, PartialEq, Eq)]
pub struct Edge {
    pub first: u16,
    pub second: u16,
    pub null_safe: bool,
}

impl Edge {
    /// The column taken from the left profile and the one taken from the right, if there are both.
    pub fn oriented(&self, universe: &Universe) -> Option<(u16, u16)> {
        let fits = |left, right| universe.has(0, left) && universe.has(1, right);
        if fits(self.first, self.second) {
            Some((self.first, self.second))
        } else if fits(self.second, self.first) {
            Some((self.second, self.first))
        } else {
            None
        }
    }

    fn turned(self) -> Self {
        Edge {
            first: self.second,
            second: self.first,
            ..self
        }
    }
}

pub fn draw(random: &mut Random, style: &Style, universe: &Universe) -> Vec<Edge> {
    let mut edges: Vec<Edge> = Vec::new();
    for _ in 0..count(random, style) {
        let edge = match edges.is_empty() && random.chance(90) {
            true => ordinary(random, universe),
            false => next(random, style, universe, &edges),
        };
        edges.push(edge);
    }
    arrange(random, style, &mut edges);
    edges
}

fn count(random: &mut Random, style: &Style) -> usize {
    let most = match style.size {
        Size::Small => random.weighted(&[5, 38, 30, 17, 10]),
        Size::Middling => random.weighted(&[4, 24, 26, 20, 14, 8, 4]),
        Size::Large => random.between(1, 30),
    };
    match style.tied.is_empty() {
        true => most,
        false => most.max(2),
    }
}

/// Puts the null-safe ones first, or last, or all in any order.
fn arrange(random: &mut Random, style: &Style, edges: &mut [Edge]) {
    random.shuffle(edges);
    let null_safe_first = if style.tied.is_empty() { 25 } else { 75 };
    match random.weighted(&[60, null_safe_first, 10]) {
        0 => {}
        1 => edges.sort_by_key(|edge| !edge.null_safe),
        _ => edges.sort_by_key(|edge| edge.null_safe),
    }
}

/// An ordinary edge between the inputs.
fn ordinary(random: &mut Random, universe: &Universe) -> Edge {
    let edge = match random.chance(86) {
        true => cross(random, universe),
        false => with_shared(random, universe),
    };
    turn(random, edge)
}

fn next(random: &mut Random, style: &Style, universe: &Universe, edges: &[Edge]) -> Edge {
    let apart_too = if style.tied.is_empty() { 12 } else { 80 };
    let edge = match random.weighted(&[26, 20, 8, 7, 7, 12, 6, 7, apart_too]) {
        0 => cross(random, universe),
        1 => with_shared(random, universe),
        2 => with_unknown(random, universe),
        3 => one_sided(random, universe),
        4 => itself(random, universe),
        5 => chained(random, universe, edges),
        6 => closing(random, universe, edges),
        7 => repeated(random, universe, edges),
        _ => apart(random, universe, edges),
    };
    let edge = Edge {
        null_safe: random.chance(style.null_safe),
        ..edge
    };
    turn(random, edge)
}

fn turn(random: &mut Random, edge: Edge) -> Edge {
    match random.chance(50) {
        true => edge,
        false => edge.turned(),
    }
}

fn between(first: u16, second: u16) -> Edge {
    Edge {
        first,
        second,
        null_safe: false,
    }
}

/// From the left profile to the right one, if possible between columns of one side only.
fn cross(random: &mut Random, universe: &Universe) -> Edge {
    let own = [&universe.left, &universe.right].map(|columns| random.pick_any(columns));
    if let ([Some(left), Some(right)], true) = (own, random.chance(92)) {
        return between(left, right);
    }
    let mut side = |side: usize| random.pick_any(&universe.profile(side));
    let (left, right) = (side(0), side(1));
    between(
        left.unwrap_or_else(|| universe.any(random)),
        right.unwrap_or_else(|| universe.any(random)),
    )
}

/// Between columns of one side only that no earlier edge touches, if there are such.
fn apart(random: &mut Random, universe: &Universe, edges: &[Edge]) -> Edge {
    let touched = |column: &u16| {
        let mut edges = edges.iter();
        edges.any(|edge| edge.first == *column || edge.second == *column)
    };
    let mut free = |columns: &[u16]| {
        let free: Vec<u16> = columns.iter().copied().filter(|c| !touched(c)).collect();
        random.pick_any(&free)
    };
    match (free(&universe.left), free(&universe.right)) {
        (Some(left), Some(right)) => between(left, right),
        _ => cross(random, universe),
    }
}

/// With a column that stands in both profiles.
fn with_shared(random: &mut Random, universe: &Universe) -> Edge {
    let Some(shared) = random.pick_any(&universe.both) else {
        return cross(random, universe);
    };
    let other = match random.weighted(&[45, 35, 15, 5]) {
        0 => random.pick_any(&universe.left),
        1 => random.pick_any(&universe.right),
        2 => random.pick_any(&universe.both),
        _ => random.pick_any(&universe.neither),
    };
    between(other.unwrap_or_else(|| universe.any(random)), shared)
}

/// With a column that stands in no profile.
fn with_unknown(random: &mut Random, universe: &Universe) -> Edge {
    match random.pick_any(&universe.neither) {
        Some(unknown) => between(unknown, universe.any(random)),
        None => cross(random, universe),
    }
}

fn one_sided(random: &mut Random, universe: &Universe) -> Edge {
    let columns = universe.profile(random.below(2));
    match random.pick_any(&columns) {
        Some(first) => between(first, random.pick(&columns)),
        None => cross(random, universe),
    }
}

fn itself(random: &mut Random, universe: &Universe) -> Edge {
    let column = universe.any(random);
    between(column, column)
}

/// One end of an earlier edge.
fn end(random: &mut Random, universe: &Universe, edges: &[Edge]) -> u16 {
    match random.pick_any(edges) {
        Some(edge) if random.chance(50) => edge.first,
        Some(edge) => edge.second,
        None => universe.any(random),
    }
}

/// From an earlier edge on to any column.
fn chained(random: &mut Random, universe: &Universe, edges: &[Edge]) -> Edge {
    between(end(random, universe, edges), universe.any(random))
}

/// Between ends of earlier edges.
fn closing(random: &mut Random, universe: &Universe, edges: &[Edge]) -> Edge {
    between(end(random, universe, edges), end(random, universe, edges))
}

fn repeated(random: &mut Random, universe: &Universe, edges: &[Edge]) -> Edge {
    match random.pick_any(edges) {
        Some(edge) => edge,
        None => cross(random, universe),
    }
}
