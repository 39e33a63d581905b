//! What one sheet is like on the whole.

use crate::random::Random;

#[derive(Debug, Clone, Copy, PartialEq, Eq)]
pub enum Size {
    Small,
    Middling,
    Large,
}

/// How the bounds of the columns lie to each other.
#[derive(Debug, Clone, Copy, PartialEq, Eq)]
pub enum Spread {
    /// Each interval reaches over the middle.
    Wide,
    /// Anywhere.
    Free,
    /// One side's intervals end where the other side's begin, or before.
    Sided { left_below: bool },
}

/// The sections that are filled to their limits.
#[derive(Debug, Clone, Copy, Default)]
pub struct Limits {
    pub columns: [bool; 2],
    pub classes: [bool; 2],
    pub wide_class: bool,
    pub sketches: bool,
    pub items: bool,
    pub tables: bool,
    pub keys: bool,
    pub expressions: bool,
    pub operands: bool,
    pub conjuncts: bool,
}

#[derive(Debug, Clone)]
pub struct Style {
    pub size: Size,
    pub limits: Limits,
    /// In so many cases of a hundred a figure stands at an end of its range.
    pub special: usize,
    /// The distincts that all columns and classes share, where there are any.
    pub tied: Vec<f64>,
    /// In so many cases of a hundred an equality is null-safe.
    pub null_safe: usize,
    pub spread: Spread,
    /// In so many cases of a hundred a column has a sketch.
    pub sketched: usize,
    /// Rows come from the catalog, and most tables are known to have just those.
    pub catalogued: bool,
    /// In so many cases of a hundred a column has rows without a value.
    pub nullable: usize,
}

impl Style {
    pub fn draw(random: &mut Random) -> Self {
        let tied = tied(random);
        let null_safe = match tied.is_empty() {
            true => [0, 25, 50, 100][random.weighted(&[22, 40, 28, 10])],
            false => 50,
        };
        Style {
            size: size(random),
            limits: limits(random),
            special: [0, 1, 10][random.weighted(&[60, 28, 12])],
            tied,
            null_safe,
            spread: spread(random),
            sketched: [0, 35, 80][random.weighted(&[35, 40, 25])],
            catalogued: random.chance(40),
            nullable: [30, 65, 90][random.weighted(&[25, 45, 30])],
        }
    }
}

fn size(random: &mut Random) -> Size {
    [Size::Small, Size::Middling, Size::Large][random.weighted(&[62, 35, 3])]
}

fn spread(random: &mut Random) -> Spread {
    match random.weighted(&[78, 15, 7]) {
        0 => Spread::Wide,
        1 => Spread::Free,
        _ => Spread::Sided {
            left_below: random.chance(50),
        },
    }
}

fn tied(random: &mut Random) -> Vec<f64> {
    if random.chance(75) {
        return Vec::new();
    }
    let first = random.pick(&[4.0, 10.0, 25.0, 2.5, 100.0, 1.0, 64.0]);
    match random.chance(70) {
        true => vec![first],
        false => vec![first, first * 2.0],
    }
}

/// About one sheet in five hundred has sections at their limits.
fn limits(random: &mut Random) -> Limits {
    if random.below(500) != 0 {
        return Limits::default();
    }
    let rate = random.pick(&[15, 40, 100]);
    let mut flag = || random.chance(rate);
    Limits {
        columns: [flag(), flag()],
        classes: [flag(), flag()],
        wide_class: flag(),
        sketches: flag(),
        items: flag(),
        tables: flag(),
        keys: flag(),
        expressions: flag(),
        operands: flag(),
        conjuncts: flag(),
    }
}
