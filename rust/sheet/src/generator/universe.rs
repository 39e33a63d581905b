//! The columns that a sheet speaks of, and the profiles in which they stand.

use super::scalars::{Domain, Kind};
use super::style::{Size, Style};
use crate::limits::COLUMNS;
use crate::random::Random;

/// Column numbers by the profiles that have them.
#[derive(Debug, Clone)]
pub struct Universe {
    pub left: Vec<u16>,
    pub right: Vec<u16>,
    pub both: Vec<u16>,
    pub neither: Vec<u16>,
    kinds: Vec<Kind>,
}

const NUMBERS: usize = COLUMNS as usize;

impl Universe {
    pub fn draw(random: &mut Random, style: &Style, domain: &Domain) -> Self {
        let [left, right] = sides(random, style);
        let both = shared(random, left, right);
        let apart = left + right - both;
        let neither = neither(random).min(NUMBERS - apart);
        let mut numbers = numbers(random, apart + neither).into_iter();
        let mut take = |count: usize| numbers.by_ref().take(count).collect::<Vec<_>>();
        Universe {
            left: take(left - both),
            right: take(right - both),
            both: take(both),
            neither: take(neither),
            kinds: (0..NUMBERS).map(|_| domain.kind(random)).collect(),
        }
    }

    /// What the values of a column are.
    pub fn kind(&self, column: u16) -> Kind {
        self.kinds[usize::from(column)]
    }

    /// The columns of a side's profile, in rising order.
    pub fn profile(&self, side: usize) -> Vec<u16> {
        let own = [&self.left, &self.right][side];
        let mut columns = [own.as_slice(), &self.both].concat();
        columns.sort();
        columns
    }

    /// A column in no profile.
    pub fn unknown(&self, random: &mut Random) -> u16 {
        let taken = |column: &u16| self.has(0, *column) || self.has(1, *column);
        let open: Vec<u16> = (0..NUMBERS as u16)
            .filter(|column| !taken(column))
            .collect();
        let known = random.pick_any(&self.neither);
        known.or_else(|| random.pick_any(&open)).unwrap_or(0)
    }

    pub fn has(&self, side: usize, column: u16) -> bool {
        [&self.left, &self.right][side].contains(&column) || self.both.contains(&column)
    }

    /// Any column, from each of the four groups now and then.
    pub fn any(&self, random: &mut Random) -> u16 {
        let groups = [&self.left, &self.right, &self.both, &self.neither];
        let weights = [36, 34, 14, 16];
        let open = [0, 1, 2, 3].map(|place| match groups[place].is_empty() {
            true => 0,
            false => weights[place],
        });
        if open.iter().sum::<usize>() == 0 {
            return random.below(NUMBERS) as u16;
        }
        let group = random.weighted(&open);
        random.pick(groups[group])
    }
}

/// How many columns each profile has.
fn sides(random: &mut Random, style: &Style) -> [usize; 2] {
    // Tied edges need columns of their own.
    let least = if style.tied.is_empty() { 1 } else { 3 };
    let mut sides = [0, 1].map(|side| match style.limits.columns[side] {
        true => 64,
        false => side_size(random, style.size).max(least),
    });
    if random.chance(2) {
        sides[random.below(2)] = 0;
    }
    sides
}

fn side_size(random: &mut Random, size: Size) -> usize {
    match size {
        Size::Small => random.between(1, 4),
        Size::Middling => random.between(2, 8),
        Size::Large => random.between(6, 30),
    }
}

/// How many columns stand in both profiles; mostly each side keeps one for itself.
fn shared(random: &mut Random, left: usize, right: usize) -> usize {
    let most = match random.chance(85) {
        true => left.min(right).saturating_sub(1),
        false => left.min(right),
    };
    random.weighted(&[40, 32, 18, 10]).min(most)
}

fn neither(random: &mut Random) -> usize {
    random.weighted(&[25, 35, 25, 15])
}

/// So many different column numbers in any order, from a narrow or a wide range.
fn numbers(random: &mut Random, count: usize) -> Vec<u16> {
    let top = random.pick(&[count, count + 3, 40, NUMBERS]);
    let top = top.max(count).min(NUMBERS);
    let mut numbers: Vec<u16> = (0..top as u16).collect();
    random.shuffle(&mut numbers);
    numbers.truncate(count);
    if count > 0 && random.chance(5) && !numbers.contains(&127) {
        numbers[0] = 127;
    }
    numbers
}
