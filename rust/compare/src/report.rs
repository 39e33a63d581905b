//! What a comparison covered and where it differed.

use crate::shapes::shapes;
use oracle::copies::BLOCKS;
use sheet::values::{Expression, Scalar, Sheet};
use std::collections::{BTreeMap, BTreeSet};

/// At most so many differences are told one by one.
const TOLD: usize = 20;

/// The largest distance of a match figure that is allowed where the residual is 2^-16 or more.
pub const ALLOWED: f64 = 1.0 / (1 << 24) as f64;

/// What the branches of `equality_edge_estimate` are, in the order of its blocks.
const EDGE_BRANCHES: [&str; 24] = [
    "an edge is estimated",
    "no left and right profile for the two columns",
    "the first column is the left one",
    "the second column is the left one",
    "null-safe, and both sides have nulls",
    "no pair of nulls",
    "null-safe, and the right side has nulls",
    "no match of nulls",
    "disjoint domains",
    "a foreign key into a complete population",
    "... with no right rows (the condition before it rules that out)",
    "... with right rows",
    "a distinct of 0",
    "both distincts above 0",
    "observed: the source's log",
    "observed: null-safe",
    "observed: by sketches",
    "observed: without sketches",
    "null-safe: nulls added to the pair figure",
    "ordinary: no nulls in the pair figure",
    "left distinct of 0",
    "left distinct above 0",
    "null-safe: no sketches asked for the match",
    "ordinary: sketches asked for the match",
];

/// The largest of some distances, and the seed of its sheet where it is above 0.
#[derive(Default)]
struct Largest {
    powers: u64,
    distance: f64,
    seed: Option<u64>,
}

impl Largest {
    fn note(&mut self, distance: f64, seed: u64) {
        self.powers += 1;
        if distance > self.distance {
            self.distance = distance;
            self.seed = Some(seed);
        }
    }

    fn tell(&self) -> String {
        let distance = match self.seed {
            None => "0".to_string(),
            Some(seed) => format!(
                "{:e} (2^{:.2}), seed {seed}",
                self.distance,
                self.distance.log2()
            ),
        };
        format!("{distance}, over {} sheets", self.powers)
    }
}

#[derive(Default)]
struct Cases {
    cases: u64,
    differ: u64,
}

impl Cases {
    fn count(&mut self, agrees: bool) {
        self.cases += 1;
        self.differ += u64::from(!agrees);
    }
}

#[derive(Default)]
pub struct Report {
    seed: u64,
    sheets: u64,
    bytes: (usize, usize, usize),
    compared: BTreeMap<&'static str, Cases>,
    held: BTreeMap<&'static str, Cases>,
    differences: Vec<String>,
    blocks: Vec<u64>,
    refusals: [u64; 11],
    types: BTreeMap<(&'static str, &'static str), u64>,
    shapes: BTreeMap<String, u64>,
    near: Largest,
    far: Largest,
}

fn type_name(scalar: &Scalar) -> &'static str {
    match scalar {
        Scalar::Null => "Null",
        Scalar::Boolean(_) => "Boolean",
        Scalar::Int32(_) => "Int32",
        Scalar::Int64(_) => "Int64",
        Scalar::Float64(_) => "Float64",
        Scalar::Decimal128 { .. } => "Decimal128",
        Scalar::Date32(_) => "Date32",
        Scalar::IntervalMonthDayNano { .. } => "IntervalMonthDayNano",
        Scalar::IntervalDayTime { .. } => "IntervalDayTime",
    }
}

/// The types that a sheet holds, and where.
fn types(sheet: &Sheet) -> BTreeSet<(&'static str, &'static str)> {
    let mut found = BTreeSet::new();
    for item in sheet.sketches.iter().flat_map(|sketch| &sketch.items) {
        found.insert(("sketch", type_name(&item.value)));
    }
    for column in sheet.columns.iter().flatten() {
        for bound in [column.lower, column.upper] {
            found.insert(("bound", bound.as_ref().map_or("absent", type_name)));
        }
    }
    for expression in &sheet.expressions {
        if let Expression::Literal(value) = expression {
            found.insert(("literal", type_name(value)));
        }
    }
    found
}

fn print_cases(kinds: &BTreeMap<&'static str, Cases>) {
    for (kind, cases) in kinds {
        println!(
            "  {:>10} cases, {} differ: {kind}",
            cases.cases, cases.differ
        );
    }
}

impl Report {
    /// Begins a sheet.
    pub fn sheet(&mut self, seed: u64, sheet: &Sheet, length: usize) {
        self.seed = seed;
        self.bytes.0 = if self.sheets == 0 {
            length
        } else {
            self.bytes.0.min(length)
        };
        self.bytes.1 += length;
        self.bytes.2 = self.bytes.2.max(length);
        self.sheets += 1;
        for found in types(sheet) {
            *self.types.entry(found).or_default() += 1;
        }
        for shape in shapes(sheet) {
            *self.shapes.entry(shape).or_default() += 1;
        }
    }

    /// One case in which the library is compared, on the present sheet.
    pub fn compared(&mut self, kind: &'static str, agrees: bool) {
        self.compared.entry(kind).or_default().count(agrees);
        self.tell(kind, agrees);
    }

    /// One case of something that the Rust is held to by itself, on the present sheet.
    pub fn held(&mut self, kind: &'static str, holds: bool) {
        self.held.entry(kind).or_default().count(holds);
        self.tell(kind, holds);
    }

    fn tell(&mut self, kind: &str, agrees: bool) {
        if !agrees && self.differences.len() < TOLD {
            self.differences.push(format!("seed {}: {kind}", self.seed));
        }
    }

    /// The blocks that the present sheet reached.
    pub fn reached(&mut self, blocks: &[bool]) {
        self.blocks.resize(blocks.len(), 0);
        for (count, reached) in self.blocks.iter_mut().zip(blocks) {
            *count += u64::from(*reached);
        }
    }

    /// A damaged copy, and the number that it is refused with, or 0.
    pub fn damaged(&mut self, seed: u64, number: u8) {
        self.seed = seed;
        self.refusals[number as usize] += 1;
    }

    /// The distance of the match figures of a sheet on which a power was taken.
    pub fn distance(&mut self, residual: f64, distance: f64) {
        let largest = if residual >= 2f64.powi(-16) {
            &mut self.near
        } else {
            &mut self.far
        };
        largest.note(distance, self.seed);
    }

    /// Whether something was compared, nothing differs and no distance is too large.
    pub fn passes(&self) -> bool {
        let compared = !self.compared.is_empty();
        compared && self.differences.is_empty() && self.near.distance <= ALLOWED
    }

    fn print_blocks(&self) {
        println!(
            "\nsheets that reach each branch of equality_edge_estimate (line of analysis.rs):"
        );
        let mut names = EDGE_BRANCHES.iter();
        for ((function, _, line), count) in BLOCKS.iter().zip(&self.blocks) {
            if *function == "equality_edge_estimate" {
                println!("  {count:>8}  {line}: {}", names.next().unwrap_or(&"?"));
            }
        }
        self.print_functions();
    }

    fn print_functions(&self) {
        let reached = self.blocks.iter().filter(|count| **count > 0).count();
        println!(
            "\nblocks of all cut functions, {reached} reached of {}; line: sheets",
            BLOCKS.len()
        );
        let mut functions: Vec<(&str, Vec<String>)> = Vec::new();
        for ((function, _, line), count) in BLOCKS.iter().zip(&self.blocks) {
            let text = format!("{line}: {count}");
            match functions.last_mut() {
                Some((last, blocks)) if last == function => blocks.push(text),
                _ => functions.push((function, vec![text])),
            }
        }
        for (function, blocks) in functions {
            println!("  {function}  {}", blocks.join(", "));
        }
    }

    fn print_types(&self) {
        println!("\nsheets that hold each type as a bound, a literal, a value of a sketch:");
        let names: BTreeSet<&str> = self.types.keys().map(|(_, name)| *name).collect();
        for name in names {
            let of = |place| self.types.get(&(place, name)).copied().unwrap_or(0);
            println!(
                "  {:>8} {:>8} {:>8}  {name}",
                of("bound"),
                of("literal"),
                of("sketch")
            );
        }
    }

    pub fn print(&self) {
        let average = self.bytes.1 as u64 / self.sheets.max(1);
        println!(
            "{} sheets of {} to {} bytes, {average} on the average",
            self.sheets, self.bytes.0, self.bytes.2
        );
        self.print_blocks();
        self.print_types();
        println!("\nsheets of each shape:");
        for (shape, count) in &self.shapes {
            println!("  {count:>8}  {shape}");
        }
        println!("\ndamaged copies refused with each number (0: still accepted):");
        for (number, count) in self.refusals.iter().enumerate() {
            println!("  {count:>8}  {number}");
        }
        println!("\nlargest distance of a match figure from powf's, where a power is taken:");
        println!("  residual 2^-16 or more: {}", self.near.tell());
        println!("  smaller residual: {}", self.far.tell());
        println!("\nthe library against the Rust:");
        print_cases(&self.compared);
        println!("\nthe Rust by itself:");
        print_cases(&self.held);
        for difference in &self.differences {
            println!("  differs: {difference}");
        }
    }
}

#[cfg(test)]
mod tests {
    use super::*;

    #[test]
    fn every_branch_of_an_edge_has_its_words() {
        let blocks = BLOCKS
            .iter()
            .filter(|(function, _, _)| *function == "equality_edge_estimate");
        assert_eq!(blocks.count(), EDGE_BRANCHES.len());
    }
}
