//! Damaged copies of sheets: one fault, now and then two, and perhaps none that matters.

mod codes;
mod counts;
mod ends;
mod figures;
mod numbers;
mod runs;
mod scalars;

use crate::random::Random;
use crate::values::{Expression, Field, Holds, Section, Sheet};
use crate::writer;

/// A copy that is being damaged. The fields are those of the sheet before any byte was changed.
struct Copy {
    random: Random,
    sheet: Sheet,
    bytes: Vec<u8>,
    fields: Vec<Field>,
}

/// Does its damage if the sheet has the place for it, and says whether it did.
type Fault = fn(&mut Copy) -> bool;

/// Floats that stand nowhere in a sheet.
const NOWHERE: [f64; 9] = [
    -0.0,
    f64::NAN,
    -f64::NAN,
    f64::INFINITY,
    f64::NEG_INFINITY,
    f64::from_bits(1),
    -f64::from_bits(1),
    f64::MIN_POSITIVE,
    f64::MAX,
];

/// Keeps the draws of a copy apart from those of the sheet of the same seed.
const SALT: u64 = 0x6461_6d61_6765_0001;

/// Faults with their weights. Those of [`SHEET`] change the values, those of [`FIELD`] the bytes
/// of one field, and those of [`LENGTH`] how many bytes there are.
const SHEET: [(usize, Fault); 6] = [
    (4, counts::too_many),
    (3, counts::bad_class),
    (3, numbers::disordered),
    (3, numbers::twice),
    (4, runs::shifted),
    (4, runs::shared),
];

const FIELD: [(usize, Fault); 17] = [
    (6, counts::count),
    (4, counts::length),
    (8, figures::figure),
    (3, figures::setting),
    (4, figures::whole),
    (3, figures::absent),
    (13, scalars::scalar),
    (3, codes::source),
    (3, codes::flags),
    (3, codes::key),
    (3, codes::base),
    (5, codes::expression),
    (4, codes::unused),
    (6, numbers::column),
    (5, numbers::child),
    (6, numbers::named),
    (5, ends::flips),
];

const LENGTH: [(usize, Fault); 3] = [(9, ends::cut), (5, ends::longer), (1, ends::too_long)];

/// The bytes of a sheet with a fault.
pub fn damaged(seed: u64, sheet: &Sheet) -> Vec<u8> {
    let mut copy = Copy::new(seed, sheet);
    let count = if copy.random.chance(12) { 2 } else { 1 };
    let mut groups: Vec<usize> = (0..count).map(|_| copy.group()).collect();
    // Values change before bytes do, and the length last, so that no fault undoes another.
    groups.sort();
    for group in groups {
        copy.damage(group);
    }
    copy.bytes
}

fn faults(group: usize) -> &'static [(usize, Fault)] {
    match group {
        0 => &SHEET,
        1 => &FIELD,
        _ => &LENGTH,
    }
}

impl Copy {
    fn new(seed: u64, sheet: &Sheet) -> Self {
        let mut copy = Copy {
            random: Random::new(seed ^ SALT),
            sheet: sheet.clone(),
            bytes: Vec::new(),
            fields: Vec::new(),
        };
        copy.write();
        copy
    }

    /// Takes the bytes and fields from the values.
    fn write(&mut self) {
        self.bytes = writer::write(&self.sheet);
        self.fields = writer::fields(&self.sheet);
    }

    /// Which group the next fault comes from.
    fn group(&mut self) -> usize {
        let weights = [0, 1, 2].map(|group| {
            let faults = faults(group).iter();
            faults.map(|(weight, _)| weight).sum()
        });
        self.random.weighted(&weights)
    }

    /// Does one fault of a group; where a sheet has no place for it, tries another.
    fn damage(&mut self, group: usize) {
        let faults = faults(group);
        let weights: Vec<usize> = faults.iter().map(|(weight, _)| *weight).collect();
        for _ in 0..20 {
            let (_, fault) = faults[self.random.weighted(&weights)];
            if fault(self) {
                return;
            }
        }
        ends::cut(self);
    }

    /// One of the fields that pass the test. Sections come first, so that the small ones count.
    fn field(&mut self, test: impl Fn(&Field) -> bool) -> Option<Field> {
        let found: Vec<Field> = self.fields.iter().copied().filter(|f| test(f)).collect();
        let mut sections: Vec<Section> = found.iter().map(|field| field.section).collect();
        sections.dedup();
        let section = self.random.pick_any(&sections)?;
        let there: Vec<Field> = found.into_iter().filter(|f| f.section == section).collect();
        self.random.pick_any(&there)
    }

    fn field_that(&mut self, holds: Holds) -> Option<Field> {
        self.field(|field| field.holds == holds)
    }

    /// A field of an expression.
    fn expression_field(&self, number: usize, name: &str) -> Option<Field> {
        let mut fields = self.fields.iter().copied();
        fields.find(|field| {
            field.section == Section::Expressions
                && field.record == Some(number)
                && field.name == name
        })
    }

    /// The number of an expression that passes the test.
    fn expression(&mut self, test: impl Fn(&Expression) -> bool) -> Option<usize> {
        let expressions = self.sheet.expressions.iter().enumerate();
        let found: Vec<usize> = expressions
            .filter(|(_, expression)| test(expression))
            .map(|(number, _)| number)
            .collect();
        self.random.pick_any(&found)
    }

    /// Other bytes at the start of a field.
    fn put(&mut self, field: Field, bytes: &[u8]) -> bool {
        self.bytes[field.at..field.at + bytes.len()].copy_from_slice(bytes);
        true
    }

    fn put_u16(&mut self, field: Field, number: usize) -> bool {
        self.put(field, &(number as u16).to_le_bytes())
    }

    /// The bytes of a field as they are now.
    fn bytes_of(&self, field: Field) -> &[u8] {
        &self.bytes[field.at..field.at + field.size]
    }

    fn u16_of(&self, field: Field) -> usize {
        let bytes = self.bytes_of(field);
        usize::from(u16::from_le_bytes([bytes[0], bytes[1]]))
    }
}

#[cfg(test)]
mod tests {
    use super::*;
    use crate::generator;
    use crate::reader;

    /// The numbers that a fault gives, alone, over many sheets; 0 stands for accepted.
    fn numbers(fault: Fault) -> Vec<u8> {
        let mut seen = Vec::new();
        for seed in 0..3_000 {
            let mut copy = Copy::new(seed, &generator::sheet(seed));
            if !fault(&mut copy) {
                assert_eq!(reader::read(&copy.bytes).err(), None, "seed {seed}");
                continue;
            }
            seen.push(reader::read(&copy.bytes).map_or_else(|refusal| refusal.number, |_| 0));
        }
        seen.sort();
        seen.dedup();
        seen
    }

    #[test]
    fn faults_that_always_matter_give_their_numbers() {
        let faults: [(Fault, &[u8]); 14] = [
            (ends::cut, &[2]),
            (ends::longer, &[10]),
            (ends::too_long, &[1]),
            (counts::too_many, &[3]),
            (counts::bad_class, &[3]),
            (numbers::disordered, &[7]),
            (numbers::child, &[8]),
            (figures::figure, &[4, 6]),
            (figures::absent, &[6]),
            (codes::source, &[6]),
            (codes::flags, &[6]),
            (codes::base, &[6]),
            (codes::unused, &[6]),
            (runs::shared, &[9]),
        ];
        for (place, (fault, expected)) in faults.into_iter().enumerate() {
            assert_eq!(numbers(fault), expected, "fault {place}");
        }
    }

    #[test]
    fn faults_that_may_not_matter_give_their_numbers_or_none() {
        let faults: [(Fault, &[u8]); 8] = [
            (figures::setting, &[0, 4]),
            (figures::whole, &[0, 4]),
            (codes::key, &[0, 6]),
            (numbers::column, &[0, 7]),
            (numbers::named, &[0, 8]),
            (numbers::twice, &[0, 5, 7]),
            (scalars::scalar, &[0, 5, 6, 7]),
            (runs::shifted, &[0, 3, 9]),
        ];
        for (place, (fault, expected)) in faults.into_iter().enumerate() {
            let seen = numbers(fault);
            let allowed = seen.iter().all(|number| expected.contains(number));
            assert!(allowed, "fault {place}: {seen:?}");
            assert!(seen.iter().any(|number| *number > 0), "fault {place}");
        }
    }
}
