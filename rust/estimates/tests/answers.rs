//! Answers through the safe functions: document 01's cases, and that values and bytes agree.

use estimates::{
    Class, Estimate, Join, LONGEST_JOIN, LONGEST_PREDICATE, LONGEST_SPLIT, Refusal, join,
    join_bytes, predicate, predicate_bytes, split, split_bytes,
};
use sheet::answers::read_split;
use sheet::samples::{empty, from_catalog};
use sheet::values::{Expression, Sheet};
use sheet::writer::write;
use sheet::{generator, samples, worked};

/// So many generated sheets are asked.
const SEEDS: u64 = 2_000;
/// What a byte of an output holds before the call.
const BEFORE: u8 = 0xA5;

/// The sheet of document 01's empty case, as the program `join_sheet` is run on it.
const EMPTY: &[u8] = include_bytes!("../../../crates/join_sheet/stdin");

const ONE: [u8; 8] = [0, 0, 0, 0, 0, 0, 0xf0, 0x3f];

/// Its answer as document 01 has it.
fn empty_answer() -> Vec<u8> {
    let estimate = [&[3, 3][..], &ONE, &[0; 8], &ONE].concat();
    [&[1, 0][..], &estimate, &estimate, &ONE, &[0; 6]].concat()
}

#[test]
fn the_empty_case_byte_for_byte() {
    assert_eq!(EMPTY.len(), 116);
    assert_eq!(EMPTY, write(&empty()));
    let mut out = [BEFORE; LONGEST_JOIN];
    assert_eq!(join_bytes(EMPTY, &mut out), Ok(68));
    assert_eq!(out[..68], empty_answer());
    assert!(out[68..].iter().all(|byte| *byte == BEFORE));
}

#[test]
fn the_empty_case_as_a_value() {
    let one = Estimate {
        source: 3,
        value: 1.0,
        lower: Some(0.0),
        upper: Some(1.0),
    };
    let all = Join {
        selectivity: one,
        matching: one,
        residual: 1.0,
        classes: vec![],
        coverages: vec![],
        non_null: vec![],
    };
    assert_eq!(join(EMPTY), Ok(all));
}

fn joined(sheet: &Sheet) -> Join {
    join(&write(sheet)).unwrap()
}

#[test]
fn marked_joins() {
    let equality = joined(&worked::an_equality());
    assert_eq!(equality.selectivity.value, 0.04);
    assert_eq!(equality.matching.value, 1.0);
    let block = Class {
        distinct: from_catalog(10.0),
        columns: vec![1, 2],
    };
    assert_eq!(equality.classes, [block]);
    assert_eq!(joined(&worked::a_residual()).matching.value, 0.4375);
    let null_safe = joined(&worked::a_null_safe_equality());
    assert_eq!(null_safe.selectivity.value, 0.171875);
    assert_eq!(null_safe.matching.value, 0.625);
    let touching = joined(&worked::touching_bounds());
    assert_eq!(touching.coverages[0].figures[2], 1.0);
    assert_eq!(joined(&worked::a_chain()).non_null, [1, 2, 3]);
}

#[test]
fn marked_predicates_and_splits() {
    let itself = write(&worked::itself());
    assert_eq!(predicate(&itself, 3).unwrap().value, 0.75);
    assert_eq!(predicate(&itself, 4).unwrap().value, 1.0);
    let nary = write(&worked::ands_and_ors());
    assert_eq!(predicate(&nary, 2).unwrap().value, 0.4375);
    assert_eq!(predicate(&nary, 3).unwrap().value, 1.0);
    assert_eq!(predicate(&nary, 4).unwrap().value, 0.0);
    assert_eq!(split(&nary, 3), Ok(vec![]));
    assert_eq!(split(&nary, 6), Ok(vec![0, 2, 1]));
}

/// The rows of an empty sketch are spread over all distinct values; without it the frequency's are.
#[test]
fn a_sketch_without_items() {
    let mut sheet = samples::an_empty_sketch();
    assert_eq!(predicate(&write(&sheet), 2).unwrap().value, 0.1);
    sheet.columns[0][0].sketch = None;
    assert_eq!(predicate(&write(&sheet), 2).unwrap().value, 0.075);
}

/// As many Ands inside each other as a sheet can have.
#[test]
fn the_deepest_expression() {
    let mut expressions = vec![Expression::Other];
    expressions.extend((0..255).map(|first| Expression::Nary {
        op: worked::AND,
        first,
        count: 1,
    }));
    let bytes = write(&Sheet {
        expressions,
        operands: (0..255).collect(),
        conjuncts: vec![255],
        ..empty()
    });
    assert_eq!(split(&bytes, 255), Ok(vec![0]));
    assert_eq!(predicate(&bytes, 255).unwrap().value, 0.25);
    assert_eq!(join(&bytes).unwrap().residual, 0.25);
}

/// 64 equalities, each of a left column and a right one that no other names.
fn apart() -> Sheet {
    let mut expressions: Vec<_> = (0..128).map(Expression::Column).collect();
    expressions.extend((0..64).map(|left| Expression::Binary {
        op: worked::EQ,
        left,
        right: left + 64,
    }));
    Sheet {
        columns: [0..64, 64..128].map(|side| side.map(samples::column).collect()),
        expressions,
        conjuncts: (128..192).collect(),
        ..empty()
    }
}

/// The longest answer to a join: one byte less is too short for it.
#[test]
fn the_longest_join() {
    let bytes = write(&apart());
    let answer = every_size(LONGEST_JOIN, |out| join_bytes(&bytes, out));
    assert_eq!(answer.len(), LONGEST_JOIN);
    let join = join(&bytes).unwrap();
    assert_eq!(join.classes.len(), 64);
    assert_eq!(join.coverages.len(), 64);
    assert_eq!(join.non_null, Vec::from_iter(0..128));
}

/// The longest answers to a split, that of 512 operands, and to a predicate.
#[test]
fn the_longest_split_and_predicate() {
    let bytes = write(&samples::largest());
    assert_eq!(split(&bytes, 255), Ok(vec![254; 512]));
    let mut out = [BEFORE; LONGEST_SPLIT];
    assert_eq!(split_bytes(&bytes, 255, &mut out), Ok(LONGEST_SPLIT));
    let mut out = [BEFORE; LONGEST_PREDICATE];
    let length = predicate_bytes(&bytes, 255, &mut out);
    assert_eq!(length, Ok(LONGEST_PREDICATE));
}

/// The answer in an output of `size` bytes, where the bytes behind it are as they were.
fn written(
    size: usize,
    call: impl Fn(&mut [u8]) -> Result<usize, Refusal>,
) -> Result<Vec<u8>, Refusal> {
    let mut out = vec![BEFORE; size];
    let answer = call(&mut out);
    let length = answer.unwrap_or(0);
    let behind = out.split_off(length);
    assert!(behind.iter().all(|byte| *byte == BEFORE));
    answer.map(|_| out)
}

/// The bytes that a call writes. Outputs that are longer get the same, shorter ones 12.
fn every_size(longest: usize, call: impl Fn(&mut [u8]) -> Result<usize, Refusal>) -> Vec<u8> {
    let bytes = written(longest, &call).unwrap();
    let length = bytes.len();
    for size in [length, length + 1] {
        assert_eq!(written(size, &call).as_ref(), Ok(&bytes));
    }
    for size in [0, 1, length / 2, length - 1] {
        assert_eq!(written(size, &call), Err(Refusal::OutputTooShort));
    }
    bytes
}

#[test]
fn generated_joins() {
    for seed in 0..SEEDS {
        let bytes = write(&generator::sheet(seed));
        let answer = every_size(LONGEST_JOIN, |out| join_bytes(&bytes, out));
        let join = join(&bytes).unwrap();
        assert_eq!(Join::read(&answer).as_ref(), Some(&join), "seed {seed}");
        assert_eq!(join.bytes(), answer, "seed {seed}");
    }
}

#[test]
fn generated_predicates_and_splits() {
    for seed in 0..SEEDS / 4 {
        let sheet = generator::sheet(seed);
        let bytes = write(&sheet);
        for number in 0..sheet.expressions.len() as u16 {
            let of = format!("seed {seed}, expression {number}");
            let answer = every_size(LONGEST_PREDICATE, |out| {
                predicate_bytes(&bytes, number, out)
            });
            let estimate = predicate(&bytes, number).unwrap();
            assert_eq!(Estimate::read(&answer), Some(estimate), "{of}");
            let answer = every_size(LONGEST_SPLIT, |out| split_bytes(&bytes, number, out));
            let numbers = split(&bytes, number).unwrap();
            assert_eq!(read_split(&answer), Some(numbers), "{of}");
        }
    }
}
