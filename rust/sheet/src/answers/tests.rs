use super::*;
use crate::random::Random;
use crate::samples::from_catalog;

/// So many answers are drawn.
const SEEDS: u64 = 500;

/// Floats that no answer has too: the readers take every figure as it stands.
const FIGURES: [f64; 8] = [
    0.0,
    -0.0,
    1.0,
    0.04,
    f64::from_bits(1),
    f64::MAX,
    f64::INFINITY,
    -2.5,
];

fn bounded(value: f64) -> Estimate {
    Estimate {
        source: 3,
        value,
        lower: Some(0.0),
        upper: Some(1.0),
    }
}

fn join() -> Join {
    Join {
        selectivity: bounded(0.04),
        matching: bounded(1.0),
        residual: 0.25,
        classes: vec![
            Class {
                distinct: from_catalog(10.0),
                columns: vec![1, 2],
            },
            Class {
                distinct: bounded(0.5),
                columns: vec![0, 3, 127],
            },
        ],
        coverages: vec![Coverage {
            column: 1,
            figures: [10.0, 1.0, 10.0, 0.4, 0.0],
            ordinary: true,
        }],
        non_null: vec![1, 2],
    }
}

/// Where the parts of [`join`]'s bytes stand.
const FIRST_CLASS: usize = 2 + 2 * 26 + 8 + 2;
const SECOND_CLASS: usize = FIRST_CLASS + 2 + 26 + 2 * 2;
const COVERAGE: usize = SECOND_CLASS + 2 + 26 + 3 * 2 + 2;
const NON_NULL: usize = COVERAGE + 2 + 5 * 8 + 1 + 2;

fn figure(random: &mut Random) -> f64 {
    random.pick(&FIGURES)
}

fn estimate(random: &mut Random) -> Estimate {
    Estimate {
        source: random.below(5) as u8,
        value: figure(random),
        lower: random.chance(50).then(|| figure(random)),
        upper: random.chance(50).then(|| figure(random)),
    }
}

fn numbers(random: &mut Random, percent: usize) -> Vec<u16> {
    (0..128).filter(|_| random.chance(percent)).collect()
}

fn class(random: &mut Random) -> Class {
    Class {
        distinct: estimate(random),
        columns: numbers(random, 3),
    }
}

fn coverage(random: &mut Random) -> Coverage {
    Coverage {
        column: random.below(128) as u16,
        figures: [(); 5].map(|()| figure(random)),
        ordinary: random.chance(50),
    }
}

fn drawn(seed: u64) -> Join {
    let random = &mut Random::new(seed);
    Join {
        selectivity: estimate(random),
        matching: estimate(random),
        residual: figure(random),
        classes: (0..random.below(4)).map(|_| class(random)).collect(),
        coverages: (0..random.below(4)).map(|_| coverage(random)).collect(),
        non_null: numbers(random, 10),
    }
}

/// Whether each prefix, and the bytes with one more behind them, are no such answer.
fn only_whole<T>(bytes: &[u8], read: impl Fn(&[u8]) -> Option<T>) -> bool {
    let shorter = (0..bytes.len()).all(|length| read(&bytes[..length]).is_none());
    let longer = [0, 1].map(|more| read(&[bytes, &[more]].concat()).is_none());
    shorter && longer == [true; 2]
}

#[test]
fn a_join_has_its_bytes() {
    let bytes = join().bytes();
    assert_eq!(bytes[..4], [1, 0, 3, 3]);
    assert_eq!(bytes[FIRST_CLASS - 2..][..4], [2, 0, 2, 0]);
    assert_eq!(bytes[SECOND_CLASS..][..4], [3, 0, 3, 3]);
    assert_eq!(bytes[COVERAGE - 2..][..4], [1, 0, 1, 0]);
    assert_eq!(bytes[NON_NULL - 3..], [1, 2, 0, 1, 0, 2, 0]);
}

#[test]
fn joins_are_read_back() {
    assert_eq!(Join::read(&join().bytes()), Some(join()));
    for seed in 0..SEEDS {
        let bytes = drawn(seed).bytes();
        let read = Join::read(&bytes).unwrap_or_else(|| panic!("seed {seed}"));
        assert_eq!(read, drawn(seed), "seed {seed}");
        assert_eq!(read.bytes(), bytes, "seed {seed}");
    }
}

#[test]
fn a_join_is_there_whole_and_alone() {
    assert!(only_whole(&join().bytes(), Join::read));
    for seed in 0..SEEDS {
        assert!(only_whole(&drawn(seed).bytes(), Join::read), "seed {seed}");
    }
}

#[test]
fn bytes_that_no_join_has() {
    let faults = [
        ("no figures", 0, 0),
        ("figures twice", 0, 2),
        ("a source", 2, 5),
        ("flags, with bounds", 3, 7),
        ("the source of the match", 28, 5),
        ("an absent bound", FIRST_CLASS + 2 + 2 + 8, 1),
        ("flags, without bounds", FIRST_CLASS + 3, 4),
        ("a class's columns, equal", FIRST_CLASS + 2 + 26, 2),
        ("a class's columns, falling", FIRST_CLASS + 2 + 26, 3),
        ("ordinary", NON_NULL - 3, 2),
        ("non-null columns, equal", NON_NULL, 2),
        ("non-null columns, falling", NON_NULL, 9),
    ];
    for (fault, at, byte) in faults {
        let mut bytes = join().bytes();
        assert_ne!(bytes[at], byte, "{fault}");
        bytes[at] = byte;
        assert_eq!(Join::read(&bytes), None, "{fault}");
    }
}

#[test]
fn counts_that_reach_behind_the_end() {
    for at in [FIRST_CLASS - 2, SECOND_CLASS, COVERAGE - 2, NON_NULL - 2] {
        let mut bytes = join().bytes();
        bytes[at..at + 2].fill(0xff);
        assert_eq!(Join::read(&bytes), None, "{at}");
    }
}

#[test]
fn estimates_are_read_back() {
    for seed in 0..SEEDS {
        let drawn = estimate(&mut Random::new(seed));
        let bytes = predicate_bytes(&drawn);
        let read = Estimate::read(&bytes).unwrap_or_else(|| panic!("seed {seed}"));
        assert_eq!(read, drawn, "seed {seed}");
        assert_eq!(predicate_bytes(&read), bytes, "seed {seed}");
        assert!(only_whole(&bytes, Estimate::read), "seed {seed}");
    }
}

#[test]
fn bytes_that_no_estimate_has() {
    for (at, byte) in [(0, 5), (0, 255), (1, 7), (1, 0), (1, 1), (1, 2)] {
        let mut bytes = predicate_bytes(&Estimate {
            lower: Some(0.5),
            ..bounded(0.75)
        });
        bytes[at] = byte;
        assert_eq!(Estimate::read(&bytes), None, "{at}: {byte}");
    }
}

#[test]
fn splits_are_read_back() {
    let splits: [&[u16]; 4] = [&[], &[0], &[7, 7, 3], &[255; 512]];
    for split in splits {
        let bytes = split_bytes(split);
        assert_eq!(bytes.len(), 2 + 2 * split.len());
        assert_eq!(read_split(&bytes).as_deref(), Some(split));
        assert!(only_whole(&bytes, read_split));
    }
}
