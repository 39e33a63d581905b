//! Damaged copies meet every refusal that bytes can meet.

use sheet::damage::damaged;
use sheet::generator::sheet;
use sheet::{reader, writer};

const SEEDS: u64 = 20_000;

/// How often each number was given; 0 stands for accepted.
fn numbers(seeds: u64) -> [usize; 11] {
    let mut seen = [0; 11];
    for seed in 0..seeds {
        let bytes = damaged(seed, &sheet(seed));
        let number = match reader::read(&bytes) {
            Ok(read) => {
                assert_eq!(writer::write(&read.sheet), bytes, "seed {seed}");
                0
            }
            Err(refusal) => {
                assert!(refusal.at <= bytes.len(), "seed {seed}");
                refusal.number
            }
        };
        seen[usize::from(number)] += 1;
    }
    seen
}

#[test]
fn every_number_is_met_often() {
    let seen = numbers(SEEDS);
    assert!(seen[0] < SEEDS as usize / 8, "{seen:?}");
    assert!(seen[1] >= 50, "{seen:?}");
    for number in 2..=10 {
        assert!(seen[number] >= 300, "{number}: {seen:?}");
    }
}

#[test]
fn equal_seeds_give_equal_damage() {
    for seed in 0..2_000 {
        let sheet = sheet(seed);
        assert_eq!(damaged(seed, &sheet), damaged(seed, &sheet));
    }
}

#[test]
fn one_sheet_is_damaged_in_many_ways() {
    let sheet = sheet(5);
    let mut copies: Vec<Vec<u8>> = (0..500).map(|seed| damaged(seed, &sheet)).collect();
    copies.sort();
    copies.dedup();
    assert!(copies.len() > 400, "{}", copies.len());
}
