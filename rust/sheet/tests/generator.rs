//! Every seed gives an accepted sheet, and always the same one.

use sheet::generator::sheet;
use sheet::{reader, writer};

const SEEDS: u64 = 50_000;

#[test]
fn every_sheet_is_accepted_and_read_back_as_it_was() {
    for seed in 0..SEEDS {
        let sheet = sheet(seed);
        let bytes = writer::write(&sheet);
        match reader::read(&bytes) {
            Ok(read) => assert_eq!(read.sheet, sheet, "seed {seed}"),
            Err(refusal) => panic!("seed {seed}: {refusal:?}"),
        }
    }
}

#[test]
fn equal_seeds_give_equal_bytes() {
    for seed in 0..2_000 {
        let bytes = writer::write(&sheet(seed));
        assert_eq!(bytes, writer::write(&sheet(seed)), "seed {seed}");
        assert_ne!(bytes, writer::write(&sheet(seed + 1)), "seed {seed}");
    }
}

#[test]
fn seeds_far_apart_are_accepted_too() {
    for shift in 0..64 {
        for seed in [1 << shift, u64::MAX >> shift, u64::MAX << shift] {
            let bytes = writer::write(&sheet(seed));
            assert!(reader::read(&bytes).is_ok(), "seed {seed}");
        }
    }
}

#[test]
fn most_sheets_are_small_and_none_is_too_long() {
    let mut sizes: Vec<usize> = (0..20_000)
        .map(|seed| writer::write(&sheet(seed)).len())
        .collect();
    sizes.sort();
    assert!(sizes[10_000] < 1_800);
    assert!(sizes[19_000] < 4_500);
    assert!(sizes[19_999] <= 65_535);
}
