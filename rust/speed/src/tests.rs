//! The sheets are what their names say, and both sides answer alike on them.

use crate::sides::{Call, Question, Side};
use crate::{growth, sheets};
use sheet::answers::Join;
use sheet::limits::{ALL_ITEMS, most};
use sheet::values::{Section, Sheet};
use sheet::writer::write;

fn answer(sheet: &Sheet, question: Question, side: Side) -> Vec<u8> {
    let mut call = Call::new(write(sheet), question);
    let length = call.run(side);
    call.out[..length].to_vec()
}

/// The match figures may part by the power: within 2^-24.
fn agree(sheet: &Sheet, question: Question) -> bool {
    let [library, source] = [Side::Library, Side::Source].map(|side| answer(sheet, question, side));
    let Question::Join = question else {
        return library == source;
    };
    let (library, mut source) = (
        Join::read(&library).expect("an answer"),
        Join::read(&source).expect("an answer"),
    );
    let apart = (library.matching.value - source.matching.value).abs();
    source.matching = library.matching;
    library == source && apart <= 2f64.powi(-24)
}

#[test]
fn both_sides_answer_alike() {
    for (name, sheet, question) in sheets::all() {
        assert!(agree(&sheet, question), "{name}");
    }
    for series in growth::all() {
        for (count, sheet, question) in series.sheets {
            assert!(agree(&sheet, question), "{count} {}", series.what);
        }
    }
}

fn named(name: &str) -> Sheet {
    let found = sheets::all().into_iter().find(|(each, ..)| *each == name);
    found.expect("a sheet").1
}

fn sizes(sheet: &Sheet) -> [(Section, usize); 10] {
    let [left, right] = &sheet.columns;
    let [left_classes, right_classes] = &sheet.classes;
    [
        (Section::Sketches, sheet.sketches.len()),
        (Section::Tables, sheet.tables.len()),
        (Section::Keys, sheet.keys.len()),
        (Section::LeftColumns, left.len()),
        (Section::RightColumns, right.len()),
        (Section::LeftClasses, left_classes.len()),
        (Section::RightClasses, right_classes.len()),
        (Section::Expressions, sheet.expressions.len()),
        (Section::Operands, sheet.operands.len()),
        (Section::Conjuncts, sheet.conjuncts.len()),
    ]
}

#[test]
fn every_section_is_at_its_limit() {
    for name in ["limits", "edges"] {
        let sheet = named(name);
        for (section, size) in sizes(&sheet) {
            assert_eq!(size, most(section), "{name}: {section:?}");
        }
        let items: usize = sheet.sketches.iter().map(|sketch| sketch.items.len()).sum();
        assert_eq!(items, ALL_ITEMS, "{name}");
    }
}

#[test]
fn every_edge_counts_where_classes_are_narrow() {
    let join = |name| oracle::analysis::load(&named(name)).join();
    assert_eq!(join("edges").coverages.len(), 56);
    assert!(join("limits").coverages.is_empty());
}

#[test]
fn sketches_share_64_values() {
    let sheet = named("sketches");
    assert_eq!(sheet.sketches.len(), 16);
    let [first, second] = [0, 1].map(|number| &sheet.sketches[number].items);
    let shared = first.iter().filter(|item| second.contains(item)).count();
    assert_eq!(shared, 64);
}

/// The power of the residual has digits behind the point, so that roots are taken.
#[test]
fn the_fanout_has_a_fraction() {
    oracle::watch::take_powers();
    oracle::copies::with_power::answers(&named("residual"));
    let powers = oracle::watch::take_powers();
    assert!(!powers.is_empty());
    for (base, exponent) in powers {
        assert!(base < 1.0 && exponent > 1.0 && exponent.fract() > 0.0);
    }
}

#[test]
fn each_series_grows() {
    for series in growth::all() {
        let lengths: Vec<usize> = series.sheets.iter().map(|it| write(&it.1).len()).collect();
        assert!(lengths.is_sorted_by(|a, b| a < b), "{}", series.what);
    }
}
