//! Each of the twelve refusals, through every function that can give it.

use estimates::{
    LONGEST_JOIN, Refusal, join, join_bytes, predicate, predicate_bytes, split, split_bytes,
};
use sheet::samples::{column, empty, from_catalog};
use sheet::values::{Column, Estimate, Expression, Scalar, Sheet};
use sheet::worked;
use sheet::writer::write;

/// What a byte of an output holds before the call.
const BEFORE: u8 = 0xA5;

/// Whether a call is refused so, and leaves outputs of several lengths as they were.
fn refuses(due: Refusal, call: impl Fn(&mut [u8]) -> Result<usize, Refusal>) -> bool {
    [0, 1, 26, 68, LONGEST_JOIN].into_iter().all(|size| {
        let mut out = vec![BEFORE; size];
        call(&mut out) == Err(due) && out.iter().all(|byte| *byte == BEFORE)
    })
}

/// All functions refuse the sheet so, whichever expression is named.
fn all_refuse(sheet: &[u8], due: Refusal) {
    assert_eq!(join(sheet), Err(due));
    assert!(refuses(due, |out| join_bytes(sheet, out)), "{due}");
    for number in [0, u16::MAX] {
        assert_eq!(predicate(sheet, number), Err(due));
        assert_eq!(split(sheet, number), Err(due));
        let predicate = refuses(due, |out| predicate_bytes(sheet, number, out));
        assert!(predicate, "{due}");
        assert!(refuses(due, |out| split_bytes(sheet, number, out)), "{due}");
    }
}

fn with_column(of: Column) -> Vec<u8> {
    write(&Sheet {
        columns: [vec![of], vec![]],
        ..empty()
    })
}

fn with_left_rows(rows: Estimate) -> Vec<u8> {
    write(&Sheet {
        rows: [rows, from_catalog(50.0)],
        ..empty()
    })
}

#[test]
fn too_long_too_short_and_left_over() {
    let whole = write(&empty());
    let longer = |length| {
        let mut bytes = whole.clone();
        bytes.resize(length, 0);
        bytes
    };
    all_refuse(&longer(65_536), Refusal::SheetTooLong);
    all_refuse(&longer(65_535), Refusal::BytesLeftOver);
    all_refuse(&longer(whole.len() + 1), Refusal::BytesLeftOver);
    all_refuse(&whole[..whole.len() - 1], Refusal::SheetEndsInside);
    all_refuse(&[], Refusal::SheetEndsInside);
}

#[test]
fn counts_figures_scalars_and_codes() {
    for sheet in worked::refused() {
        all_refuse(&write(&sheet), Refusal::CountOutsideLimit);
    }
    let rows = with_left_rows(from_catalog(2f64.powi(65)));
    all_refuse(&rows, Refusal::FigureOutsideRange);
    let minus_zero = with_column(Column {
        lower: Some(Scalar::Float64(-0.0)),
        ..column(1)
    });
    all_refuse(&minus_zero, Refusal::BadScalar);
    let source = with_left_rows(Estimate {
        source: 5,
        ..from_catalog(100.0)
    });
    all_refuse(&source, Refusal::BadCode);
}

#[test]
fn columns_names_and_runs() {
    all_refuse(&with_column(column(128)), Refusal::BadOrder);
    let no_expression = Sheet {
        conjuncts: vec![0],
        ..empty()
    };
    all_refuse(&write(&no_expression), Refusal::NamesNoRecord);
    let run = Expression::Nary {
        op: worked::AND,
        first: 1,
        count: 0,
    };
    let late = Sheet {
        expressions: vec![run],
        ..empty()
    };
    all_refuse(&write(&late), Refusal::BadOperandRun);
}

#[test]
fn an_expression_that_is_not_there() {
    let due = Refusal::NoSuchExpression;
    let sheet = write(&worked::an_equality());
    for number in [4, 256, u16::MAX] {
        assert_eq!(predicate(&sheet, number), Err(due));
        assert_eq!(split(&sheet, number), Err(due));
        assert!(refuses(due, |out| predicate_bytes(&sheet, number, out)));
        assert!(refuses(due, |out| split_bytes(&sheet, number, out)));
    }
    assert!(predicate(&sheet, 3).is_ok() && split(&sheet, 3).is_ok());
}

/// Each call with an output that is one byte short.
#[test]
fn an_output_that_is_too_short() {
    let due = Err(Refusal::OutputTooShort);
    let sheet = write(&empty());
    let mut out = [BEFORE; 67];
    assert_eq!(join_bytes(&sheet, &mut out), due);
    assert_eq!(out, [BEFORE; 67]);
    let sheet = write(&worked::an_equality());
    let mut out = [BEFORE; 25];
    assert_eq!(predicate_bytes(&sheet, 3, &mut out), due);
    assert_eq!(out, [BEFORE; 25]);
    let mut out = [BEFORE; 3];
    assert_eq!(split_bytes(&sheet, 3, &mut out), due);
    assert_eq!(out, [BEFORE; 3]);
}
