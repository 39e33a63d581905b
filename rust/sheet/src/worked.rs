//! The sheets of document 01's worked cases.

use crate::samples::{self, empty, from_catalog};
use crate::values::{Class, Column, Expression, Scalar, Sheet};

pub const EQ: u8 = 0;
pub const IS_NOT_DISTINCT_FROM: u8 = 1;
pub const AND: u8 = 0;
pub const OR: u8 = 1;

/// A column's profile with nothing but its frequency and distinct.
pub fn column(number: u16, frequency: f64, distinct: f64) -> Column {
    Column {
        frequency: from_catalog(frequency),
        distinct: from_catalog(distinct),
        ..samples::column(number)
    }
}

/// The left column of the cases.
pub fn first() -> Column {
    column(1, 100.0, 10.0)
}

/// The right column of the cases.
pub fn second() -> Column {
    column(2, 50.0, 25.0)
}

/// An equality of two of the columns 1 to 3.
pub fn equality(op: u8, left: u16, right: u16) -> Expression {
    Expression::Binary {
        op,
        left: left - 1,
        right: right - 1,
    }
}

/// Columns 1 to 3 are expressions 0 to 2, and the conjuncts stand behind them.
pub fn with_conjuncts(left: Column, right: Column, conjuncts: &[Expression]) -> Sheet {
    let mut expressions = vec![
        Expression::Column(1),
        Expression::Column(2),
        Expression::Column(3),
    ];
    expressions.extend(conjuncts);
    Sheet {
        columns: [vec![left], vec![right]],
        conjuncts: (3..expressions.len() as u16).collect(),
        expressions,
        ..empty()
    }
}

pub fn an_equality() -> Sheet {
    with_conjuncts(first(), second(), &[equality(EQ, 1, 2)])
}

pub fn a_residual() -> Sheet {
    let conjuncts = [equality(EQ, 1, 2), Expression::Other];
    with_conjuncts(first(), second(), &conjuncts)
}

pub fn a_null_safe_equality() -> Sheet {
    with_conjuncts(
        column(1, 75.0, 8.0),
        column(2, 25.0, 4.0),
        &[equality(IS_NOT_DISTINCT_FROM, 1, 2)],
    )
}

fn bounded(of: Column, lower: i32, upper: i32) -> Column {
    Column {
        lower: Some(Scalar::Int32(lower)),
        upper: Some(Scalar::Int32(upper)),
        ..of
    }
}

pub fn disjoint_bounds() -> Sheet {
    with_conjuncts(
        bounded(first(), 0, 9),
        bounded(second(), 10, 19),
        &[equality(EQ, 1, 2)],
    )
}

pub fn touching_bounds() -> Sheet {
    with_conjuncts(
        bounded(column(1, 100.0, 4.0), 0, 9),
        bounded(column(2, 50.0, 4.0), 9, 19),
        &[equality(EQ, 1, 2)],
    )
}

pub fn a_chain() -> Sheet {
    let conjuncts = [equality(EQ, 1, 2), equality(IS_NOT_DISTINCT_FROM, 2, 3)];
    with_conjuncts(first(), second(), &conjuncts)
}

pub fn a_self_equality() -> Sheet {
    with_conjuncts(first(), second(), &[equality(EQ, 1, 1)])
}

/// Expressions 3 and 4: the column with itself, ordinary and null-safe.
pub fn itself() -> Sheet {
    let ops = [equality(EQ, 1, 1), equality(IS_NOT_DISTINCT_FROM, 1, 1)];
    with_conjuncts(column(1, 75.0, 10.0), second(), &ops)
}

/// Expressions 2 to 6: an Or of two, an empty And, an empty Or, and Ands that are nested.
pub fn ands_and_ors() -> Sheet {
    let nary = |op, first, count| Expression::Nary { op, first, count };
    Sheet {
        expressions: vec![
            Expression::Other,
            Expression::Other,
            nary(OR, 0, 2),
            nary(AND, 2, 0),
            nary(OR, 2, 0),
            nary(AND, 2, 2),
            nary(AND, 4, 3),
        ],
        operands: vec![0, 1, 0, 2, 5, 3, 1],
        ..empty()
    }
}

/// As many conjuncts as there may be.
pub fn most_conjuncts() -> Sheet {
    Sheet {
        conjuncts: vec![3; 64],
        ..an_equality()
    }
}

/// One more.
pub fn too_many_conjuncts() -> Sheet {
    Sheet {
        conjuncts: vec![3; 65],
        ..an_equality()
    }
}

/// A class of one column.
pub fn a_class_of_one() -> Sheet {
    let class = Class {
        distinct: from_catalog(1.0),
        columns: vec![1],
    };
    Sheet {
        classes: [vec![class], vec![]],
        ..an_equality()
    }
}

/// Those that are accepted.
pub fn accepted() -> [Sheet; 11] {
    [
        empty(),
        an_equality(),
        a_residual(),
        a_null_safe_equality(),
        disjoint_bounds(),
        touching_bounds(),
        a_chain(),
        a_self_equality(),
        itself(),
        ands_and_ors(),
        most_conjuncts(),
    ]
}

/// Those that 3 refuses.
pub fn refused() -> [Sheet; 2] {
    [too_many_conjuncts(), a_class_of_one()]
}
