//! Hand-made sheets.

use crate::values::{
    Class, Column, DEFAULT_SETTINGS, Estimate, Expression, Key, Scalar, Sheet, Sketch, SketchItem,
    Table,
};

/// A value of source 1, without bounds.
pub fn from_catalog(value: f64) -> Estimate {
    Estimate {
        source: 1,
        value,
        lower: None,
        upper: None,
    }
}

/// Rows 100 and 50, the default settings and nothing else.
pub fn empty() -> Sheet {
    let rows = [from_catalog(100.0), from_catalog(50.0)];
    Sheet::bare(rows, DEFAULT_SETTINGS)
}

/// One scalar of each type, and the outermost ones of some.
pub fn scalars() -> Vec<Scalar> {
    let decimal = |precision, scale, value| Scalar::Decimal128 {
        precision,
        scale,
        value,
    };
    let mut scalars = vec![
        Scalar::Boolean(false),
        Scalar::Boolean(true),
        Scalar::Int32(-2),
        Scalar::Int64(-2),
        Scalar::Float64(0.0),
        Scalar::Float64(-1.5),
        Scalar::Float64(2f64.powi(-400)),
        Scalar::Float64(-2f64.powi(400)),
        decimal(1, 0, i64::MIN),
        decimal(38, 22, i64::MAX),
        decimal(38, 22, 0),
        decimal(38, 21, 0),
        Scalar::Date32(-2),
    ];
    scalars.push(Scalar::IntervalMonthDayNano {
        months: -1,
        days: 2,
        nanoseconds: i64::MIN,
    });
    scalars.push(Scalar::IntervalDayTime {
        days: -1,
        milliseconds: i32::MAX,
    });
    scalars
}

pub fn column(column: u16) -> Column {
    Column {
        column,
        base: None,
        lower: None,
        upper: None,
        frequency: from_catalog(100.0),
        distinct: from_catalog(10.0),
        sketch: None,
    }
}

fn sketch_of(values: &[Scalar]) -> Sketch {
    let items = values.iter().zip(0..).map(|(value, number)| SketchItem {
        value: *value,
        lower: number,
        error: 1 << 53,
    });
    Sketch {
        population: 1 << 53,
        items: items.collect(),
    }
}

/// Expression 2: column 1 is 3. The column has a sketch without items.
pub fn an_empty_sketch() -> Sheet {
    let column = Column {
        frequency: from_catalog(75.0),
        sketch: Some(0),
        ..column(1)
    };
    Sheet {
        sketches: vec![Sketch {
            population: 100,
            items: vec![],
        }],
        columns: [vec![column], vec![]],
        expressions: vec![
            Expression::Column(1),
            Expression::Literal(Scalar::Int32(3)),
            Expression::Binary {
                op: 0,
                left: 0,
                right: 1,
            },
        ],
        ..empty()
    }
}

fn tables() -> Vec<Table> {
    let table = |table, rows| Table { table, rows };
    vec![
        table(0, Some(0)),
        table(7, Some(1 << 53)),
        table(65_535, None),
    ]
}

fn keys() -> Vec<Key> {
    let (key, referenced) = ((1, 2), (7, 0));
    let none = (65_535, 65_535);
    vec![
        Key::Unique { key },
        Key::Unique { key: none },
        Key::Foreign { key, referenced },
        Key::Foreign {
            key: none,
            referenced: none,
        },
        Key::Foreign {
            key,
            referenced: (65_535, 0),
        },
    ]
}

fn columns() -> [Vec<Column>; 2] {
    let left = Column {
        base: Some((7, 65_534)),
        lower: Some(Scalar::Int32(0)),
        upper: Some(Scalar::Float64(9.0)),
        frequency: Estimate {
            source: 0,
            value: 0.0,
            lower: Some(2f64.powi(-64)),
            upper: Some(2f64.powi(64)),
        },
        distinct: Estimate {
            source: 4,
            value: 2f64.powi(64),
            lower: None,
            upper: Some(0.0),
        },
        sketch: Some(1),
        ..column(0)
    };
    let right = Column {
        lower: Some(Scalar::Null),
        sketch: Some(0),
        ..column(2)
    };
    [vec![left, column(127)], vec![right, column(3), column(4)]]
}

fn classes() -> [Vec<Class>; 2] {
    let class = |columns: Vec<u16>| Class {
        distinct: Estimate {
            lower: Some(1.0),
            ..from_catalog(10.0)
        },
        columns,
    };
    [
        vec![class(vec![0, 127]), class(vec![0, 1, 2])],
        vec![class(vec![3, 4])],
    ]
}

/// Each kind with each of its ops. The operands of the last four are 0, 1, 1 and the last but
/// one, which has no operands.
fn expressions() -> (Vec<Expression>, Vec<u16>) {
    let mut all = vec![Expression::Column(127), Expression::Column(0)];
    all.extend(scalars().into_iter().map(Expression::Literal));
    all.push(Expression::Literal(Scalar::Null));
    all.push(Expression::Like);
    all.push(Expression::Other);
    all.extend((0..4).map(|op| Expression::Unary { op, child: 0 }));
    for op in 0..11 {
        let right = all.len() as u16 - 1;
        all.push(Expression::Binary { op, left: 0, right });
    }
    let run = |op, first, count| Expression::Nary { op, first, count };
    all.extend([run(0, 0, 2), run(1, 2, 1), run(1, 3, 0), run(0, 3, 1)]);
    let last_but_one = all.len() as u16 - 2;
    (all, vec![0, 1, 1, last_but_one])
}

/// A sheet with every kind of record.
pub fn full() -> Sheet {
    let (expressions, operands) = expressions();
    let last = expressions.len() as u16 - 1;
    let row = Estimate {
        source: 3,
        value: 1.5,
        lower: Some(1.0),
        upper: Some(2.0),
    };
    Sheet {
        rows: [row, from_catalog(0.0)],
        settings: [0.0, 1.0, 2f64.powi(-64), 2f64.powi(64), 0.0],
        sketches: vec![
            sketch_of(&[]),
            sketch_of(&scalars()),
            sketch_of(&[Scalar::Int32(3)]),
        ],
        tables: tables(),
        keys: keys(),
        columns: columns(),
        classes: classes(),
        expressions,
        operands,
        conjuncts: vec![last, 0, last],
    }
}

/// A sheet that is as large as every limit lets it be.
pub fn largest() -> Sheet {
    let values: Vec<_> = (0..32).map(Scalar::Int32).collect();
    let columns: Vec<_> = (64..128).map(column).collect();
    let class = Class {
        distinct: from_catalog(1.0),
        columns: (0..128).collect(),
    };
    let mut expressions = vec![Expression::Other; 255];
    expressions.push(Expression::Nary {
        op: 0,
        first: 0,
        count: 512,
    });
    Sheet {
        sketches: vec![sketch_of(&values); 16],
        tables: (0..64).map(|table| Table { table, rows: None }).collect(),
        keys: vec![Key::Unique { key: (1, 1) }; 64],
        columns: [columns.clone(), columns],
        classes: [vec![class.clone(); 32], vec![class; 32]],
        expressions,
        operands: vec![254; 512],
        conjuncts: vec![255; 64],
        ..empty()
    }
}
