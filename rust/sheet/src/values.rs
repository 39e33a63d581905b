//! A join sheet as values, as document 01 has it.
//!
//! Nothing here keeps a rule: [`crate::reader`] judges bytes, and a `Sheet` may hold what no
//! sheet may, so that refused sheets can be written too.

/// The sections, in the order in which they stand.
#[derive(Debug, Clone, Copy, PartialEq, Eq, PartialOrd, Ord, Hash)]
pub enum Section {
    Rows,
    Settings,
    Sketches,
    Tables,
    Keys,
    LeftColumns,
    RightColumns,
    LeftClasses,
    RightClasses,
    Expressions,
    Operands,
    Conjuncts,
}

/// All sections, first to last.
pub const SECTIONS: [Section; 12] = [
    Section::Rows,
    Section::Settings,
    Section::Sketches,
    Section::Tables,
    Section::Keys,
    Section::LeftColumns,
    Section::RightColumns,
    Section::LeftClasses,
    Section::RightClasses,
    Section::Expressions,
    Section::Operands,
    Section::Conjuncts,
];

/// A figure with its bounds. `source` counts in the order of the source's `EstimateSource`.
#[derive(Debug, Clone, Copy, PartialEq)]
pub struct Estimate {
    pub source: u8,
    pub value: f64,
    pub lower: Option<f64>,
    pub upper: Option<f64>,
}

#[derive(Debug, Clone, Copy, PartialEq)]
pub enum Scalar {
    Null,
    Boolean(bool),
    Int32(i32),
    Int64(i64),
    Float64(f64),
    Decimal128 {
        precision: u8,
        scale: u8,
        value: i64,
    },
    Date32(i32),
    IntervalMonthDayNano {
        months: i32,
        days: i32,
        nanoseconds: i64,
    },
    IntervalDayTime {
        days: i32,
        milliseconds: i32,
    },
}

#[derive(Debug, Clone, PartialEq)]
pub struct Sketch {
    pub population: u64,
    pub items: Vec<SketchItem>,
}

#[derive(Debug, Clone, Copy, PartialEq)]
pub struct SketchItem {
    pub value: Scalar,
    pub lower: u64,
    pub error: u64,
}

/// `rows` is absent where the sheet has all ones.
#[derive(Debug, Clone, Copy, PartialEq, Eq)]
pub struct Table {
    pub table: u16,
    pub rows: Option<u64>,
}

/// A key of one column: (table, column name).
#[derive(Debug, Clone, Copy, PartialEq, Eq)]
pub enum Key {
    Unique {
        key: (u16, u16),
    },
    Foreign {
        key: (u16, u16),
        referenced: (u16, u16),
    },
}

/// `base` is (table, column name).
#[derive(Debug, Clone, Copy, PartialEq)]
pub struct Column {
    pub column: u16,
    pub base: Option<(u16, u16)>,
    pub lower: Option<Scalar>,
    pub upper: Option<Scalar>,
    pub frequency: Estimate,
    pub distinct: Estimate,
    pub sketch: Option<u16>,
}

#[derive(Debug, Clone, PartialEq)]
pub struct Class {
    pub distinct: Estimate,
    pub columns: Vec<u16>,
}

/// Ops count from 0 in the order of the source's enums.
#[derive(Debug, Clone, Copy, PartialEq)]
pub enum Expression {
    Literal(Scalar),
    Column(u16),
    Unary { op: u8, child: u16 },
    Binary { op: u8, left: u16, right: u16 },
    Nary { op: u8, first: u16, count: u16 },
    Like,
    Other,
}

/// Left is side 0 and right is side 1 wherever there is one of each.
#[derive(Debug, Clone, PartialEq)]
pub struct Sheet {
    pub rows: [Estimate; 2],
    pub settings: [f64; 5],
    pub sketches: Vec<Sketch>,
    pub tables: Vec<Table>,
    pub keys: Vec<Key>,
    pub columns: [Vec<Column>; 2],
    pub classes: [Vec<Class>; 2],
    pub expressions: Vec<Expression>,
    pub operands: Vec<u16>,
    pub conjuncts: Vec<u16>,
}

/// The source's own settings, where a sheet tells no others.
pub const DEFAULT_SETTINGS: [f64; 5] = [0.1, 0.25, 0.33, 1000.0, 100.0];

impl Sheet {
    /// A sheet with its rows and settings and nothing else.
    pub fn bare(rows: [Estimate; 2], settings: [f64; 5]) -> Sheet {
        Sheet {
            rows,
            settings,
            sketches: Vec::new(),
            tables: Vec::new(),
            keys: Vec::new(),
            columns: [Vec::new(), Vec::new()],
            classes: [Vec::new(), Vec::new()],
            expressions: Vec::new(),
            operands: Vec::new(),
            conjuncts: Vec::new(),
        }
    }
}

/// What a field of a sheet's bytes holds.
#[derive(Debug, Clone, Copy, PartialEq, Eq, Hash)]
pub enum Holds {
    /// A section's count.
    Count,
    /// The number of a sketch's items or of a class's columns.
    Length,
    /// An estimate's source.
    Source,
    /// An estimate's flags.
    Flags,
    /// A binary64 figure of an estimate, present or absent.
    Figure,
    /// A setting.
    Setting,
    /// A population, a frequency, an error or a table's rows.
    Whole,
    /// The 19 bytes of a scalar.
    Scalar,
    /// A listed table's number.
    Table,
    /// A key's kind.
    KeyKind,
    /// A table or a name that is a label.
    Label,
    /// A column's number.
    Column,
    /// A sketch's number.
    Sketch,
    /// An expression's kind.
    Kind,
    /// An expression's op.
    Op,
    /// An expression's a or b.
    Child,
    /// An operand or a conjunct.
    Named,
}

/// A field of a sheet's bytes: `record` counts from 0 within its section, and `item` within its
/// record where the record has items.
#[derive(Debug, Clone, Copy, PartialEq, Eq)]
pub struct Field {
    pub section: Section,
    pub record: Option<usize>,
    pub item: Option<usize>,
    pub name: &'static str,
    pub holds: Holds,
    pub at: usize,
    pub size: usize,
}
