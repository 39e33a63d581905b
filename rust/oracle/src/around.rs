// What stands around the cut functions in each of their modules: their imports, and how a sheet
// is handed to them and their answers are read.

use crate::answer;
use crate::catalog::{
    Catalog, ForeignKey, MemoryCatalog, TableConstraints, TableRef, TableStatistics, UniqueKey,
};
use crate::power::PowerOfDocument01;
use crate::stand_ins::optd_sketches;
use crate::stand_ins::{BaseColumn, DataType, QueryContext, Schema, ValueId};
use crate::statistics::{ColumnSketches, EncodedScalarValue, SKETCH_VALUE_ENCODING_VERSION};
use crate::{
    BinaryOp, Column, Expr, ExprData, NaryOp, Operator, ScalarFunction, ScalarValue, UnaryOp,
};
use sheet::values;
use std::collections::{BTreeMap, BTreeSet};
use std::sync::Arc;

/// A sheet as the optimizer's own values.
pub struct Loaded {
    left: CardinalityProfile,
    right: CardinalityProfile,
    config: CardinalityEstimationConfig,
    catalog: MemoryCatalog,
    ctx: QueryContext,
    conjuncts: Vec<Expr>,
}

fn source_of(number: u8) -> EstimateSource {
    match number {
        0 => EstimateSource::Exact,
        1 => EstimateSource::Catalog,
        2 => EstimateSource::Sketch,
        3 => EstimateSource::Derived,
        _ => EstimateSource::Default,
    }
}

fn source_number(source: EstimateSource) -> u8 {
    match source {
        EstimateSource::Exact => 0,
        EstimateSource::Catalog => 1,
        EstimateSource::Sketch => 2,
        EstimateSource::Derived => 3,
        EstimateSource::Default => 4,
    }
}

pub fn estimate_of(e: &values::Estimate) -> Estimate {
    Estimate {
        value: e.value,
        lower: e.lower,
        upper: e.upper,
        source: source_of(e.source),
    }
}

pub fn estimate_values(e: &Estimate) -> values::Estimate {
    values::Estimate {
        source: source_number(e.source),
        value: e.value,
        lower: e.lower,
        upper: e.upper,
    }
}

pub fn scalar_of(scalar: &values::Scalar) -> ScalarValue {
    match *scalar {
        values::Scalar::Null => ScalarValue::Null(DataType),
        values::Scalar::Boolean(value) => ScalarValue::Boolean(value),
        values::Scalar::Int32(value) => ScalarValue::Int32(value),
        values::Scalar::Int64(value) => ScalarValue::Int64(value),
        values::Scalar::Float64(value) => ScalarValue::Float64(value),
        values::Scalar::Decimal128 {
            precision,
            scale,
            value,
        } => ScalarValue::Decimal128 {
            value: value.into(),
            precision,
            scale: scale as i8,
        },
        values::Scalar::Date32(value) => ScalarValue::Date32(value),
        values::Scalar::IntervalMonthDayNano {
            months,
            days,
            nanoseconds,
        } => ScalarValue::IntervalMonthDayNano {
            months,
            days,
            nanoseconds,
        },
        values::Scalar::IntervalDayTime { days, milliseconds } => {
            ScalarValue::IntervalDayTime { days, milliseconds }
        }
    }
}

fn table_ref(table: u16) -> TableRef {
    TableRef::bare(format!("table {table}"))
}

fn column_name(name: u16) -> String {
    format!("column {name}")
}

/// An item whose value has no encoding, a Null, stands in no accepted sheet.
fn sketches_of(sketch: &values::Sketch) -> Arc<ColumnSketches> {
    let items = sketch
        .items
        .iter()
        .filter_map(|item| {
            let value = EncodedScalarValue::from_scalar(&scalar_of(&item.value))?;
            Some(optd_sketches::FrequentItem::new(
                value, item.lower, item.error,
            ))
        })
        .collect();
    Arc::new(ColumnSketches {
        encoding_version: SKETCH_VALUE_ENCODING_VERSION,
        population_rows: sketch.population,
        distinct_values: None,
        frequent_values: Some(optd_sketches::SpaceSaving::new(items)),
    })
}

fn column_profile(column: &values::Column, sketches: &[Arc<ColumnSketches>]) -> ColumnProfile {
    ColumnProfile {
        lower_bound: column.lower.as_ref().map(scalar_of),
        upper_bound: column.upper.as_ref().map(scalar_of),
        frequency: estimate_of(&column.frequency),
        distinct: estimate_of(&column.distinct),
        value: column.base.map(|(table, name)| {
            ValueId::Base(BaseColumn {
                table: table_ref(table),
                name: column_name(name),
            })
        }),
        sketches: column
            .sketch
            .map(|number| sketches[number as usize].clone()),
    }
}

fn class_of(class: &values::Class) -> ColumnEquivalenceClass {
    ColumnEquivalenceClass {
        columns: class
            .columns
            .iter()
            .map(|column| Column(*column as usize))
            .collect(),
        distinct: estimate_of(&class.distinct),
    }
}

fn profile_of(
    sheet: &values::Sheet,
    side: usize,
    sketches: &[Arc<ColumnSketches>],
) -> CardinalityProfile {
    CardinalityProfile {
        rows: estimate_of(&sheet.rows[side]),
        columns: sheet.columns[side]
            .iter()
            .map(|column| {
                (
                    Column(column.column as usize),
                    column_profile(column, sketches),
                )
            })
            .collect(),
        equivalence_classes: sheet.classes[side].iter().map(class_of).collect(),
    }
}

fn constraints_of(sheet: &values::Sheet, of: u16) -> TableConstraints {
    let mut unique = Vec::new();
    let mut foreign = Vec::new();
    for key in &sheet.keys {
        match *key {
            values::Key::Unique { key: (table, name) } if table == of => {
                unique.push(UniqueKey::try_new(vec![column_name(name)]).expect("one column"));
            }
            values::Key::Foreign {
                key: (table, name),
                referenced,
            } if table == of => {
                let there = (table_ref(referenced.0), vec![column_name(referenced.1)]);
                let key = ForeignKey::try_new(vec![column_name(name)], there.0, there.1);
                foreign.push(key.expect("one column each"));
            }
            _ => {}
        }
    }
    TableConstraints {
        unique_keys: crate::catalog::BoundedVec::try_new(unique).expect("a sheet's keys fit"),
        foreign_keys: crate::catalog::BoundedVec::try_new(foreign).expect("a sheet's keys fit"),
    }
}

/// The optimizer's own catalog in memory, with the sheet's tables and their keys.
fn catalog_of(sheet: &values::Sheet) -> MemoryCatalog {
    let catalog = MemoryCatalog::new("sheet", "tables");
    for table in &sheet.tables {
        let statistics = TableStatistics {
            row_count: table.rows.map(|rows| rows as usize),
            size_bytes: None,
            column_statistics: BTreeMap::new(),
            constraints: constraints_of(sheet, table.table),
        };
        catalog
            .create_table(table_ref(table.table), Arc::new(Schema), None)
            .expect("a sheet's tables differ");
        catalog
            .set_table_statistics(table_ref(table.table), statistics)
            .expect("the table was made");
    }
    catalog
}

fn expr(number: u16) -> Expr {
    Expr(number as usize)
}

fn unary_of(op: u8) -> UnaryOp {
    [
        UnaryOp::Not,
        UnaryOp::IsNull,
        UnaryOp::IsNotNull,
        UnaryOp::Negate,
    ][op as usize]
}

fn binary_of(op: u8) -> BinaryOp {
    [
        BinaryOp::Eq,
        BinaryOp::IsNotDistinctFrom,
        BinaryOp::NotEq,
        BinaryOp::Lt,
        BinaryOp::LtEq,
        BinaryOp::Gt,
        BinaryOp::GtEq,
        BinaryOp::Add,
        BinaryOp::Subtract,
        BinaryOp::Multiply,
        BinaryOp::Divide,
    ][op as usize]
}

/// The expressions that a sheet holds as any other, in turn.
fn other(number: usize) -> ExprData {
    let subquery = Operator(0);
    match number % 6 {
        0 => ExprData::Cast {
            expr: expr(0),
            ty: DataType,
        },
        1 => ExprData::CaseWhen {
            when_then: Vec::new(),
            else_expr: None,
        },
        2 => ExprData::ScalarFunction {
            function: ScalarFunction::Abs,
            args: vec![expr(0)],
        },
        3 => ExprData::Exists {
            subquery,
            negated: false,
        },
        4 => ExprData::InSubquery {
            expr: expr(0),
            subquery,
            negated: true,
        },
        _ => ExprData::ScalarSubquery { subquery },
    }
}

fn expression(sheet: &values::Sheet, number: usize) -> ExprData {
    match sheet.expressions[number] {
        values::Expression::Literal(value) => ExprData::Literal(scalar_of(&value)),
        values::Expression::Column(column) => ExprData::ColumnRef(Column(column as usize)),
        values::Expression::Unary { op, child } => ExprData::Unary {
            op: unary_of(op),
            expr: expr(child),
        },
        values::Expression::Binary { op, left, right } => ExprData::Binary {
            op: binary_of(op),
            left: expr(left),
            right: expr(right),
        },
        values::Expression::Nary { op, first, count } => ExprData::Nary {
            op: [NaryOp::And, NaryOp::Or][op as usize],
            exprs: sheet.operands[first as usize..][..count as usize]
                .iter()
                .map(|e| expr(*e))
                .collect(),
        },
        values::Expression::Like => ExprData::Like {
            negated: false,
            expr: expr(0),
            pattern: expr(0),
            case_insensitive: false,
        },
        values::Expression::Other => other(number),
    }
}

/// The columns' names: only the source's log reads them, which a variable turns on.
fn named_columns() -> Vec<crate::ColumnData> {
    if !sketch_observability_enabled() {
        return Vec::new();
    }
    let named = |column| crate::ColumnData {
        name: format!("column {column}"),
        ty: DataType,
        qualifier: None,
    };
    (0..128).map(named).collect()
}

/// The optimizer's values of an accepted sheet.
pub fn load(sheet: &values::Sheet) -> Loaded {
    let sketches: Vec<_> = sheet.sketches.iter().map(sketches_of).collect();
    let [like, default_predicate, range_fallback, scan_rows, ndv_cap] = sheet.settings;
    Loaded {
        left: profile_of(sheet, 0, &sketches),
        right: profile_of(sheet, 1, &sketches),
        config: CardinalityEstimationConfig {
            like_selectivity: like,
            default_predicate_selectivity: default_predicate,
            range_fallback_selectivity: range_fallback,
            unknown_scan_rows: scan_rows,
            unknown_column_ndv_cap: ndv_cap,
        },
        catalog: catalog_of(sheet),
        ctx: QueryContext {
            exprs: (0..sheet.expressions.len())
                .map(|number| expression(sheet, number))
                .collect(),
            columns: named_columns(),
        },
        conjuncts: sheet.conjuncts.iter().map(|number| expr(*number)).collect(),
    }
}

fn columns_of(columns: &BTreeSet<Column>) -> Vec<u16> {
    columns.iter().map(|column| column.0 as u16).collect()
}

fn coverage_of(coverage: &LeftEqualityCoverage) -> answer::Coverage {
    answer::Coverage {
        column: coverage.column.0 as u16,
        figures: [
            coverage.input_distinct,
            coverage.input_non_null_fraction,
            coverage.intersection_distinct,
            coverage.non_null_match_probability,
            coverage.null_match_probability,
        ],
        ordinary: coverage.ordinary_non_null,
    }
}

impl Loaded {
    pub fn join(&self) -> answer::Join {
        let join = join_selectivity_from_conjuncts_with_config(
            &self.left,
            &self.right,
            &self.conjuncts,
            &self.ctx,
            &self.config,
            Some(&self.catalog),
        );
        answer::Join {
            selectivity: estimate_values(&join.selectivity),
            matching: estimate_values(&join.match_probability),
            residual: join.residual_selectivity,
            classes: join
                .equivalence_classes
                .iter()
                .map(|class| values::Class {
                    distinct: estimate_values(&class.distinct),
                    columns: columns_of(&class.columns),
                })
                .collect(),
            coverages: join
                .left_equality_coverages
                .iter()
                .map(coverage_of)
                .collect(),
            non_null: columns_of(&join.non_null_equality_columns),
        }
    }

    pub fn predicate(&self, expression: u16) -> values::Estimate {
        let figure = filter_selectivity_for_predicate(
            &self.left,
            &self.right,
            expr(expression),
            &self.ctx,
            &self.config,
        );
        estimate_values(&figure)
    }

    pub fn split(&self, expression: u16) -> Vec<u16> {
        conjuncts(expr(expression), &self.ctx)
            .iter()
            .map(|part| part.0 as u16)
            .collect()
    }
}

/// All answers on an accepted sheet.
pub fn answers(sheet: &values::Sheet) -> answer::Answers {
    let loaded = load(sheet);
    let numbers = 0..sheet.expressions.len() as u16;
    answer::Answers {
        join: loaded.join(),
        predicates: numbers
            .clone()
            .map(|number| loaded.predicate(number))
            .collect(),
        splits: numbers.map(|number| loaded.split(number)).collect(),
    }
}

/// For a slip: the conjuncts with every And taken apart.
fn all_split(expressions: &[Expr], ctx: &QueryContext) -> Vec<Expr> {
    expressions
        .iter()
        .flat_map(|expression| conjuncts(*expression, ctx))
        .collect()
}

/// For a slip: the pairs, and those of neighbours in a profile's classes.
fn with_class_pairs(
    pairs: &[(Column, Column, bool)],
    left: &CardinalityProfile,
    right: &CardinalityProfile,
) -> Vec<(Column, Column, bool)> {
    let mut all = pairs.to_vec();
    for class in left
        .equivalence_classes
        .iter()
        .chain(&right.equivalence_classes)
    {
        let columns: Vec<Column> = class.columns.iter().copied().collect();
        all.extend(columns.windows(2).map(|pair| (pair[0], pair[1], true)));
    }
    all
}

/// `scalar_to_f64`, which is private to its file.
pub fn number(value: &ScalarValue) -> Option<f64> {
    scalar_to_f64(value)
}

/// `max_by_value`, which is private to its file.
pub fn larger(left: &Estimate, right: &Estimate) -> Estimate {
    left.max_by_value(right.clone())
}

/// `min_by_value`, which is private to its file.
pub fn smaller(left: &Estimate, right: &Estimate) -> Estimate {
    left.min_by_value(right.clone())
}

/// `scalar_interval_fraction`, which is private to its file.
pub fn fraction(of: [&ScalarValue; 4]) -> Option<f64> {
    scalar_interval_fraction(of[0], of[1], of[2], of[3])
}

/// `estimated_distinct_intersection`, which is private to its file, of two columns: how many values
/// they share, and whether their ranges are disjoint. A column's sketch has no part in it.
pub fn intersection(left: &values::Column, right: &values::Column) -> (f64, bool) {
    let without_sketch = |column: &values::Column| {
        let column = values::Column {
            sketch: None,
            ..column.clone()
        };
        column_profile(&column, &[])
    };
    let shared = estimated_distinct_intersection(
        &without_sketch(left),
        &without_sketch(right),
        left.distinct.value,
        right.distinct.value,
    );
    (shared.distinct, shared.domains_disjoint)
}
