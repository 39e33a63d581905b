//! What the cut functions use and their four files do not have.

use crate::{ColumnData, Expr, ExprData};
use std::sync::Arc;

/// In the place of Arrow's type: no figure looks at it.
#[derive(Debug, Clone, PartialEq, Eq, Hash)]
pub struct DataType;

/// In the place of Arrow's schema.
#[derive(Debug, Clone, PartialEq, Eq)]
pub struct Schema;

pub type SchemaRef = Arc<Schema>;

/// Of the query's arenas only the two that expressions and columns look into.
#[derive(Debug, Clone, Default)]
pub struct QueryContext {
    pub exprs: Vec<ExprData>,
    pub columns: Vec<ColumnData>,
}

impl QueryContext {
    pub fn column(&self, column: crate::Column) -> &ColumnData {
        column.get(self)
    }
}

/// A column of a base table, as the analysis of logical facts has it.
#[derive(Debug, Clone, PartialEq)]
pub struct BaseColumn {
    pub table: crate::catalog::TableRef,
    pub name: String,
}

/// A sheet has values of base columns alone.
#[derive(Debug, Clone, PartialEq)]
pub enum ValueId {
    Base(BaseColumn),
}

/// The sketches' crate.
pub mod optd_sketches {
    /// No sheet has one.
    #[derive(Debug, Clone, PartialEq, Eq)]
    pub struct HyperLogLog;

    #[derive(Debug, Clone, PartialEq, Eq)]
    pub struct FrequentItem<T> {
        pub value: T,
        pub error: u64,
        lower: u64,
    }

    impl<T> FrequentItem<T> {
        pub fn new(value: T, lower: u64, error: u64) -> Self {
            Self {
                value,
                error,
                lower,
            }
        }

        pub fn lower_frequency(&self) -> u64 {
            self.lower
        }
    }

    /// The items of a sketch, in the sheet's order.
    #[derive(Debug, Clone, PartialEq, Eq)]
    pub struct SpaceSaving<T>(Vec<FrequentItem<T>>);

    impl<T: PartialEq> SpaceSaving<T> {
        pub fn new(items: Vec<FrequentItem<T>>) -> Self {
            Self(items)
        }

        pub fn entries(&self) -> &[FrequentItem<T>] {
            &self.0
        }

        /// The item of that value, or nothing.
        pub fn estimate(&self, value: &T) -> Option<&FrequentItem<T>> {
            self.0.iter().find(|item| item.value == *value)
        }
    }
}
