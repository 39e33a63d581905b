//! The join and predicate estimates of cmu-db/optd, run on a sheet.
//!
//! The functions are the optimizer's own: `build.rs` cuts them out of its files, by name and
//! unchanged, and they are compiled here over stand-ins for the little that is not in those files
//! ([`stand_ins`]). [`analysis`] has them as they are, [`copies`] with changes.

// What is cut is not ours to mend, and a copy does not use all that stands around it.
#![allow(dead_code, unused_imports, clippy::all)]

pub mod answer;
pub mod power;
pub mod stand_ins;
pub mod watch;

use stand_ins::{DataType, QueryContext};

include!(concat!(env!("OUT_DIR"), "/lib.rs"));
include!(concat!(env!("OUT_DIR"), "/sums.rs"));

pub mod catalog {
    use crate::ScalarValue;
    use crate::stand_ins::SchemaRef;
    use crate::statistics::ColumnSketches;
    use std::cmp::Ordering;
    use std::collections::BTreeMap;
    use std::collections::btree_map::Entry;
    use std::ops::Deref;
    use std::sync::{Arc, RwLock};

    include!(concat!(env!("OUT_DIR"), "/catalog.rs"));
}

pub mod statistics {
    use crate::ScalarValue;
    use crate::stand_ins::optd_sketches::{HyperLogLog, SpaceSaving};
    use std::sync::Arc;

    include!(concat!(env!("OUT_DIR"), "/statistics.rs"));
}

/// The functions as the files have them.
pub mod analysis {
    include!(concat!(env!("OUT_DIR"), "/analysis.rs"));
    include!("around.rs");
}

/// The functions with one thing changed in each copy.
pub mod copies {
    include!(concat!(env!("OUT_DIR"), "/copies.rs"));
}

/// Pieces of the functions, for a comparison of their own.
pub mod pieces {
    use crate::ScalarValue;
    use crate::analysis::{self, Estimate};
    use sheet::values::Column;
    use std::cmp::Ordering;

    pub fn order(left: &ScalarValue, right: &ScalarValue) -> Option<Ordering> {
        crate::catalog::scalar_order(left, right)
    }

    pub fn number(value: &ScalarValue) -> Option<f64> {
        analysis::number(value)
    }

    pub fn fraction(of: [&ScalarValue; 4]) -> Option<f64> {
        analysis::fraction(of)
    }

    pub fn intersection(left: &Column, right: &Column) -> (f64, bool) {
        analysis::intersection(left, right)
    }

    pub fn larger(left: &Estimate, right: &Estimate) -> Estimate {
        analysis::larger(left, right)
    }

    pub fn smaller(left: &Estimate, right: &Estimate) -> Estimate {
        analysis::smaller(left, right)
    }

    pub fn derived(of: &Estimate) -> Estimate {
        Estimate::derived(of.value, of.lower, of.upper)
    }
}
