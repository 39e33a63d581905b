//! The pieces of the proved library, called through their C names.

mod c {
    pub type Merge =
        unsafe extern "C" fn(*const u8, usize, *const u8, usize, *mut u8, usize) -> u64;

    unsafe extern "C" {
        pub fn pieces_check(sheet: *const u8, length: usize) -> u64;
        pub fn pieces_scalar_order(
            left: *const u8,
            left_length: usize,
            right: *const u8,
            right_length: usize,
        ) -> u64;
        pub fn pieces_has_number(value: *const u8, length: usize) -> bool;
        pub fn pieces_number(value: *const u8, length: usize) -> f64;
        pub fn pieces_from_scalar(
            value: *const u8,
            length: usize,
            out: *mut u8,
            out_length: usize,
        ) -> u64;
        pub fn pieces_has_fraction(scalars: *const u8, length: usize) -> bool;
        pub fn pieces_fraction(scalars: *const u8, length: usize) -> f64;
        pub fn pieces_distinct_intersection(
            columns: *const u8,
            length: usize,
            left_distinct: f64,
            right_distinct: f64,
        ) -> f64;
        pub fn pieces_domains_disjoint(
            columns: *const u8,
            length: usize,
            left_distinct: f64,
            right_distinct: f64,
        ) -> bool;
        pub fn pieces_max_by_value(
            left: *const u8,
            left_length: usize,
            right: *const u8,
            right_length: usize,
            out: *mut u8,
            out_length: usize,
        ) -> u64;
        pub fn pieces_min_by_value(
            left: *const u8,
            left_length: usize,
            right: *const u8,
            right_length: usize,
            out: *mut u8,
            out_length: usize,
        ) -> u64;
        pub fn pieces_derived(
            value: *const u8,
            length: usize,
            out: *mut u8,
            out_length: usize,
        ) -> u64;
        pub fn pieces_root(x: f64) -> f64;
        pub fn pieces_power(x: f64, f: f64) -> f64;
    }
}

/// 0 where the sheet is accepted, or the refusal's number.
pub fn check(sheet: &[u8]) -> u64 {
    // The library's functions ask nothing of their arguments but that the slices are there.
    unsafe { c::pieces_check(sheet.as_ptr(), sheet.len()) }
}

/// 0 for no order, 1 less, 2 equal, 3 greater.
pub fn scalar_order(left: &[u8], right: &[u8]) -> u64 {
    unsafe { c::pieces_scalar_order(left.as_ptr(), left.len(), right.as_ptr(), right.len()) }
}

pub fn scalar_to_f64(value: &[u8]) -> Option<f64> {
    let (has, number) = unsafe {
        (
            c::pieces_has_number(value.as_ptr(), value.len()),
            c::pieces_number(value.as_ptr(), value.len()),
        )
    };
    has.then_some(number)
}

/// Writes a scalar's encoding. The bytes written, 0 where `out` has no room.
pub fn from_scalar(value: &[u8], out: &mut [u8]) -> u64 {
    unsafe { c::pieces_from_scalar(value.as_ptr(), value.len(), out.as_mut_ptr(), out.len()) }
}

/// The fraction of four scalars, one behind the other.
pub fn fraction(scalars: &[u8]) -> Option<f64> {
    let (has, number) = unsafe {
        (
            c::pieces_has_fraction(scalars.as_ptr(), scalars.len()),
            c::pieces_fraction(scalars.as_ptr(), scalars.len()),
        )
    };
    has.then_some(number)
}

/// How many values two columns, one behind the other, share, and whether their ranges are disjoint.
pub fn intersection(columns: &[u8], distincts: [f64; 2]) -> (f64, bool) {
    let [left, right] = distincts;
    unsafe {
        (
            c::pieces_distinct_intersection(columns.as_ptr(), columns.len(), left, right),
            c::pieces_domains_disjoint(columns.as_ptr(), columns.len(), left, right),
        )
    }
}

fn merged(merge: c::Merge, left: &[u8], right: &[u8], out: &mut [u8]) -> u64 {
    unsafe {
        merge(
            left.as_ptr(),
            left.len(),
            right.as_ptr(),
            right.len(),
            out.as_mut_ptr(),
            out.len(),
        )
    }
}

/// The bytes written, 0 where `out` has no room.
pub fn max_by_value(left: &[u8], right: &[u8], out: &mut [u8]) -> u64 {
    merged(c::pieces_max_by_value, left, right, out)
}

/// The bytes written, 0 where `out` has no room.
pub fn min_by_value(left: &[u8], right: &[u8], out: &mut [u8]) -> u64 {
    merged(c::pieces_min_by_value, left, right, out)
}

/// The bytes written, 0 where `out` has no room.
pub fn derived(value: &[u8], out: &mut [u8]) -> u64 {
    unsafe { c::pieces_derived(value.as_ptr(), value.len(), out.as_mut_ptr(), out.len()) }
}

pub fn root(x: f64) -> f64 {
    unsafe { c::pieces_root(x) }
}

pub fn power(x: f64, f: f64) -> f64 {
    unsafe { c::pieces_power(x, f) }
}
