//! The static library's three functions, and the only unsafe code of this crate.
//!
//! Their contracts (`crates/estimates_c/src/lib.rt` of the repository) ask nothing of the bytes, and
//! hold for every sheet, number and output: the call ends, reads and writes inside the two slices
//! alone, and answers the length that it wrote, or 2^32 plus a refusal's number. What no contract
//! can see is left to the caller: that each pointer is good for its length, and that the output
//! shares no byte with the sheet and is used by nobody else meanwhile.

use crate::Refusal;

/// An entry answers a refusal's number above this.
const REFUSED: u64 = 1 << 32;

/// An entry that is asked about an expression.
type Entry = unsafe extern "C" fn(*const u8, usize, u16, *mut u8, usize) -> u64;

unsafe extern "C" {
    fn estimates_join(sheet: *const u8, length: usize, out: *mut u8, out_length: usize) -> u64;
    fn estimates_predicate(
        sheet: *const u8,
        length: usize,
        expression: u16,
        out: *mut u8,
        out_length: usize,
    ) -> u64;
    fn estimates_split(
        sheet: *const u8,
        length: usize,
        expression: u16,
        out: *mut u8,
        out_length: usize,
    ) -> u64;
}

pub fn join(sheet: &[u8], out: &mut [u8]) -> Result<usize, Refusal> {
    // SAFETY: both pointers are those of slices, passed with their lengths, and `out`, lent by
    // `&mut`, overlaps nothing. The entry asks no more and keeps neither pointer.
    let answer =
        unsafe { estimates_join(sheet.as_ptr(), sheet.len(), out.as_mut_ptr(), out.len()) };
    result(answer)
}

pub fn predicate(sheet: &[u8], expression: u16, out: &mut [u8]) -> Result<usize, Refusal> {
    asked(estimates_predicate, sheet, expression, out)
}

pub fn split(sheet: &[u8], expression: u16, out: &mut [u8]) -> Result<usize, Refusal> {
    asked(estimates_split, sheet, expression, out)
}

/// Calls one of the two entries that are asked about an expression.
fn asked(entry: Entry, sheet: &[u8], expression: u16, out: &mut [u8]) -> Result<usize, Refusal> {
    let (bytes, length) = (sheet.as_ptr(), sheet.len());
    // SAFETY: as in `join`; every number is allowed for the expression.
    let answer = unsafe { entry(bytes, length, expression, out.as_mut_ptr(), out.len()) };
    result(answer)
}

fn result(answer: u64) -> Result<usize, Refusal> {
    match answer.checked_sub(REFUSED) {
        None => Ok(answer as usize),
        Some(number) => Err(refusal(number)),
    }
}

fn refusal(number: u64) -> Refusal {
    let refusal = u8::try_from(number).ok().and_then(Refusal::from_number);
    refusal.unwrap_or_else(|| {
        panic!(
            "libestimates.a answered 2^32 + {number}: no refusal has this number, so this is \
             not the library that the crate was made for"
        )
    })
}

#[cfg(test)]
mod tests {
    use super::*;

    #[test]
    fn a_length_is_no_refusal() {
        for length in [0, 2, 12, 68, u32::MAX] {
            assert_eq!(result(u64::from(length)), Ok(length as usize));
        }
    }

    #[test]
    fn each_number_above_2_to_the_32_is_its_refusal() {
        for refusal in Refusal::ALL {
            let answer = 0x1_0000_0000 + u64::from(refusal.number());
            assert_eq!(result(answer), Err(refusal));
        }
    }

    #[test]
    #[should_panic(expected = "2^32 + 0: no refusal has this number")]
    fn no_refusal_is_0() {
        let _ = result(0x1_0000_0000);
    }

    #[test]
    #[should_panic(expected = "2^32 + 13: no refusal has this number")]
    fn no_refusal_is_13() {
        let _ = result(0x1_0000_000d);
    }

    #[test]
    #[should_panic(expected = "2^32 + 259: no refusal has this number")]
    fn a_refusal_is_one_byte() {
        let _ = result(0x1_0000_0103);
    }
}
