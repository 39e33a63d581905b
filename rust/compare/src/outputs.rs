//! Calls that write, with outputs of every length that matters.

/// What a byte of an output holds before the call.
const BEFORE: u8 = 0xA5;

/// Whether a call that writes `expected` does so into outputs that are just long enough, longer,
/// one byte short and empty: with room it answers `written`, writes those bytes and leaves the
/// rest; without room it answers `no_room` and leaves everything.
pub fn agree<A: PartialEq>(
    expected: &[u8],
    written: A,
    no_room: A,
    call: impl Fn(&mut [u8]) -> A,
) -> bool {
    let length = expected.len();
    [length, length + 7, length.saturating_sub(1), 0]
        .into_iter()
        .all(|size| {
            let mut out = vec![BEFORE; size];
            let answer = call(&mut out);
            let mut after = vec![BEFORE; size];
            if size >= length {
                after[..length].copy_from_slice(expected);
            }
            let due = if size >= length { &written } else { &no_room };
            answer == *due && out == after
        })
}

/// Whether a call answers `due` and leaves outputs of several lengths as they were.
pub fn refused<A: PartialEq>(due: A, call: impl Fn(&mut [u8]) -> A) -> bool {
    [0, 1, 26, 2_000].into_iter().all(|size| {
        let mut out = vec![BEFORE; size];
        call(&mut out) == due && out.iter().all(|byte| *byte == BEFORE)
    })
}

#[cfg(test)]
mod tests {
    use super::{agree, refused};

    #[test]
    fn a_refusal_leaves_the_output() {
        assert!(refused(7, |_| 7));
        assert!(!refused(7, |_| 8));
        assert!(!refused(7, |out| {
            out.fill(0);
            7
        }));
    }

    fn honest(out: &mut [u8]) -> u64 {
        if out.len() < 2 {
            return 0;
        }
        out[..2].copy_from_slice(&[1, 2]);
        2
    }

    #[test]
    fn an_honest_call_agrees() {
        assert!(agree(&[1, 2], 2, 0, honest));
    }

    #[test]
    fn others_do_not() {
        assert!(!agree(&[1, 3], 2, 0, honest));
        assert!(!agree(&[1, 2], 3, 0, honest));
        assert!(!agree(&[1, 2], 2, 12, honest));
        assert!(!agree(&[1, 2], 2, 0, |out| {
            out.fill(0);
            honest(out)
        }));
        assert!(!agree(&[1, 2], 2, 0, |out| {
            honest(out);
            2
        }));
    }
}
