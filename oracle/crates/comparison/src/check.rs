//! What the checks share.

use crate::lent::Output;
use crate::manner::{Expected, Manner, MANNERS};
use oracle::original;
use std::fmt::Debug;

/// A difference, in words.
pub type Checked = Result<(), String>;

pub fn same<T: PartialEq + Debug>(what: &str, ours: T, theirs: T) -> Checked {
    if ours == theirs {
        Ok(())
    } else {
        Err(format!("{what}: the library has {ours:?}, expected {theirs:?}"))
    }
}

/// What a slot holds before a call, and after a refusal.
pub const SLOT: u64 = 0x1234_5678_9abc_def0;

/// The call that gives a file's length and the one that writes it, in both manners. The strict one is lent outputs as long as
/// the lenient one needs, so that it is seen to leave them where it refuses.
pub fn check_in_both<T: AsRef<[u8]>>(
    what: &str,
    expected: &Expected<T>,
    output: &mut Output,
    size: impl Fn(Manner, &mut u64) -> u32,
    write: impl Fn(Manner, &mut [u8], &mut u64) -> u32,
) -> Checked {
    let expected = expected.map(T::as_ref);
    let lengths = lengths_for(expected.lenient);
    check_in_both_into(&lengths, what, &expected, output, size, write)
}

/// The same, into outputs of these lengths.
pub fn check_in_both_into(
    lengths: &[usize],
    what: &str,
    expected: &Expected<&[u8]>,
    output: &mut Output,
    size: impl Fn(Manner, &mut u64) -> u32,
    write: impl Fn(Manner, &mut [u8], &mut u64) -> u32,
) -> Checked {
    for manner in MANNERS {
        let (what, expected) = (format!("{manner} {what}"), expected.in_manner(manner).copied());
        check_size(&what, expected, |slot| size(manner, slot))?;
        check_written(&what, expected, lengths, output, |out, written| write(manner, out, written))?;
    }
    Ok(())
}

/// Outputs that are too short for these bytes, just long enough and longer.
pub fn lengths_for(bytes: Result<&[u8], u32>) -> Vec<usize> {
    match bytes.map(<[u8]>::len) {
        Ok(len) => vec![0, len - 1, len, len + 1, len + 29],
        Err(_) => vec![0, 90],
    }
}

/// A call that writes a file, into outputs of these lengths.
pub fn check_written(
    what: &str,
    expected: Result<&[u8], u32>,
    lengths: &[usize],
    output: &mut Output,
    call: impl Fn(&mut [u8], &mut u64) -> u32,
) -> Checked {
    for &out_len in lengths {
        let mut written = SLOT;
        let answer = call(output.lend(out_len), &mut written);
        let given = expected.and_then(|bytes| if bytes.len() <= out_len { Ok(bytes) } else { Err(original::OUTPUT_TOO_SHORT) });
        let shown = |part: &str| format!("{what} into {out_len} bytes: {part}");
        same(&shown("answer"), answer, given.err().unwrap_or(0))?;
        same(&shown("length written"), written, given.map_or(SLOT, |bytes| bytes.len() as u64))?;
        output.holds(given.unwrap_or(&[])).map_err(|difference| shown(&difference))?;
    }
    Ok(())
}

/// A call that gives the length of the file to be written.
pub fn check_size(what: &str, expected: Result<&[u8], u32>, call: impl Fn(&mut u64) -> u32) -> Checked {
    let mut size = SLOT;
    let answer = call(&mut size);
    same(&format!("{what} size: answer"), answer, expected.err().unwrap_or(0))?;
    same(&format!("{what} size"), size, expected.map_or(SLOT, |bytes| bytes.len() as u64))
}
