//! One part set through the builder.

use crate::check::{check_size, check_written, lengths_for, Checked};
use crate::lent::Output;
use crate::library;
use oracle::names::{like_inside, mark_of};
use oracle::original;
use oracle::parts::{Columns, Parts};
use std::collections::BTreeMap;

#[derive(Default)]
pub struct PartsCheck {
    output: Output,
    pub marked: MarkedTally,
}

/// Sets with a name that starts with a byte order mark, counted apart.
#[derive(Default)]
pub struct MarkedTally {
    pub sets: u64,
    pub same_answer: u64,
    /// By the mark, this library's answer and the original's: how many, and the shortest name seen.
    pub other_answer: BTreeMap<(&'static [u8], u32, u32), (u64, Vec<u8>)>,
}

impl PartsCheck {
    /// The expected answer, 0 or a refusal; or a difference.
    pub fn check(&mut self, parts: &Parts) -> Result<u32, String> {
        let expected = match marked_name(parts) {
            None => original::build(parts),
            Some((mark, name)) => {
                let expected = build_by_document_01(parts);
                self.marked.count(mark, name, &expected, &original::build(parts));
                expected
            }
        };
        check_built(parts, parts.columns(), &expected, &mut self.output)?;
        Ok(expected.err().unwrap_or(0))
    }
}

pub fn check_built(parts: &Parts, columns: Columns, expected: &Result<Vec<u8>, u32>, output: &mut Output) -> Checked {
    let expected = expected.as_deref().map_err(|&refusal| refusal);
    check_size("build", expected, |size| library::build_size(parts, columns, size))?;
    check_written("build", expected, &lengths_for(expected), output, |out, written| {
        library::build_animation_from_parts(parts, columns, out, written)
    })
}

/// The first name that starts with a byte order mark, and the mark.
pub fn marked_name(parts: &Parts) -> Option<(&'static [u8], Vec<u8>)> {
    if !parts.are_whole() {
        return None;
    }
    parts.all_names().into_iter().find_map(|name| mark_of(&name).map(|mark| (mark, name)))
}

/// What document 01 says where the original reads a name by its mark: the original's answer with names in their place that are
/// not good to it either, so a refusal.
fn build_by_document_01(parts: &Parts) -> Result<Vec<u8>, u32> {
    let expected = original::build(&parts.with_names(|name| mark_of(name).map_or(name.to_vec(), |_| like_inside(name))));
    assert!(expected.is_err());
    expected
}

impl MarkedTally {
    fn count(&mut self, mark: &'static [u8], name: Vec<u8>, ours: &Result<Vec<u8>, u32>, theirs: &Result<Vec<u8>, u32>) {
        self.sets += 1;
        if ours == theirs {
            self.same_answer += 1;
            return;
        }
        let number = |answer: &Result<Vec<u8>, u32>| answer.as_ref().err().copied().unwrap_or(0);
        let entry = self.other_answer.entry((mark, number(ours), number(theirs))).or_insert((0, name.clone()));
        entry.0 += 1;
        if name.len() < entry.1.len() {
            entry.1 = name;
        }
    }
}
