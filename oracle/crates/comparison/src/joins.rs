//! Two files joined. The original does not join: what is expected is its export of the records that it read, concatenated
//! by document 01's rule.

use crate::check::{check_in_both, same, Checked};
use crate::files::{bytes_at, model_of, model_part};
use crate::lent::Output;
use crate::library;
use crate::manner::{met_in_join, Expected, JoinsMet};
use crate::tally::Answers;
use oracle::original;

#[derive(Default)]
pub struct JoinCheck {
    output: Output,
    pub met: JoinsMet,
}

impl JoinCheck {
    pub fn check(&mut self, first: &[u8], second: &[u8]) -> Result<Answers, String> {
        let joined = Expected { lenient: original::join_files(first, second), strict: met_in_join(first, second) };
        self.met.add(first, second);
        check_in_both(
            "join",
            &joined,
            &mut self.output,
            |manner, size| library::join_size(manner, first, second, size),
            |manner, out, written| library::join_animations(manner, first, second, out, written),
        )?;
        check_model(first, second)?;
        Ok(joined.answers())
    }
}

fn check_model(first: &[u8], second: &[u8]) -> Checked {
    let [which, begin, len] = library::joined_model(first, second);
    let (first_name, second_name) = (model_of(first), model_of(second));
    let (file, number, name) = match (first_name.is_empty(), second_name.is_empty()) {
        (true, false) => (second, 1, second_name),
        _ => (first, 0, first_name),
    };
    same("joined model name: file", which, number)?;
    same("joined model name", bytes_at("joined model name", file, [begin, len])?, &name)?;
    same("joined model name: part", [begin, len], model_part(&name))
}
