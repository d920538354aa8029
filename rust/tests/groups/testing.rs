// Made from crates/tests_groups/src/testing.rt by rust/erase.
// What the tests compare by, over one macro of std: the prover goes through the code of a macro again wherever it is
// used, and through a call of these in a sixth of the time. They take the test's runtime, so they can't be in one
// library for all tests: the gate refuses a public function that may end the process.

#[allow(unused_imports)]
use crate::rattle_std::prelude::*;
use std::fmt::{self, Debug, Display, Write};

// Ends the test where the two differ.
pub(crate) fn same<T: PartialEq + Debug>(left: T, right: T) {
    same_of((), left, right);
}

// Ends the test where the two differ, and says what they are of.
pub(crate) fn same_of<T: PartialEq + Debug>(of: impl Debug, left: T, right: T) {
    assert!(left == right, "{of:?}: {left:?} is not {right:?}");
}

// Ends the test where the value prints another text, or where there is no memory for it.
pub(crate) fn prints(value: &impl Display, text: &str) {
    let printed = value.to_string_in().ok();
    same(printed.as_deref(), Some(text));
}

// A writer that takes so many writes, and fails at the one after them.
struct FailingWriter {
    left: u32,
}

impl Write for FailingWriter {
    fn write_str(&mut self, _text: &str) -> fmt::Result {
        if self.left == 0 {
            return Err(fmt::Error);
        }
        self.left -= 1;
        Ok(())
    }
}

// Whether the value is printed by a writer that takes so many writes.
fn is_printed(value: &impl Display, writes: u32) -> bool {
    let mut writer = FailingWriter { left: writes };
    write!(writer, "{value}").is_ok()
}

// Ends the test unless the value is printed in so many writes, and fails where its writer refuses one of them.
pub(crate) fn takes_writes(value: &impl Display, writes: u32) {
    for left in 0..=writes {
        same_of(left, is_printed(value, left), left == writes);
    }
}
