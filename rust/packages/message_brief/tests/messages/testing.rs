// Made from crates/tests_message_brief/src/testing.rt by rust/erase.
// What the tests compare by, over one macro of std: the prover goes through the code of a macro again wherever it is
// used, and through a call of these in a sixth of the time. They take the test's runtime, so they can't be in one
// library for all tests: the gate refuses a public function that may end the process.

use std::fmt::Debug;

// Ends the test where the two differ, and says what they are of.
pub(crate) fn same_of<T: PartialEq + Debug>(of: impl Debug, left: T, right: T) {
    assert!(left == right, "{of:?}: {left:?} is not {right:?}");
}

// Ends the test where this does not hold, and says what it was to hold of.
pub(crate) fn holds_of(of: impl Debug, is_so: bool) {
    same_of(of, is_so, true);
}
