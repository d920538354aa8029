// Made from crates/tests_examples/src/testing.rt by rust/erase.
// What the tests compare by, over one macro of std: the prover goes through the code of a macro again wherever it is
// used, and through a call of these in a sixth of the time. They take the test's runtime, so they can't be in one
// library for all tests: the gate refuses a public function that may end the process.

use std::fmt::Debug;

// Ends the test where the two differ.
pub(crate) fn same<T: PartialEq + Debug>(left: T, right: T) {
    assert!(left == right, "{left:?} is not {right:?}");
}
