// Made from crates/tests_packet_stats/src/testing.rt by rust/erase.
// What the tests compare by, over one macro of std: the prover goes through the code of a macro again wherever it is
// used, and through a call of these in a sixth of the time. They take the test's runtime, so they can't be in one
// library for all tests: the gate refuses a public function that may end the process.

use std::fmt::Debug;

// Ends the test where the two differ, and says what they are of.
pub(crate) fn same_of<T: PartialEq + Debug>(of: impl Debug, left: T, right: T) {
    assert!(left == right, "{of:?}: {left:?} is not {right:?}");
}
