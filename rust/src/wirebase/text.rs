// Made from crates/wirebase/src/text.rt by rust/erase.
//! Texts of numbers, octets and addresses, put into a formatter or into another output.

pub mod address;
mod digits;
mod groups;
pub mod hexadecimal;
pub mod number;
pub mod sink;

pub use address::{put_v4, put_v6};
pub use hexadecimal::{Hex, HexColons, HexOrDash, put_hex, put_octets};
pub use number::{TwoDigits, last_digit, nine_digits, put_number, two_digits};
pub use sink::{Sink, ToFormatter};
