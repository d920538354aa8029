// Made from crates/packet_fields/src/names.rt by rust/erase.
//! The names of numbers.

/// A number and its name.
pub type Row = (u16, &'static str);

/// The name of a number in rows; None where it has none.
pub fn name_in(rows: &[Row], number: u16) -> Option<&'static str> {
    for row in rows {
        if row.0 == number {
            return Some(row.1);
        }
    }
    None
}
