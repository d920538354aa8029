//! How a call is measured: callgrind counts inside of `measured` alone, and writes what it counted at each
//! `end_of_case`.

use std::fmt::{self, Debug, Write};
use std::hint::black_box;

/// The bytes of the buffer that is written into.
pub const ROOM: usize = 2_048;

/// Makes a call, never inlined, so that what is counted is this call and what it calls.
#[inline(never)]
pub fn measured<I, O>(call: impl FnOnce(I) -> O, input: I) -> O {
    call(input)
}

/// Where callgrind writes what it counted since the case before.
#[inline(never)]
fn end_of_case() {
    black_box(());
}

/// A case while it runs: the digest of the answers so far (FNV-1a).
pub struct Case {
    name: &'static str,
    digest: u64,
}

impl Case {
    /// A case of a name.
    pub fn new(name: &'static str) -> Case {
        Case {
            name,
            digest: 0xcbf2_9ce4_8422_2325,
        }
    }

    /// Adds octets to the digest.
    pub fn add_octets(&mut self, octets: &[u8]) {
        for octet in octets {
            self.digest = (self.digest ^ u64::from(*octet)).wrapping_mul(0x0100_0000_01b3);
        }
    }

    /// Adds all fields of an answer to the digest.
    pub fn add(&mut self, answer: impl Debug) {
        writeln!(self, "{answer:?}").unwrap();
    }

    /// Ends the case, and prints its name and its digest.
    pub fn end(self) {
        end_of_case();
        println!("{} {:016x}", self.name, self.digest);
    }
}

impl Write for Case {
    fn write_str(&mut self, text: &str) -> fmt::Result {
        self.add_octets(text.as_bytes());
        Ok(())
    }
}

/// A case of a call that reads.
pub fn reads<'a, I: ?Sized + 'a, O: Debug>(
    name: &'static str,
    inputs: impl IntoIterator<Item = &'a I>,
    call: impl Fn(&'a I) -> O,
) {
    let mut case = Case::new(name);
    for input in inputs {
        case.add(measured(&call, black_box(input)));
    }
    case.end();
}

/// A case of a call that writes a value over the front of a buffer, and answers something.
pub fn writes<'a, V, O: Debug>(
    name: &'static str,
    values: impl IntoIterator<Item = &'a V>,
    len: impl Fn(&V) -> usize,
    call: impl Fn(&'a V, &mut [u8]) -> O,
) where
    V: 'a,
{
    let mut case = Case::new(name);
    let mut room = [0; ROOM];
    for value in values {
        room.fill(0xa5);
        let len = len(value);
        case.add(measured(
            |(value, octets)| call(value, octets),
            black_box((value, &mut room[..len])),
        ));
        case.add_octets(&room);
    }
    case.end();
}

/// A case of an iterator: each `next` counts, and so does what makes it.
pub fn iterates<'a, I: ?Sized + 'a, T: Iterator<Item: Debug>>(
    name: &'static str,
    inputs: impl IntoIterator<Item = &'a I>,
    make: impl Fn(&'a I) -> T,
) {
    let mut case = Case::new(name);
    for input in inputs {
        let mut items = measured(&make, black_box(input));
        while let Some(item) = measured(T::next, &mut items) {
            case.add(item);
        }
    }
    case.end();
}

/// A case of a value's text, which is written into a buffer.
pub fn prints<'a, V: fmt::Display + 'a>(
    name: &'static str,
    values: impl IntoIterator<Item = &'a V>,
) {
    let mut case = Case::new(name);
    let mut text = arrayvec::ArrayString::<{ 4 * ROOM }>::new();
    for value in values {
        text.clear();
        let result = measured(
            |(value, text)| write!(text, "{value}"),
            black_box((value, &mut text)),
        );
        case.add(result);
        case.add_octets(text.as_bytes());
    }
    case.end();
}
