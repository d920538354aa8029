// Made from crates/wirebase/src/text/groups.rt by rust/erase.
//! The groups of IPv6 addresses as text (RFC 5952 section 4).

use crate::wirebase::text::address::ROOM;

/// The groups of an address, two octets each.
pub fn groups_of(octets: &[u8; 16]) -> [u16; 8] {
    [
        group(octets[0], octets[1]),
        group(octets[2], octets[3]),
        group(octets[4], octets[5]),
        group(octets[6], octets[7]),
        group(octets[8], octets[9]),
        group(octets[10], octets[11]),
        group(octets[12], octets[13]),
        group(octets[14], octets[15]),
    ]
}

fn group(high: u8, low: u8) -> u16 {
    u16::from(high) * 256 + u16::from(low)
}

/// Puts the text of groups after the first octets of a buffer, and returns its end: the first longest run of two zeros
/// or more is `::`.
///
/// # Panics
///
/// May panic where what is asked for above does not hold.
pub fn put_address(room: &mut [u8; ROOM], at: usize, groups: &[u16; 8]) -> usize {
    let (start, len) = longest_run(groups);
    if len < 2 {
        return put_groups(room, at, groups);
    }
    let front = put_groups(room, at, &groups[..start]);
    let behind = put_colons(room, front);
    put_groups(room, behind, &groups[start + len..])
}

// The start and the length of the first longest run of zeros.
fn longest_run(groups: &[u16; 8]) -> (usize, usize) {
    let mut start = 8;
    let mut len = 0;
    let mut run = 0;
    let mut i = 8;
    while i > 0 {
        i -= 1;
        run = if groups[i] == 0 { run + 1 } else { 0 };
        if run >= len {
            start = i;
            len = run;
        }
    }
    (start, len)
}

// Puts groups with a colon between each two.
fn put_groups(room: &mut [u8; ROOM], at: usize, groups: &[u16]) -> usize {
    let mut end = at;
    for group in groups {
        end = put_group(room, end, *group);
    }
    // The last colon has no group after it.
    if groups.is_empty() { end } else { end - 1 }
}

// Puts a group without its leading zeros, and a colon.
#[inline(always)]
fn put_group(room: &mut [u8; ROOM], at: usize, group: u16) -> usize {
    room[at] = digit(group / 0x1000);
    let second = next_digit(room, at, group / 0x100);
    let third = next_digit(room, second, group / 0x10);
    let last = next_digit(room, third, group);
    room[last + 1] = b':';
    last + 2
}

// Puts the last digit of a number after that of its sixteenth, at `at`, or in its place where the sixteenth is 0.
// Returns the place of the digit.
#[inline(always)]
fn next_digit(room: &mut [u8; ROOM], at: usize, number: u16) -> usize {
    let place = at + (number >= 16) as usize;
    room[place] = digit(number % 16);
    place
}

fn put_colons(room: &mut [u8; ROOM], at: usize) -> usize {
    room[at] = b':';
    room[at + 1] = b':';
    at + 2
}

fn digit(number: u16) -> u8 {
    b"0123456789abcdef"[number as usize]
}
