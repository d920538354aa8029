// Made from crates/tests_base/src/base/checksum.rt by rust/erase.
use crate::rattle_std::test::Fail;
use crate::testing::{same, same_of};
use control_wire::checksum::*;

#[test]
fn sums_of_texts() {
    const TEXTS: &[(&[u8], u16)] = &[
        // RFC 1071 section 3
        (&[0x00, 0x01, 0xf2, 0x03, 0xf4, 0xf5, 0xf6, 0xf7], 0xddf2),
        (&[], 0),
        (&[0xff], 0xff00),
        (&[0x00, 0x00, 0x00], 0),
        (&[0x00, 0x00, 0x01], 0x0100),
        (&[0xff, 0xff], 0xffff),
        (&[0xff, 0xff, 0x00, 0x01], 0x0001),
        (&[0x12, 0x34, 0x56], 0x6834),
        (&[0x80, 0x00, 0x80, 0x00, 0xff, 0xff], 0x0001),
    ];
    for &(text, sum) in TEXTS {
        same_of(text, data(text), sum);
    }
}

#[test]
fn sum_of_more_words_than_32_bits_hold() -> Result<(), Fail> {
    let bytes = crate::rattle_std::vec![ 0xff; 200_000]?;
    same(data(bytes.as_slice()), 0xffff);
    Ok(())
}

// The sum by a loop over the bytes, with each carry added as it comes.
fn plain(bytes: &[u8]) -> u16 {
    let mut sum: u32 = 0;
    for (i, byte) in bytes.iter().enumerate() {
        let worth = if i % 2 == 0 {
            *byte as u32 * 256
        } else {
            *byte as u32
        };
        sum = sum.wrapping_add(worth);
        if sum > 0xffff {
            sum = sum.wrapping_sub(0xffff);
        }
    }
    (sum % 0x1_0000) as u16
}

#[test]
fn lengths_up_to_40_as_a_plain_loop() {
    let mut bytes = [0u8; 40];
    for (i, byte) in bytes.iter_mut().enumerate() {
        *byte = (i * 73 % 251) as u8;
    }
    for len in 0..=40 {
        same_of(len, data(&bytes[..len]), plain(&bytes[..len]));
    }
}

#[test]
fn sums_of_sums() {
    const LISTS: &[(&[u16], u16)] = &[
        (&[], 0),
        (&[0xffff, 1], 1),
        (&[0xffff, 0xffff], 0xffff),
        (&[0x8000, 0x8000, 0x8000], 0x8001),
        (&[0x1234], 0x1234),
    ];
    for &(sums, sum) in LISTS {
        same_of(sums, combine(sums), sum);
    }
}
