// Made from crates/tests_wiredump/src/wiredump.rt by rust/erase.
//! What lines print, word by word: of each packet the text that the manual has for it. `rust/compare` takes the packets
//! from these tests, and compares what is printed of them, cut and changed, with a plain printer in Python.

#[allow(unused_imports)]
use rattle_std::prelude::*;
mod dhcp;
mod dns;
mod faults;
mod icmp4;
mod icmp6;
mod lines;
mod live;
mod ndisc;
mod options;
mod words;

use crate::testing::{holds_of, same_of};
use dump_lines::run;
use std::fmt::Debug;

// Puts a text behind another so often. Ends the test where there is no memory for it.
fn append(text: &mut String, part: &str, count: usize) {
    for _ in 0..count {
        holds_of(part, text.push_str(part).is_ok());
    }
}

fn joined(parts: &[&str]) -> String {
    let mut text = String::new();
    for part in parts {
        append(&mut text, part, 1);
    }
    text
}

// A text that is made of others, each so often.
fn repeated(parts: &[(&str, usize)]) -> String {
    let mut text = String::new();
    for &(part, count) in parts {
        append(&mut text, part, count);
    }
    text
}

// Each packet behind these words is known, and prints this.
fn check(words: &str, rows: &[(&str, &str)]) {
    for (packet, want) in rows {
        check_packet(words, packet, want);
    }
}

// A packet behind these words is known, and prints this.
fn check_packet(words: &str, packet: &str, want: &str) {
    let line = joined(&[words, " ", packet]);
    check_line(line.as_str(), want);
}

// `check` of headers with data after each: they print this, and then what is printed of the data.
fn check_with_data(words: &str, rows: &[(&str, &str)], data: &str, printed: &str) {
    for (header, want) in rows {
        let line = joined(&[words, " ", header, data]);
        let want = joined(&[want, printed]);
        check_line(line.as_str(), want.as_str());
    }
}

// Each line is known, and prints this.
fn check_lines(rows: &[(&str, &str)]) {
    for (line, want) in rows {
        check_line(line, want);
    }
}

// A line is known, and prints this.
fn check_line(line: &str, want: &str) {
    check_input(&line, line.as_bytes(), true, want.as_bytes());
}

// An input prints this, and each of its lines is known, or one of them is not.
fn check_input(of: &impl Debug, input: &[u8], is_known: bool, want: &[u8]) {
    let mut output = Vec::new();
    let answer = run(input, &mut output);
    same_of(of, answer, Ok(is_known));
    same_of(of, output.as_slice(), want);
}
