// Made from crates/tests_dns_fields/src/messages.rt by rust/erase.
//! Messages, and what is printed of them.

use crate::testing::{holds_of, same_of};
use dns_fields::kind::Kind;
use dns_fields::message::show_message;
use dns_fields::unread::Unread;
use packet_fields::Form;
#[allow(unused_imports)]
use rattle_std::prelude::*;

// Messages, of which kind, what they print in lines and in JSON, and the first refusal.
pub(crate) type Row = (
    &'static [u8],
    Kind,
    &'static str,
    &'static str,
    Option<Unread>,
);

// Ends the test unless each message prints this, and answers this.
pub(crate) fn check(rows: &[Row]) {
    for &(octets, kind, lines, json, unread) in rows {
        check_message(Form::Lines, octets, kind, lines, unread);
        check_message(Form::Json, octets, kind, json, unread);
    }
}

fn check_message(form: Form, octets: &[u8], kind: Kind, text: &str, unread: Option<Unread>) {
    let mut output = Vec::new();
    match show_message(&mut output, form, kind, octets) {
        Ok(answer) => same_of(text, answer, unread),
        Err(_) => holds_of(text, false),
    }
    match std::str::from_utf8(output.as_slice()) {
        Ok(printed) => same_of(octets, printed, text),
        Err(_) => holds_of(text, false),
    }
}
