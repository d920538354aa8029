// Made from crates/tests_dhcp_dns/src/dns/dns/written.rt by rust/erase.
//! Questions and queries that are written, and which of them are equal.

use super::check_question;
use crate::testing::{holds_of, same, same_of};
use control_wire::dns::{Flags, Opcode, Packet, Question, Repr, Type};

const ADDRESS_QUERY: Repr<'static> = Repr {
    transaction_id: 0x1234,
    opcode: Opcode::Query,
    flags: Flags::RECURSION_DESIRED,
    question: Question {
        name: &[0x01, 0x61, 0x00],
        type_: Type::A,
    },
};

const ADDRESS_QUERY_OCTETS: [u8; 19] = [
    0x12, 0x34, 0x01, 0x00, 0x00, 0x01, 0x00, 0x00, 0x00, 0x00, 0x00, 0x00, 0x01, 0x61, 0x00, 0x00,
    0x01, 0x00, 0x01,
];

#[test]
fn a_query_is_written() {
    same(ADDRESS_QUERY.buffer_len(), 19);
    for old in [0x00, 0xff, 0x2a] {
        let mut octets = [old; 19];
        ADDRESS_QUERY.emit(&mut Packet::new_unchecked(octets.as_mut_slice()));
        same_of(old, octets, ADDRESS_QUERY_OCTETS);
    }
}

#[test]
fn the_question_of_a_written_query() {
    check_question(&ADDRESS_QUERY_OCTETS[12..], ADDRESS_QUERY.question, &[]);
}

#[test]
fn a_query_is_written_over_the_front_of_longer_octets() {
    let mut octets = [0xa5; 21];
    ADDRESS_QUERY.emit_into(&mut octets);
    let written = [
        0x12, 0x34, 0x01, 0x00, 0x00, 0x01, 0x00, 0x00, 0x00, 0x00, 0x00, 0x00, 0x01, 0x61, 0x00,
        0x00, 0x01, 0x00, 0x01, 0xa5, 0xa5,
    ];
    same(octets.as_slice(), written.as_slice());
}

#[test]
fn a_question_is_written_over_the_front_of_longer_octets() {
    same(ADDRESS_QUERY.question.buffer_len(), 7);
    for old in [0x00u8, 0xff, 0x2a] {
        let mut octets = [old; 9];
        ADDRESS_QUERY.question.emit(&mut octets);
        let written = [0x01, 0x61, 0x00, 0x00, 0x01, 0x00, 0x01, old, old];
        same_of(old, octets, written);
    }
}

// The octets that a question of a short name is written as.
fn question_octets(question: Question<'_>) -> [u8; 12] {
    let mut octets = [0; 12];
    holds_of(question.name, question.name.len() <= 8);
    question.emit(&mut octets);
    octets
}

// The octets that a query of a short name is written as.
fn query_octets(query: Repr<'_>) -> [u8; 24] {
    let mut octets = [0; 24];
    holds_of(query.question.name, query.question.name.len() <= 8);
    holds_of(query.opcode, u8::from(query.opcode) < 16);
    query.emit(&mut Packet::new_unchecked(octets.as_mut_slice()));
    octets
}

#[test]
fn questions_are_equal_where_their_texts_are() {
    const OTHERS: &[(&[u8], Type, bool)] = &[
        (&[0x01, 0x61, 0x00], Type::A, true),
        (&[0x01, 0x62, 0x00], Type::A, false),
        (&[0x01, 0x61, 0xc0, 0x0c], Type::A, false),
        (&[0x01, 0x61, 0x00], Type::Aaaa, false),
    ];
    let question = ADDRESS_QUERY.question;
    for &(name, type_, equal) in OTHERS {
        let other = Question { name, type_ };
        same_of(name, question == other, equal);
        let texts = question_octets(question) == question_octets(other);
        same_of(name, texts, equal);
    }
}

// Checks that this query differs from another one, and in its text.
fn check_other_query(other: Repr<'_>) {
    same(ADDRESS_QUERY == other, false);
    let texts = query_octets(ADDRESS_QUERY) == query_octets(other);
    same_of(other, texts, false);
}

#[test]
fn queries_that_differ_have_different_texts() {
    let query = ADDRESS_QUERY;
    let question = Question {
        name: &[0x01, 0x62, 0x00],
        ..query.question
    };
    check_other_query(Repr {
        transaction_id: 0x1235,
        ..query
    });
    check_other_query(Repr {
        opcode: Opcode::Status,
        ..query
    });
    check_other_query(Repr {
        flags: Flags::TRUNCATED,
        ..query
    });
    check_other_query(Repr { question, ..query });
    same(query, ADDRESS_QUERY);
}
