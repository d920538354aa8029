// Made from crates/tests_above/src/record/types.rt by rust/erase.
//! Types by their mnemonics.

use crate::testing::{prints, same_of};
use control_wire::dns::Type;
use control_wire::record::types::{
    A, AAAA, AFSDB, ANY, AXFR, CAA, CNAME, DNAME, DNSKEY, DS, HINFO, HTTPS, IXFR, KX, MB, MD, MF,
    MG, MINFO, MR, MX, NAPTR, NS, NSEC, NSEC3, NXT, OPT, PTR, PX, RP, RRSIG, RT, SIG, SOA, SPF,
    SRV, SSHFP, SVCB, TLSA, TXT,
};

// The types of IANA's registry, their mnemonics and numbers.
const ROWS: &[(Type, &str, u16)] = &[
    (A, "A", 1),
    (NS, "NS", 2),
    (MD, "MD", 3),
    (MF, "MF", 4),
    (CNAME, "CNAME", 5),
    (SOA, "SOA", 6),
    (MB, "MB", 7),
    (MG, "MG", 8),
    (MR, "MR", 9),
    (PTR, "PTR", 12),
    (HINFO, "HINFO", 13),
    (MINFO, "MINFO", 14),
    (MX, "MX", 15),
    (TXT, "TXT", 16),
    (RP, "RP", 17),
    (AFSDB, "AFSDB", 18),
    (RT, "RT", 21),
    (SIG, "SIG", 24),
    (PX, "PX", 26),
    (AAAA, "AAAA", 28),
    (NXT, "NXT", 30),
    (SRV, "SRV", 33),
    (NAPTR, "NAPTR", 35),
    (KX, "KX", 36),
    (DNAME, "DNAME", 39),
    (OPT, "OPT", 41),
    (DS, "DS", 43),
    (SSHFP, "SSHFP", 44),
    (RRSIG, "RRSIG", 46),
    (NSEC, "NSEC", 47),
    (DNSKEY, "DNSKEY", 48),
    (NSEC3, "NSEC3", 50),
    (TLSA, "TLSA", 52),
    (SVCB, "SVCB", 64),
    (HTTPS, "HTTPS", 65),
    (SPF, "SPF", 99),
    (IXFR, "IXFR", 251),
    (AXFR, "AXFR", 252),
    (ANY, "ANY", 255),
    (CAA, "CAA", 257),
    (Type::Unknown(11), "TYPE11", 11),
    (Type::Unknown(65535), "TYPE65535", 65535),
    (Type::Unknown(1), "A", 1),
];

#[test]
fn types_of_the_registry() {
    for &(type_, mnemonic, number) in ROWS {
        prints(&type_, mnemonic);
        same_of(mnemonic, u16::from(type_), number);
    }
}

// Whether the records of this type are of zones that are signed.
fn is_of_signatures(type_: Type) -> bool {
    matches!(type_, DS | RRSIG | NSEC | DNSKEY | NSEC3)
}

#[test]
fn types_in_patterns() {
    same_of("DS", is_of_signatures(Type::from(43)), true);
    same_of("A", is_of_signatures(Type::from(1)), false);
}

#[test]
fn mnemonics_of_types() {
    same_of(257, Type::from(257).mnemonic(), Some("CAA"));
    same_of(11, Type::from(11).mnemonic(), None);
}
