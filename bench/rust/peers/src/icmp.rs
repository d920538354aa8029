//! Echo messages, beside etherparse.

use crate::measure::row;
use control_wire::{ChecksumCapabilities, Ipv6Address, icmpv4, icmpv6};
use etherparse::checksum::Sum16BitWords;
use etherparse::{IcmpEchoHeader, Icmpv4Header, Icmpv4Slice, Icmpv4Type, Icmpv6Slice, Icmpv6Type};
use std::hint::black_box;

const SOURCE: Ipv6Address = Ipv6Address::new(0xfe80, 0, 0, 0, 0, 0, 0, 1);
const DESTINATION: Ipv6Address = Ipv6Address::new(0xfe80, 0, 0, 0, 0, 0, 0, 2);
const ECHO: IcmpEchoHeader = IcmpEchoHeader {
    id: 0x1234,
    seq: 0xabcd,
};

pub fn rows() {
    let data = [0x5a; 56];
    v4(&data);
    v6(&data);
}

// What a responder takes from a request: its identifier, its sequence number and its data.
type Echo<'a> = (u16, u16, &'a [u8]);

fn echo_v4(slice: Icmpv4Slice<'_>) -> Option<Echo<'_>> {
    match slice.icmp_type() {
        Icmpv4Type::EchoRequest(echo) => Some((echo.id, echo.seq, slice.payload())),
        _ => None,
    }
}

fn echo_v6(slice: Icmpv6Slice<'_>) -> Option<Echo<'_>> {
    match slice.icmp_type() {
        Icmpv6Type::EchoRequest(echo) => Some((echo.id, echo.seq, slice.payload())),
        _ => None,
    }
}

fn v4(data: &[u8]) {
    let caps = ChecksumCapabilities::default();
    let none = ChecksumCapabilities::ignored();
    let request = icmpv4::Repr::EchoRequest {
        ident: ECHO.id,
        seq_no: ECHO.seq,
        data,
    };
    let mut octets = vec![0; request.buffer_len()];
    request.emit_into(&mut octets, &caps);
    let packet = || icmpv4::Packet::new_unchecked(black_box(&octets[..]));
    let read = || match icmpv4::Repr::parse(&packet(), &caps) {
        Ok(icmpv4::Repr::EchoRequest {
            ident,
            seq_no,
            data,
        }) => Some((ident, seq_no, data)),
        _ => None,
    };
    let read_unverified = || match icmpv4::Repr::parse(&packet(), &none) {
        Ok(icmpv4::Repr::EchoRequest {
            ident,
            seq_no,
            data,
        }) => Some((ident, seq_no, data)),
        _ => None,
    };
    let theirs = || echo_v4(Icmpv4Slice::from_slice(black_box(&octets)).ok()?);
    // etherparse has the call for ICMPv6 alone, so its sum is taken of the octets, as that call does.
    let verified = || {
        let slice = Icmpv4Slice::from_slice(black_box(&octets)).ok()?;
        let sum = Sum16BitWords::new().add_slice(slice.slice());
        if sum.ones_complement() != 0 {
            return None;
        }
        echo_v4(slice)
    };
    let wanted = Some((ECHO.id, ECHO.seq, data));
    assert_eq!([read(), read_unverified()], [wanted; 2]);
    assert_eq!([theirs(), verified()], [wanted; 2]);
    row("ICMPv4 echo, verified", "etherparse", read, verified);
    row(
        "ICMPv4 echo, not verified",
        "etherparse",
        read_unverified,
        theirs,
    );

    let mut out = [0; 64];
    let mut other = Vec::with_capacity(64);
    let write = |out: &mut [u8]| black_box(&request).emit_into(out, &caps);
    let theirs = |out: &mut Vec<u8>| {
        out.clear();
        let header = Icmpv4Header::with_checksum(Icmpv4Type::EchoRequest(black_box(ECHO)), data);
        header.write(out).unwrap();
        out.extend_from_slice(data);
    };
    write(&mut out);
    theirs(&mut other);
    assert_eq!(out[..], other[..]);
    row(
        "ICMPv4 echo, written",
        "etherparse",
        || write(black_box(&mut out)),
        || theirs(black_box(&mut other)),
    );
}

fn v6(data: &[u8]) {
    let caps = ChecksumCapabilities::default();
    let none = ChecksumCapabilities::ignored();
    let request = icmpv6::Repr::EchoRequest {
        ident: ECHO.id,
        seq_no: ECHO.seq,
        data,
    };
    let mut octets = vec![0; request.buffer_len()];
    request.emit_into(&SOURCE, &DESTINATION, &mut octets, &caps);
    let packet = || icmpv6::Packet::new_unchecked(black_box(&octets[..]));
    let read = || match icmpv6::Repr::parse(&SOURCE, &DESTINATION, &packet(), &caps) {
        Ok(icmpv6::Repr::EchoRequest {
            ident,
            seq_no,
            data,
        }) => Some((ident, seq_no, data)),
        _ => None,
    };
    let read_unverified = || match icmpv6::Repr::parse(&SOURCE, &DESTINATION, &packet(), &none) {
        Ok(icmpv6::Repr::EchoRequest {
            ident,
            seq_no,
            data,
        }) => Some((ident, seq_no, data)),
        _ => None,
    };
    let theirs = || echo_v6(Icmpv6Slice::from_slice(black_box(&octets)).ok()?);
    let (source, destination) = (SOURCE.octets(), DESTINATION.octets());
    let verified = || {
        let slice = Icmpv6Slice::from_slice(black_box(&octets)).ok()?;
        if !slice.is_checksum_valid(source, destination) {
            return None;
        }
        echo_v6(slice)
    };
    let wanted = Some((ECHO.id, ECHO.seq, data));
    assert_eq!([read(), read_unverified()], [wanted; 2]);
    assert_eq!([theirs(), verified()], [wanted; 2]);
    row("ICMPv6 echo, verified", "etherparse", read, verified);
    row(
        "ICMPv6 echo, not verified",
        "etherparse",
        read_unverified,
        theirs,
    );

    let mut out = [0; 64];
    let mut other = Vec::with_capacity(64);
    let write = |out: &mut [u8]| black_box(&request).emit_into(&SOURCE, &DESTINATION, out, &caps);
    let theirs = |out: &mut Vec<u8>| {
        out.clear();
        let header = Icmpv6Type::EchoRequest(black_box(ECHO))
            .to_header(source, destination, data)
            .unwrap();
        header.write(out).unwrap();
        out.extend_from_slice(data);
    };
    write(&mut out);
    theirs(&mut other);
    assert_eq!(out[..], other[..]);
    row(
        "ICMPv6 echo, written",
        "etherparse",
        || write(black_box(&mut out)),
        || theirs(black_box(&mut other)),
    );
}
