// Made from crates/capture/src/text.rt by rust/erase.
//! How packets, headers and descriptions print: what they are, and then their fields by name.

use crate::capture::{Next, Record};
use crate::order::Order;
use crate::packet::Packet;
use crate::pcap::{FileHeader, Precision, RecordHeader};
use crate::pcapng::{Head, Interface};
use crate::time::Time;
use std::fmt;

/// `big-endian` or `little-endian`.
impl fmt::Display for Order {
    fn fmt(&self, f: &mut fmt::Formatter<'_>) -> fmt::Result {
        match self {
            Order::Big => write!(f, "big-endian"),
            Order::Little => write!(f, "little-endian"),
        }
    }
}

/// `microseconds` or `nanoseconds`.
impl fmt::Display for Precision {
    fn fmt(&self, f: &mut fmt::Formatter<'_>) -> fmt::Result {
        match self {
            Precision::Micro => write!(f, "microseconds"),
            Precision::Nano => write!(f, "nanoseconds"),
        }
    }
}

// A time, or `none`.
#[derive(Clone, Copy)]
struct Told(Option<Time>);

impl fmt::Display for Told {
    fn fmt(&self, f: &mut fmt::Formatter<'_>) -> fmt::Result {
        match self.0 {
            Some(time) => write!(f, "{time}"),
            None => write!(f, "none"),
        }
    }
}

/// `record number=1 time=2026-11-28T00:29:29.123456Z link_type=1 captured_len=64 original_len=98`, with `time=none`
/// where it has no time.
impl fmt::Display for Record {
    fn fmt(&self, f: &mut fmt::Formatter<'_>) -> fmt::Result {
        let Record {
            number,
            time,
            link_type,
            captured_len,
            original_len,
        } = *self;
        let time = Told(time);
        write!(
            f,
            "record number={number} time={time} link_type={link_type}"
        )?;
        write!(
            f,
            " captured_len={captured_len} original_len={original_len}"
        )
    }
}

/// The record, or what ended the capture.
impl fmt::Display for Next {
    fn fmt(&self, f: &mut fmt::Formatter<'_>) -> fmt::Result {
        match self {
            Next::Record(record) => write!(f, "{record}"),
            Next::Ended(ending) => write!(f, "{ending}"),
        }
    }
}

/// `packet time=none link_type=1 original_len=98 start=12 captured_len=64`.
impl fmt::Display for Packet {
    fn fmt(&self, f: &mut fmt::Formatter<'_>) -> fmt::Result {
        let Packet {
            time,
            link_type,
            original_len,
            start,
            captured_len,
        } = *self;
        let time = Told(time);
        write!(
            f,
            "packet time={time} link_type={link_type} original_len={original_len}"
        )?;
        write!(f, " start={start} captured_len={captured_len}")
    }
}

/// `pcap file order=little-endian precision=microseconds link_type=1`.
impl fmt::Display for FileHeader {
    fn fmt(&self, f: &mut fmt::Formatter<'_>) -> fmt::Result {
        let FileHeader {
            order,
            precision,
            link_type,
        } = *self;
        write!(
            f,
            "pcap file order={order} precision={precision} link_type={link_type}"
        )
    }
}

/// `record header seconds=1795825769 fraction=123456 captured_len=64 original_len=98`.
impl fmt::Display for RecordHeader {
    fn fmt(&self, f: &mut fmt::Formatter<'_>) -> fmt::Result {
        let RecordHeader {
            seconds,
            fraction,
            captured_len: kept,
            original_len: all,
        } = *self;
        write!(
            f,
            "record header seconds={seconds} fraction={fraction} captured_len={kept} original_len={all}"
        )
    }
}

/// `block order=little-endian kind=6 total_len=36`.
impl fmt::Display for Head {
    fn fmt(&self, f: &mut fmt::Formatter<'_>) -> fmt::Result {
        let Head {
            order,
            kind,
            total_len,
        } = *self;
        write!(f, "block order={order} kind={kind} total_len={total_len}")
    }
}

/// `interface link_type=1 snap_len=262144 resolution=6 offset=0`.
impl fmt::Display for Interface {
    fn fmt(&self, f: &mut fmt::Formatter<'_>) -> fmt::Result {
        let Interface {
            link_type,
            snap_len,
            resolution,
            offset,
        } = *self;
        write!(
            f,
            "interface link_type={link_type} snap_len={snap_len} resolution={resolution} offset={offset}"
        )
    }
}
