//! The iterator, the errors and the times, which are by hand.

use capture::{Capture, Ending, Error, Time, TimeOutOfRange};
use core::time::Duration;
use std::error::Error as _;
use std::io::{self, BufReader, Read};
use std::time::SystemTime;

/// A pcap file of two packets, of two bytes and of one.
fn file() -> Vec<u8> {
    let mut file = vec![0xd4, 0xc3, 0xb2, 0xa1, 2, 0, 4, 0];
    file.extend([0, 0, 0, 0, 0, 0, 0, 0, 0, 0, 4, 0, 1, 0, 0, 0]);
    file.extend([1, 0, 0, 0, 7, 0, 0, 0, 2, 0, 0, 0, 2, 0, 0, 0, 0xaa, 0xbb]);
    file.extend([2, 0, 0, 0, 0, 0, 0, 0, 1, 0, 0, 0, 9, 0, 0, 0, 0xcc]);
    file
}

/// Octets, and then an error.
struct Broken<'a>(&'a [u8]);

impl Read for Broken<'_> {
    fn read(&mut self, octets: &mut [u8]) -> io::Result<usize> {
        if self.0.is_empty() {
            return Err(io::Error::new(
                io::ErrorKind::ConnectionReset,
                "the cable is out",
            ));
        }
        self.0.read(octets)
    }
}

#[test]
fn records_in_turn_and_then_the_end() {
    let file = file();
    let records: Vec<_> = Capture::new()
        .records(&file[..])
        .map(Result::unwrap)
        .collect();
    let octets: Vec<&[u8]> = records.iter().map(|(_, octets)| &octets[..]).collect();
    assert_eq!(octets, [&[0xaa, 0xbb][..], &[0xcc]]);
    assert_eq!((records[0].0.number, records[1].0.original_len), (1, 9));

    let mut records = Capture::new().records(&file[..]);
    while let Some((record, octets)) = records.read().unwrap() {
        assert_eq!(octets.len(), record.captured_len as usize);
    }
    assert_eq!(
        format!("{records:?}"),
        "Records { capture: Capture { octets: 0, .. }, ended: true, .. }"
    );
    assert!(records.read().unwrap().is_none());
    assert!(records.next().is_none());
    assert!(records.into_parts().1.is_empty());
}

#[test]
fn a_capture_that_is_cut_ends_with_an_error() {
    let file = file();
    let mut records = Capture::new().records(&file[..file.len() - 1]);
    assert!(records.next().unwrap().is_ok());
    let error = records.next().unwrap().unwrap_err();
    assert!(matches!(error, Error::Ended(Ending::Cut)));
    assert_eq!(error.to_string(), Ending::Cut.to_string());
    assert!(error.source().is_none());
    assert!(records.next().is_none());
}

#[test]
fn the_error_of_the_reader_is_kept() {
    let file = file();
    for len in 0..file.len() {
        let mut records = Capture::new().records(BufReader::new(Broken(&file[..len])));
        let error = records.find_map(Result::err).unwrap();
        assert_eq!(
            error.source().unwrap().to_string(),
            "the cable is out",
            "{len}"
        );
        assert!(records.next().is_none());
    }
}

#[test]
fn times_become_those_of_std() {
    let time = Time {
        seconds: 1,
        nanoseconds: 7,
        digits: 9,
    };
    assert_eq!(Duration::from(time), Duration::new(1, 7));
    assert_eq!(
        SystemTime::try_from(time),
        Ok(SystemTime::UNIX_EPOCH + Duration::new(1, 7))
    );
    let late = Time {
        seconds: u64::MAX,
        nanoseconds: 0,
        digits: 0,
    };
    assert_eq!(SystemTime::try_from(late), Err(TimeOutOfRange));
}
