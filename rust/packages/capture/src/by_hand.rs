//! What only Rust has, written by hand and not proved: faults and endings are errors, times become those of std, and
//! the records of a capture are an iterator, which keeps the error of its reader.

use crate::{Capture, Ending, Fault, Next, Record, Time};
use core::fmt;
use core::time::Duration;
use std::io::{self, BufRead, Read};
use std::time::SystemTime;

impl std::error::Error for Fault {}

impl std::error::Error for Ending {}

impl std::error::Error for crate::ending::Refusal {}

impl Default for Capture {
    fn default() -> Capture {
        Capture::new()
    }
}

/// The bytes of the packet that was read last are counted, and not shown.
impl fmt::Debug for Capture {
    fn fmt(&self, f: &mut fmt::Formatter<'_>) -> fmt::Result {
        f.debug_struct("Capture")
            .field("octets", &self.octets().len())
            .finish_non_exhaustive()
    }
}

/// Why no further record of a capture is read.
#[derive(Debug)]
pub enum Error {
    /// The reader failed, with this error.
    Read(io::Error),
    /// There was no memory.
    Memory,
    /// The capture does not end behind a whole record.
    Ended(Ending),
}

impl fmt::Display for Error {
    fn fmt(&self, f: &mut fmt::Formatter<'_>) -> fmt::Result {
        match self {
            Error::Read(_) => write!(f, "{}", Fault::Read),
            Error::Memory => write!(f, "{}", Fault::Memory),
            Error::Ended(ending) => write!(f, "{ending}"),
        }
    }
}

impl std::error::Error for Error {
    fn source(&self) -> Option<&(dyn std::error::Error + 'static)> {
        match self {
            Error::Read(error) => Some(error),
            Error::Memory | Error::Ended(_) => None,
        }
    }
}

/// The records of a capture in turn, each with the octets of its packet, as [`Capture::records`] makes them.
///
/// As an iterator it gives the octets of each packet in a vector of its own. [`Records::read`] lends them, and copies
/// nothing; an `Iterator` can't lend what it gives.
pub struct Records<R> {
    capture: Capture,
    reader: Keeping<R>,
    ended: bool,
}

impl Capture {
    /// The records that follow in this capture, with the octets of their packets. The records end at the end of the
    /// capture; where that is not behind a whole record, or where the reader fails, the last item is the [`Error`].
    ///
    /// ```
    /// use capture::Capture;
    ///
    /// fn lengths(file: &[u8]) -> Result<Vec<usize>, Box<dyn std::error::Error>> {
    ///     let mut lengths = Vec::new();
    ///     for record in Capture::new().records(file) {
    ///         let (record, octets) = record?;
    ///         assert_eq!(record.captured_len as usize, octets.len());
    ///         lengths.push(octets.len());
    ///     }
    ///     Ok(lengths)
    /// }
    ///
    /// // A pcap file of one packet, which has two bytes.
    /// let mut file = vec![0xd4, 0xc3, 0xb2, 0xa1, 2, 0, 4, 0, 0, 0, 0, 0, 0, 0, 0, 0, 0, 0, 4, 0, 1, 0, 0, 0];
    /// file.extend([0, 0, 0, 0, 0, 0, 0, 0, 2, 0, 0, 0, 2, 0, 0, 0, 0xaa, 0xbb]);
    /// assert_eq!(lengths(&file)?, [2]);
    /// assert!(lengths(&file[..41]).is_err());
    /// # Ok::<(), Box<dyn std::error::Error>>(())
    /// ```
    pub fn records<R: BufRead>(self, reader: R) -> Records<R> {
        Records {
            capture: self,
            reader: Keeping {
                reader,
                error: None,
            },
            ended: false,
        }
    }
}

/// The reader is not shown, so that it need not be `Debug` itself.
impl<R> fmt::Debug for Records<R> {
    fn fmt(&self, f: &mut fmt::Formatter<'_>) -> fmt::Result {
        f.debug_struct("Records")
            .field("capture", &self.capture)
            .field("ended", &self.ended)
            .finish_non_exhaustive()
    }
}

impl<R: BufRead> Records<R> {
    /// The next record, and the octets of its packet, which are lent until the next call; None behind the last.
    ///
    /// ```
    /// # use capture::Capture;
    /// # fn show(file: &[u8]) -> Result<(), capture::Error> {
    /// let mut records = Capture::new().records(file);
    /// while let Some((record, octets)) = records.read()? {
    ///     let (whole, kept) = (record.original_len, octets.len());
    ///     println!("packet {} has {whole} bytes, and {kept} of them are here", record.number);
    /// }
    /// # Ok(())
    /// # }
    /// ```
    pub fn read(&mut self) -> Result<Option<(Record, &[u8])>, Error> {
        if self.ended {
            return Ok(None);
        }
        match self.capture.next(&mut self.reader) {
            Ok(Next::Record(record)) => Ok(Some((record, self.capture.octets()))),
            Ok(Next::Ended(ending)) => {
                self.ended = true;
                match ending {
                    Ending::Whole => Ok(None),
                    _ => Err(Error::Ended(ending)),
                }
            }
            Err(fault) => {
                self.ended = true;
                Err(self.reader.explain(fault))
            }
        }
    }

    /// The capture, as far as it is read, and its reader.
    pub fn into_parts(self) -> (Capture, R) {
        (self.capture, self.reader.reader)
    }
}

impl<R: BufRead> Iterator for Records<R> {
    type Item = Result<(Record, Vec<u8>), Error>;

    fn next(&mut self) -> Option<Result<(Record, Vec<u8>), Error>> {
        match self.read() {
            Ok(Some((record, octets))) => Some(Ok((record, octets.to_vec()))),
            Ok(None) => None,
            Err(error) => Some(Err(error)),
        }
    }
}

/// A reader whose last error is kept: the capture itself is only told that there was one.
struct Keeping<R> {
    reader: R,
    error: Option<io::Error>,
}

impl<R> Keeping<R> {
    /// A fault, with the error that was kept.
    fn explain(&mut self, fault: Fault) -> Error {
        match fault {
            Fault::Read => Error::Read(
                self.error
                    .take()
                    .unwrap_or_else(|| io::Error::other("no octets")),
            ),
            Fault::Memory => Error::Memory,
        }
    }

    /// What was read, where an error is kept.
    fn keep<T>(kept: &mut Option<io::Error>, read: io::Result<T>) -> io::Result<T> {
        read.map_err(|error| {
            let kind = error.kind();
            *kept = Some(error);
            kind.into()
        })
    }
}

impl<R: Read> Read for Keeping<R> {
    fn read(&mut self, octets: &mut [u8]) -> io::Result<usize> {
        Keeping::<R>::keep(&mut self.error, self.reader.read(octets))
    }
}

impl<R: BufRead> BufRead for Keeping<R> {
    fn fill_buf(&mut self) -> io::Result<&[u8]> {
        Keeping::<R>::keep(&mut self.error, self.reader.fill_buf())
    }

    fn consume(&mut self, count: usize) {
        self.reader.consume(count)
    }
}

/// A time is later than all that `SystemTime` has.
#[derive(Debug, PartialEq, Eq, Clone, Copy)]
pub struct TimeOutOfRange;

impl fmt::Display for TimeOutOfRange {
    fn fmt(&self, f: &mut fmt::Formatter<'_>) -> fmt::Result {
        f.write_str("the time is later than all that this system has")
    }
}

impl std::error::Error for TimeOutOfRange {}

impl TryFrom<Time> for SystemTime {
    type Error = TimeOutOfRange;

    fn try_from(time: Time) -> Result<SystemTime, TimeOutOfRange> {
        SystemTime::UNIX_EPOCH
            .checked_add(time.into())
            .ok_or(TimeOutOfRange)
    }
}
