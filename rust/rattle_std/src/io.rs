//! Streams: std's, with buffers that may want memory.

use crate::alloc::AllocError;
pub use std::io::*;

/// Standard input.
pub fn reader() -> Stdin {
    stdin()
}

/// Standard output.
pub fn writer() -> Stdout {
    stdout()
}

/// A reader with a buffer.
pub struct BufReader<R>(std::io::BufReader<R>);

impl<R: Read> BufReader<R> {
    /// The reader, of which nothing is read yet.
    pub fn new(from: R) -> std::result::Result<BufReader<R>, AllocError> {
        Ok(BufReader(std::io::BufReader::new(from)))
    }

    /// The same, with a buffer of so many bytes.
    pub fn with_capacity(count: usize, from: R) -> std::result::Result<BufReader<R>, AllocError> {
        Ok(BufReader(std::io::BufReader::with_capacity(count, from)))
    }

    /// What was read and is not yet consumed.
    pub fn buffer(&self) -> &[u8] {
        self.0.buffer()
    }
}

impl<R: Read> Read for BufReader<R> {
    fn read(&mut self, bytes: &mut [u8]) -> Result<usize> {
        self.0.read(bytes)
    }
}

impl<R: Read> BufRead for BufReader<R> {
    fn fill_buf(&mut self) -> Result<&[u8]> {
        self.0.fill_buf()
    }

    fn consume(&mut self, count: usize) {
        self.0.consume(count)
    }
}

/// A writer with a buffer.
pub struct BufWriter<W: Write>(std::io::BufWriter<W>);

impl<W: Write> BufWriter<W> {
    /// The writer, to which nothing is written yet.
    pub fn new(onto: W) -> std::result::Result<BufWriter<W>, AllocError> {
        Ok(BufWriter(std::io::BufWriter::new(onto)))
    }

    /// The same, with a buffer of so many bytes.
    pub fn with_capacity(count: usize, onto: W) -> std::result::Result<BufWriter<W>, AllocError> {
        Ok(BufWriter(std::io::BufWriter::with_capacity(count, onto)))
    }

    /// The writer under it, with all written out.
    pub fn into_inner(self) -> std::result::Result<W, Error> {
        self.0.into_inner().map_err(|error| error.into_error())
    }
}

impl<W: Write> Write for BufWriter<W> {
    #[inline]
    fn write(&mut self, bytes: &[u8]) -> Result<usize> {
        self.0.write(bytes)
    }

    #[inline]
    fn write_all(&mut self, bytes: &[u8]) -> Result<()> {
        self.0.write_all(bytes)
    }

    fn flush(&mut self) -> Result<()> {
        self.0.flush()
    }
}

/// Prints a line, and answers whether it could be written.
#[macro_export]
macro_rules! println {
    ($($argument:tt)*) => {
        std::io::Write::write_fmt(&mut std::io::stdout(), format_args!("{}\n", format_args!($($argument)*)))
    };
}

/// The same on standard error.
#[macro_export]
macro_rules! eprintln {
    ($($argument:tt)*) => {
        std::io::Write::write_fmt(&mut std::io::stderr(), format_args!("{}\n", format_args!($($argument)*)))
    };
}
