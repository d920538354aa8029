// Made from crates/group_wire/src/writer.rt by rust/erase.
//! Records of reports written one after another (RFC 3376 section 4.2, RFC 3810 section 5.2).

use crate::groups::address::Address;
use crate::groups::record::RecordType;
use crate::groups::records::Records;
use crate::groups::sources::put_addresses;
use crate::wirebase::ByteWriter;
use core::marker::PhantomData;

/// There is no room for a record: the caller sends the report that it has, and begins another (RFC 3376 section 4.2.16,
/// RFC 3810 section 5.2.15).
#[derive(Debug, PartialEq, Eq, Clone, Copy)]
pub struct Full;

/// Writes the records of a report into lent octets, one after another.
pub struct RecordsWriter<'a, A: Address> {
    buffer: &'a mut [u8],
    position: usize,
    count: u16,
    address: PhantomData<A>,
}

impl<'a, A: Address> RecordsWriter<'a, A> {
    /// A writer over these octets that has written no record.
    pub fn new(buffer: &'a mut [u8]) -> RecordsWriter<'a, A> {
        RecordsWriter {
            buffer,
            position: 0,
            count: 0,
            address: PhantomData,
        }
    }

    /// Writes a record of this type for a group, with these sources and without auxiliary data. Refused where fewer
    /// bytes are free than it takes (in IGMP 8, and 4 for each source; in MLD 20, and 16 for each), where it has more
    /// than 65,535 sources, and where 65,535 records are written; then nothing changes.
    pub fn push(&mut self, record_type: RecordType, group: A, sources: &[A]) -> Result<(), Full> {
        if self.count == u16::MAX || sources.len() > u16::MAX as usize {
            return Err(Full);
        }
        let width = A::width();
        let len = 4 + width + width * sources.len();
        if self.buffer.len() - self.position < len {
            return Err(Full);
        }
        let end = self.position + len;
        let place = &mut self.buffer[self.position..end];
        write_record(record_type, &group, sources, place);
        self.position = end;
        self.count += 1;
        Ok(())
    }

    /// Forgets the records, so that all octets are free.
    pub fn clear(&mut self) {
        self.position = 0;
        self.count = 0;
    }

    /// The records that are written.
    pub fn records(&self) -> Records<'_, A> {
        Records::new(self.count, &self.buffer[..self.position])
    }
}

// Writes a record without auxiliary data into octets of its length.
fn write_record<A: Address>(record_type: RecordType, group: &A, sources: &[A], octets: &mut [u8]) {
    let mut w = ByteWriter::new(octets);
    put_record(&mut w, record_type, group, sources);
}

// Writes the fields of a record without auxiliary data.
fn put_record<A: Address>(
    w: &mut ByteWriter<'_>,
    record_type: RecordType,
    group: &A,
    sources: &[A],
) {
    w.put_u8(record_type.into());
    w.put_u8(0);
    w.put_u16(sources.len() as u16);
    group.put(w);
    put_addresses(w, sources);
}
