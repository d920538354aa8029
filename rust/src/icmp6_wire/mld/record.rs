// Made from crates/icmp6_wire/src/mld/record.rt by rust/erase.
//! Records of reports (RFC 3810 section 5.2).

use super::field;
use super::tables::RecordType;
use crate::icmp6_wire::writing::put_address;
use crate::wirebase::{ByteWriter, Error, Ipv6Address, Octets, OctetsMut, Result};

/// A view of the octets of a record in a report (RFC 3810 section 5.2).
#[derive(Debug, Clone)]
pub struct AddressRecord<T: Octets> {
    buffer: T,
}

impl<T: Octets> AddressRecord<T> {
    /// Makes a view of `buffer`; its length is not checked.
    pub const fn new_unchecked(buffer: T) -> AddressRecord<T> {
        AddressRecord { buffer }
    }

    /// Makes a view of `buffer`. Refused where it has fewer than 20 octets. On refusal the buffer is dropped: to keep a
    /// `&mut [u8]`, call `new_unchecked` and then `check_len`.
    pub fn new_checked(buffer: T) -> Result<AddressRecord<T>> {
        let record = AddressRecord::new_unchecked(buffer);
        record.check_len()?;
        Ok(record)
    }

    /// Accepts 20 octets or more. Then each accessor may be called.
    pub fn check_len(&self) -> Result<()> {
        if self.buffer.octets().len() < field::RECORD_MCAST_ADDR.end {
            return Err(Error);
        }
        Ok(())
    }

    /// Returns the buffer of the view.
    pub fn into_inner(self) -> T {
        self.buffer
    }

    /// The type. Requires at least 1 byte.
    ///
    /// # Panics
    ///
    /// May panic where what is asked for above does not hold.
    pub fn record_type(&self) -> RecordType {
        RecordType::from(self.buffer.u8_at(field::RECORD_TYPE))
    }

    /// The words of 4 bytes that the auxiliary data has. Requires at least 2 bytes.
    ///
    /// # Panics
    ///
    /// May panic where what is asked for above does not hold.
    pub fn aux_data_len(&self) -> u8 {
        self.buffer.u8_at(field::AUX_DATA_LEN)
    }

    /// The number of sources. Requires at least 4 bytes.
    ///
    /// # Panics
    ///
    /// May panic where what is asked for above does not hold.
    pub fn num_srcs(&self) -> u16 {
        self.buffer.u16_at(field::RECORD_NUM_SRCS)
    }

    /// The group. Requires at least 20 bytes.
    ///
    /// # Panics
    ///
    /// May panic where what is asked for above does not hold.
    pub fn mcast_addr(&self) -> Ipv6Address {
        Ipv6Address::from_octets(
            self.buffer
                .field(field::RECORD_MCAST_ADDR)
                .try_into()
                .unwrap(),
        )
    }
}

impl<'a, B: AsRef<[u8]> + ?Sized> AddressRecord<&'a B> {
    /// The octets after the fields, which are sources and auxiliary data, for as long as the octets live. Requires at
    /// least 20 bytes.
    ///
    /// # Panics
    ///
    /// May panic where what is asked for above does not hold.
    pub fn payload(&self) -> &'a [u8] {
        &self.buffer.as_ref()[field::RECORD_MCAST_ADDR.end..]
    }
}

impl<T: OctetsMut> AddressRecord<T> {
    /// Writes the type. Requires at least 1 byte.
    ///
    /// # Panics
    ///
    /// May panic where what is asked for above does not hold.
    pub fn set_record_type(&mut self, value: RecordType) {
        self.buffer.set_u8(field::RECORD_TYPE, value.into());
    }

    /// Writes the words of 4 bytes that the auxiliary data has. Requires at least 2 bytes.
    ///
    /// # Panics
    ///
    /// May panic where what is asked for above does not hold.
    pub fn set_aux_data_len(&mut self, value: u8) {
        self.buffer.set_u8(field::AUX_DATA_LEN, value);
    }

    /// Writes the number of sources. Requires at least 4 bytes.
    ///
    /// # Panics
    ///
    /// May panic where what is asked for above does not hold.
    pub fn set_num_srcs(&mut self, value: u16) {
        self.buffer.set_u16(field::RECORD_NUM_SRCS, value);
    }

    /// Writes the group. Requires at least 20 bytes, and a multicast address.
    ///
    /// # Panics
    ///
    /// May panic where what is asked for above does not hold.
    pub fn set_mcast_addr(&mut self, value: Ipv6Address) {
        self.buffer
            .set_bytes(field::RECORD_MCAST_ADDR, &value.octets());
    }

    /// Lends the octets after the fields for writing; the fields are unchanged. Requires at least 20 bytes.
    ///
    /// # Panics
    ///
    /// May panic where what is asked for above does not hold.
    pub fn payload_mut(&mut self) -> &mut [u8] {
        let len = self.buffer.octets().len();
        self.buffer.range_mut(field::RECORD_MCAST_ADDR.end, len)
    }
}

/// Views are equal where their octets are equal.
impl<T: Octets> PartialEq for AddressRecord<T> {
    fn eq(&self, other: &AddressRecord<T>) -> bool {
        self.buffer.octets() == other.buffer.octets()
    }
}

impl<T: Octets> Eq for AddressRecord<T> {}

/// A record of a report (RFC 3810 section 5.2).
#[derive(Debug, PartialEq, Eq, Clone, Copy)]
pub struct AddressRecordRepr<'a> {
    /// What the record says about the group.
    pub record_type: RecordType,
    /// The words of 4 bytes that the auxiliary data has.
    pub aux_data_len: u8,
    /// The number of sources.
    pub num_srcs: u16,
    /// The group.
    pub mcast_addr: Ipv6Address,
    /// The octets after the fields: sources, which [`AddressRecordRepr::sources`] gives in turn, and auxiliary data.
    /// They are not written.
    pub payload: &'a [u8],
}

impl<'a> AddressRecordRepr<'a> {
    /// A record of this type for a group, with no sources and no auxiliary data.
    pub const fn new(record_type: RecordType, mcast_addr: Ipv6Address) -> AddressRecordRepr<'a> {
        AddressRecordRepr {
            record_type,
            aux_data_len: 0,
            num_srcs: 0,
            mcast_addr,
            payload: &[],
        }
    }

    /// The record at the front of the octets; refused where they are fewer than 20. The counts are not compared with
    /// the octets after the fields.
    pub fn parse<B: AsRef<[u8]> + ?Sized>(
        view: &AddressRecord<&'a B>,
    ) -> Result<AddressRecordRepr<'a>> {
        AddressRecordRepr::read(view)
    }

    // The record at the front of the octets.
    pub(super) fn read<B: AsRef<[u8]> + ?Sized>(
        view: &AddressRecord<&'a B>,
    ) -> Result<AddressRecordRepr<'a>> {
        view.check_len()?;
        Ok(AddressRecordRepr::read_whole(view))
    }

    // The record at the front of 20 octets or more.
    pub(super) fn read_whole<B: AsRef<[u8]> + ?Sized>(
        view: &AddressRecord<&'a B>,
    ) -> AddressRecordRepr<'a> {
        AddressRecordRepr {
            record_type: view.record_type(),
            aux_data_len: view.aux_data_len(),
            num_srcs: view.num_srcs(),
            mcast_addr: view.mcast_addr(),
            payload: view.payload(),
        }
    }

    /// The bytes that the record takes, without its payload: 20.
    pub fn buffer_len(&self) -> usize {
        field::RECORD_MCAST_ADDR.end
    }

    /// Writes the record over the front of the octets, without its payload; the other octets are unchanged. Requires at
    /// least 20 bytes, and a multicast address.
    ///
    /// # Panics
    ///
    /// May panic where what is asked for above does not hold.
    pub fn emit<T: OctetsMut>(&self, view: &mut AddressRecord<T>) {
        self.emit_into(view.buffer.octets_mut());
    }

    /// Like `emit`, but writes into a slice.
    ///
    /// # Panics
    ///
    /// May panic where what is asked for above does not hold.
    pub fn emit_into(&self, octets: &mut [u8]) {
        self.write(octets);
    }

    // Writes the fields. Inlined, also into the report around the record where the two are in different codegen units.
    #[inline]
    pub(super) fn write(&self, octets: &mut [u8]) {
        let mut w = ByteWriter::new(octets);
        let [a, b] = self.num_srcs.to_be_bytes();
        w.put_bytes(&[self.record_type.into(), self.aux_data_len, a, b]);
        put_address(&mut w, &self.mcast_addr);
    }
}
