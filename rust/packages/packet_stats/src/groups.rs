// Made from crates/packet_stats/src/groups.rt by rust/erase.
//! Reports of multicast groups: IGMP (RFC 2236, RFC 3376) and multicast listener discovery (RFC 2710, RFC 3810).

use crate::stats::Stats;
use crate::subject::{FilterMode, IpAddress, Source, Subject};
use crate::table::Fault;
use control_wire::{Ipv4Address, Octets};
use neighbor_fields::records::{counted_len, record_len};
use packet_fields::texts::v6_of;

// The fields of messages and of records (RFC 2236 section 2, RFC 3376 section 4.2, RFC 3810 section 5.2).
mod place {
    use control_wire::Field;

    pub const TYPE: usize = 0;

    pub const NUM_RECORDS: Field = 6..8;

    pub const RECORDS: usize = 8;

    pub const GROUP4: Field = 4..8;

    pub const GROUP4_END: usize = 8;

    pub const GROUP6: Field = 8..24;

    pub const GROUP6_END: usize = 24;

    pub const RECORD_SRCS: Field = 2..4;

    pub const RECORD_GROUP: usize = 4;
}

// The octets of addresses.
const WIDTH4: usize = 4;

const WIDTH6: usize = 16;

impl Stats {
    // Counts what a message of IGMP from a host says.
    pub(crate) fn count_igmp(&mut self, host: IpAddress, octets: &[u8]) -> Result<(), Fault> {
        if octets.len() < place::GROUP4_END {
            return Ok(());
        }
        self.count_body4(host, octets)
    }

    fn count_body4(&mut self, host: IpAddress, octets: &[u8]) -> Result<(), Fault> {
        match octets[place::TYPE] {
            0x12 | 0x16 => self.count_group(octets.field(place::GROUP4), host),
            0x22 => self.count_report(WIDTH4, host, octets),
            _ => Ok(()),
        }
    }

    // Counts what a report of multicast listeners of version 1 says.
    pub(crate) fn count_old_report(&mut self, host: IpAddress, octets: &[u8]) -> Result<(), Fault> {
        if octets.len() < place::GROUP6_END {
            return Ok(());
        }
        self.count_group(octets.field(place::GROUP6), host)
    }

    // Counts what a report of multicast listeners of version 2 says.
    pub(crate) fn count_new_report(&mut self, host: IpAddress, octets: &[u8]) -> Result<(), Fault> {
        if octets.len() < place::RECORDS {
            return Ok(());
        }
        self.count_report(WIDTH6, host, octets)
    }

    // Counts what a report of records says, whose addresses have so many octets.
    fn count_report(&mut self, width: usize, host: IpAddress, octets: &[u8]) -> Result<(), Fault> {
        let count = octets.u16_at(place::NUM_RECORDS) as usize;
        let (_, records) = octets.split_at(place::RECORDS);
        self.count_records(width, host, count, records)
    }

    // Counts what so many records say, or as many as there are.
    fn count_records(
        &mut self,
        width: usize,
        host: IpAddress,
        count: usize,
        octets: &[u8],
    ) -> Result<(), Fault> {
        let mut left = octets;
        let mut more = count;
        while more > 0 {
            if left.is_empty() {
                return Ok(());
            }
            let (record, others) = left.split_at(record_len(width, left));
            self.count_record(width, host, record)?;
            left = others;
            more -= 1;
        }
        Ok(())
    }

    // Counts what a record says, where it is not cut.
    fn count_record(&mut self, width: usize, host: IpAddress, record: &[u8]) -> Result<(), Fault> {
        if is_member(width, record) {
            let group = record.range(place::RECORD_GROUP, place::RECORD_GROUP + width);
            self.count_group(group, host)?;
            return self.count_filter(width, host, record);
        }
        Ok(())
    }

    // Counts the sources that a record has, each of which the host wants, or excludes.
    fn count_filter(&mut self, width: usize, host: IpAddress, record: &[u8]) -> Result<(), Fault> {
        let group = address_of(record.range(place::RECORD_GROUP, place::RECORD_GROUP + width));
        let mode = mode_of(record[place::TYPE]);
        let (_, octets) = record.split_at(place::RECORD_GROUP + width);
        let mut left = octets;
        let mut more = record.u16_at(place::RECORD_SRCS);
        while more > 0 {
            let (address, others) = left.split_at(width);
            self.count_group_source(group, host, mode, address)?;
            left = others;
            more -= 1;
        }
        Ok(())
    }

    // Counts a source of an address of these octets.
    fn count_group_source(
        &mut self,
        group: IpAddress,
        host: IpAddress,
        mode: FilterMode,
        octets: &[u8],
    ) -> Result<(), Fault> {
        let address = address_of(octets);
        let source = Source {
            group,
            host,
            mode,
            address,
        };
        self.count_subject(Subject::Source(source))
    }

    // Counts a host that is in the group of an address of these octets.
    fn count_group(&mut self, group: &[u8], host: IpAddress) -> Result<(), Fault> {
        self.count_subject(Subject::Member(address_of(group), host))
    }
}

// Whether a record says that a host is in its group; one that is cut says nothing.
fn is_member(width: usize, record: &[u8]) -> bool {
    if is_whole_record(width, record) {
        return tells_member(record[place::TYPE], record.u16_at(place::RECORD_SRCS));
    }
    false
}

fn is_whole_record(width: usize, record: &[u8]) -> bool {
    record.len() >= place::RECORD_GROUP && record.len() == counted_len(width, record)
}

// Whether a record of this type and of so many sources says that a host is in its group.
fn tells_member(type_: u8, sources: u16) -> bool {
    match type_ {
        2 | 4 => true,
        1 | 3 | 5 => sources > 0,
        _ => false,
    }
}

// Whether a record of this type has sources that are wanted, or sources that are excluded.
fn mode_of(type_: u8) -> FilterMode {
    match type_ {
        2 | 4 => FilterMode::Exclude,
        _ => FilterMode::Include,
    }
}

// The address of 4 or of 16 octets.
fn address_of(octets: &[u8]) -> IpAddress {
    if octets.len() == WIDTH6 {
        return IpAddress::V6(v6_of(octets));
    }
    IpAddress::V4(v4_of(octets))
}

// The address of IPv4 of 4 octets.
fn v4_of(octets: &[u8]) -> Ipv4Address {
    Ipv4Address::from_octets(octets.try_into().unwrap())
}
