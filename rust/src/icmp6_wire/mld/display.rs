// Made from crates/icmp6_wire/src/mld/display.rt by rust/erase.
//! Messages and records printed, each in one line, octets in hexadecimal.

use super::{AddressRecordRepr, Repr};
use crate::wirebase::text::HexOrDash;
use core::fmt;

/// Prints the message with its fields, as `MLD report nr_mcast_addr_rcrds=0 data=-`. A report given by its records has
/// each record in parentheses in place of `data`.
impl fmt::Display for Repr<'_> {
    fn fmt(&self, f: &mut fmt::Formatter<'_>) -> fmt::Result {
        match self {
            Repr::Query {
                max_resp_code,
                mcast_addr,
                s_flag,
                qrv,
                qqic,
                num_srcs,
                data,
            } => {
                let counts = Counts {
                    qrv: *qrv,
                    qqic: *qqic,
                    num_srcs: *num_srcs,
                    data,
                };
                write!(
                    f,
                    "MLD query max_resp_code={max_resp_code} mcast_addr={mcast_addr} s_flag={s_flag}{counts}"
                )
            }
            Repr::Report {
                nr_mcast_addr_rcrds,
                data,
            } => {
                let data = HexOrDash(data);
                write!(
                    f,
                    "MLD report nr_mcast_addr_rcrds={nr_mcast_addr_rcrds} data={data}"
                )
            }
            Repr::ReportRecordReprs(records) => {
                let count = records.len();
                write!(f, "MLD report nr_mcast_addr_rcrds={count}")?;
                fmt_records(f, records)
            }
        }
    }
}

// The fields of a query after its flag.
#[derive(Clone, Copy)]
struct Counts<'a> {
    qrv: u8,
    qqic: u8,
    num_srcs: u16,
    data: &'a [u8],
}

impl fmt::Display for Counts<'_> {
    fn fmt(&self, f: &mut fmt::Formatter<'_>) -> fmt::Result {
        write!(
            f,
            " qrv={} qqic={} num_srcs={} data={}",
            self.qrv,
            self.qqic,
            self.num_srcs,
            HexOrDash(self.data)
        )
    }
}

// Prints each record in parentheses after a space.
fn fmt_records(f: &mut fmt::Formatter<'_>, records: &[AddressRecordRepr<'_>]) -> fmt::Result {
    for record in records {
        write!(f, " ({record})")?;
    }
    Ok(())
}

/// Prints the record with its fields, as `MLD record record_type=MODE_IS_EXCLUDE aux_data_len=0 num_srcs=0
/// mcast_addr=ff02::2 payload=-`.
impl fmt::Display for AddressRecordRepr<'_> {
    fn fmt(&self, f: &mut fmt::Formatter<'_>) -> fmt::Result {
        let AddressRecordRepr {
            record_type,
            aux_data_len,
            num_srcs,
            mcast_addr,
            payload,
        } = *self;
        let payload = HexOrDash(payload);
        write!(
            f,
            "MLD record record_type={record_type} aux_data_len={aux_data_len} num_srcs={num_srcs} \
             mcast_addr={mcast_addr} payload={payload}"
        )
    }
}
