// Made from crates/record_wire/src/types.rt by rust/erase.
//! Types of records, by IANA's registry of DNS parameters.
//!
//! ```
//! use control_wire::record::types;
//! use control_wire::dns::Type;
//!
//! assert_eq!(types::MX, Type::from(15));
//! assert_eq!(types::MX.to_string(), "MX");
//! ```

use crate::dns_wire::dns::Type;
use crate::wirebase::text::{Sink, put_number};
use core::result;

/// An IPv4 address (RFC 1035 section 3.4.1).
pub const A: Type = Type::A;

/// A name server (RFC 1035 section 3.3.11).
pub const NS: Type = Type::Ns;

/// A host that takes mail, which MX took over (RFC 1035 section 3.3.4).
pub const MD: Type = Type::Unknown(3);

/// A host that forwards mail, which MX took over (RFC 1035 section 3.3.5).
pub const MF: Type = Type::Unknown(4);

/// The canonical name of an alias (RFC 1035 section 3.3.1).
pub const CNAME: Type = Type::Cname;

/// The start of a zone of authority (RFC 1035 section 3.3.13).
pub const SOA: Type = Type::Soa;

/// A host that has a mailbox (RFC 1035 section 3.3.3).
pub const MB: Type = Type::Unknown(7);

/// A member of a group of mailboxes (RFC 1035 section 3.3.6).
pub const MG: Type = Type::Unknown(8);

/// The new name of a mailbox (RFC 1035 section 3.3.8).
pub const MR: Type = Type::Unknown(9);

/// A pointer to another name (RFC 1035 section 3.3.12).
pub const PTR: Type = Type::Unknown(12);

/// The kind of a host (RFC 1035 section 3.3.2).
pub const HINFO: Type = Type::Unknown(13);

/// Who is responsible for a mailing list, and who gets its errors (RFC 1035 section 3.3.7).
pub const MINFO: Type = Type::Unknown(14);

/// A host that takes mail (RFC 1035 section 3.3.9).
pub const MX: Type = Type::Unknown(15);

/// Strings (RFC 1035 section 3.3.14).
pub const TXT: Type = Type::Unknown(16);

/// Who is responsible for a name (RFC 1183 section 2.2).
pub const RP: Type = Type::Unknown(17);

/// A server of an AFS or DCE cell (RFC 1183 section 1).
pub const AFSDB: Type = Type::Unknown(18);

/// A host that a host is reached through (RFC 1183 section 3.3).
pub const RT: Type = Type::Unknown(21);

/// A signature of a message (RFC 2931), and of records before RRSIG (RFC 2535 section 4.1).
pub const SIG: Type = Type::Unknown(24);

/// How mail domains of RFC 822 and X.400 correspond (RFC 2163 section 4).
pub const PX: Type = Type::Unknown(26);

/// An IPv6 address (RFC 3596 section 2.1).
pub const AAAA: Type = Type::Aaaa;

/// The next name of a zone, before NSEC (RFC 2535 section 5.2).
pub const NXT: Type = Type::Unknown(30);

/// A host that has a service (RFC 2782).
pub const SRV: Type = Type::Unknown(33);

/// A rule that rewrites a name (RFC 3403 section 4).
pub const NAPTR: Type = Type::Unknown(35);

/// A host that exchanges keys (RFC 2230 section 3).
pub const KX: Type = Type::Unknown(36);

/// The canonical name of a subtree (RFC 6672 section 2).
pub const DNAME: Type = Type::Unknown(39);

/// The options of a message (RFC 6891 section 6.1).
pub const OPT: Type = Type::Unknown(41);

/// The digest of a zone's key (RFC 4034 section 5).
pub const DS: Type = Type::Unknown(43);

/// The fingerprint of a host's key (RFC 4255 section 3).
pub const SSHFP: Type = Type::Unknown(44);

/// A signature of records (RFC 4034 section 3).
pub const RRSIG: Type = Type::Unknown(46);

/// The next name of a zone (RFC 4034 section 4).
pub const NSEC: Type = Type::Unknown(47);

/// A zone's key (RFC 4034 section 2).
pub const DNSKEY: Type = Type::Unknown(48);

/// The next hashed name of a zone (RFC 5155 section 3).
pub const NSEC3: Type = Type::Unknown(50);

/// The certificate of a server (RFC 6698 section 2).
pub const TLSA: Type = Type::Unknown(52);

/// How a service is reached (RFC 9460 section 2).
pub const SVCB: Type = Type::Unknown(64);

/// How a service of HTTP is reached (RFC 9460 section 9).
pub const HTTPS: Type = Type::Unknown(65);

/// Who may send mail, which TXT took over (RFC 7208 section 3.1).
pub const SPF: Type = Type::Unknown(99);

/// A zone's changes, in a question alone (RFC 1995).
pub const IXFR: Type = Type::Unknown(251);

/// A whole zone, in a question alone (RFC 1035 section 3.2.3).
pub const AXFR: Type = Type::Unknown(252);

/// Records of any type, in a question alone (RFC 1035 section 3.2.3).
pub const ANY: Type = Type::Unknown(255);

/// Who may certify a name (RFC 8659 section 4).
pub const CAA: Type = Type::Unknown(257);

/// Puts the text of a type: its mnemonic, such as `MX`, or `TYPE` and its number where this library has no mnemonic for
/// it (RFC 3597 section 5).
#[inline(always)]
pub fn put_type<O, S: Sink<O>>(output: &mut O, type_: Type) -> result::Result<(), S::Error> {
    match type_.mnemonic() {
        Some(mnemonic) => S::put_str(output, mnemonic),
        None => {
            S::put_str(output, "TYPE")?;
            put_number::<O, S>(output, u64::from(u16::from(type_)))
        }
    }
}
