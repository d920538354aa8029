//! Answers an echo request and a query for members of a multicast group, by the paths that a program for smoltcp has.

mod echo {
    use smoltcp::phy::{Checksum, ChecksumCapabilities};
    use smoltcp::wire::{Error, Icmpv4Packet, Icmpv4Repr};

    /// Writes the answer to an echo request, and says how many bytes it takes. The checksum of what comes in is looked
    /// at, and the interface writes that of what goes out.
    pub fn answer(request: &[u8], reply: &mut [u8]) -> Result<usize, Error> {
        let mut checksums = ChecksumCapabilities::ignored();
        checksums.icmpv4 = Checksum::Rx;
        let packet = Icmpv4Packet::new_checked(request)?;
        let Icmpv4Repr::EchoRequest {
            ident,
            seq_no,
            data,
        } = Icmpv4Repr::parse(&packet, &checksums)?
        else {
            return Err(Error);
        };
        let answer = Icmpv4Repr::EchoReply {
            ident,
            seq_no,
            data,
        };
        let room = reply.get_mut(..answer.buffer_len()).ok_or(Error)?;
        answer.emit(&mut Icmpv4Packet::new_unchecked(room), &checksums);
        Ok(answer.buffer_len())
    }
}

mod members {
    use smoltcp::time::Duration;
    use smoltcp::wire::{IgmpPacket, IgmpRepr, IgmpVersion, Ipv4Address};

    /// How long a member of the group may wait before it answers a query; `None` where no answer is asked.
    pub fn wait(query: &[u8], group: Ipv4Address) -> Option<Duration> {
        let packet = IgmpPacket::new_checked(query).ok()?;
        match IgmpRepr::parse(&packet).ok()? {
            IgmpRepr::MembershipQuery {
                max_resp_time,
                group_addr,
                version: IgmpVersion::Version2,
            } if group_addr == group || group_addr.is_unspecified() => Some(max_resp_time),
            _ => None,
        }
    }
}

const REQUEST: &[u8] = &[
    8, 0, 0x8e, 0xfe, 0x12, 0x34, 0xab, 0xcd, 0xaa, 0x00, 0x00, 0xff,
];
const QUERY: &[u8] = &[0x11, 100, 0xee, 0x9b, 0, 0, 0, 0];

fn main() {
    let mut reply = [0; 64];
    match echo::answer(REQUEST, &mut reply) {
        Ok(len) => println!("{:02x?}", &reply[..len]),
        Err(error) => println!("{error}"),
    }
    let group = smoltcp::wire::Ipv4Address::new(224, 0, 6, 150);
    match members::wait(QUERY, group) {
        Some(time) => println!("answer within {} ms", time.total_millis()),
        None => println!("no answer"),
    }
}

#[cfg(test)]
mod tests {
    use super::*;

    #[test]
    fn an_echo_request_is_answered() {
        let mut reply = [0; 64];
        assert_eq!(echo::answer(REQUEST, &mut reply), Ok(12));
        assert_eq!(reply[..4], [0; 4]);
        assert_eq!(reply[4..12], REQUEST[4..]);
        assert!(echo::answer(&REQUEST[..11], &mut reply).is_err());
    }

    #[test]
    fn a_query_says_how_long_to_wait() {
        let group = smoltcp::wire::Ipv4Address::new(224, 0, 6, 150);
        let time = members::wait(QUERY, group);
        assert_eq!(time, Some(smoltcp::time::Duration::from_secs(10)));
        assert_eq!(members::wait(REQUEST, group), None);
    }
}
