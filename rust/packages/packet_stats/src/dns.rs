// Made from crates/packet_stats/src/dns.rt by rust/erase.
//! Messages of DNS, of multicast DNS and of LLMNR.

use crate::names::lowered;
use crate::row::Mention;
use crate::stats::Stats;
use crate::subject::{IpAddress, Subject};
use crate::table::Fault;
use control_wire::dns::Packet;
use control_wire::record::{Name, Question};
use dns_fields::header::{rcode_of, word_of};

// The flag of a response.
const RESPONSE: u16 = 0x8000;

impl Stats {
    // Counts what a message from an address says.
    pub(crate) fn count_dns(
        &mut self,
        source: IpAddress,
        after: Option<u64>,
        octets: &[u8],
    ) -> Result<(), Fault> {
        let packet = match Packet::new_checked(octets) {
            Ok(packet) => packet,
            Err(_) => return Ok(()),
        };
        if word_of(octets) < RESPONSE {
            return self.count_questions(&packet);
        }
        self.count_response(source, after, octets)
    }

    // Counts the outcome and the server of a response.
    fn count_response(
        &mut self,
        source: IpAddress,
        after: Option<u64>,
        octets: &[u8],
    ) -> Result<(), Fault> {
        self.mention(Mention {
            subject: Subject::Rcode(rcode_of(word_of(octets))),
            after: None,
        })?;
        self.mention(Mention {
            subject: Subject::Server(source),
            after,
        })
    }

    // Counts the questions of a query.
    fn count_questions(&mut self, packet: &Packet<&[u8]>) -> Result<(), Fault> {
        let mut more = packet.question_count();
        let mut left = packet.payload();
        while more > 0 {
            match Question::parse(left) {
                Ok((rest, question)) => {
                    self.count_question(packet, &question)?;
                    left = rest;
                    more -= 1;
                }
                Err(_) => return Ok(()),
            }
        }
        Ok(())
    }

    // Counts a question, where its name can be read.
    fn count_question<'a>(
        &mut self,
        packet: &Packet<&'a [u8]>,
        question: &Question<'a>,
    ) -> Result<(), Fault> {
        match Name::read(packet, question.name) {
            Ok(name) => self.mention(Mention {
                subject: Subject::Question(lowered(&name), question.type_),
                after: None,
            }),
            Err(_) => Ok(()),
        }
    }
}
