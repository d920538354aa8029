// Made from crates/packet_pairs/src/names.rt by rust/erase.
//! Questions for names, of DNS and of the services that share its messages.

use crate::exchange::{Exchange, Role, way_of};
use crate::key::{Key, NameKey, NetbiosKey, Way};
use control_wire::dns::{Flags, MULTICAST_PORT, Opcode, Packet};
use control_wire::record::{Name, Question};
use message_fields::Service;

/// The question or the answer in a message that goes this way.
pub(crate) fn name_in(
    service: Service,
    over_tcp: bool,
    way: Way,
    octets: &[u8],
) -> Option<Exchange> {
    let packet = match Packet::new_checked(octets) {
        Ok(packet) => packet,
        Err(_) => return None,
    };
    let role = role_in(&packet);
    let way = way_of(role, way);
    if !repeats(service, way) {
        return None;
    }
    let Some((question, name)) = asked(&packet) else {
        return None;
    };
    let key = NameKey {
        service,
        over_tcp,
        way: name_way(service, way),
        transaction_id: packet.transaction_id(),
        name,
        type_: question.type_,
        class: question_class(service, &question),
    };
    Some(Exchange {
        role,
        key: Key::Name(key),
    })
}

/// The query or the response of the NetBIOS name service in a message that goes this way.
pub(crate) fn netbios_in(way: Way, octets: &[u8]) -> Option<Exchange> {
    let packet = match Packet::new_checked(octets) {
        Ok(packet) => packet,
        Err(_) => return None,
    };
    if packet.opcode() != Opcode::Query {
        return None;
    }
    let role = role_in(&packet);
    let key = NetbiosKey {
        way: way_of(role, way).to_anyone(),
        transaction_id: packet.transaction_id(),
    };
    Some(Exchange {
        role,
        key: Key::Netbios(key),
    })
}

// Whether a message asks or answers.
fn role_in(packet: &Packet<&[u8]>) -> Role {
    if packet.flags().contains(Flags::RESPONSE) {
        return Role::Answers;
    }
    Role::Asks
}

// Whether the responses of a service to who asks this way repeat the question.
fn repeats(service: Service, way: Way) -> bool {
    match service {
        Service::Dns | Service::Llmnr => true,
        Service::Mdns => way.asker_port != MULTICAST_PORT,
        Service::Nbns | Service::Dhcp => false,
    }
}

// The one question of a message, and its name.
fn asked<'a>(packet: &Packet<&'a [u8]>) -> Option<(Question<'a>, Name)> {
    if packet.question_count() != 1 {
        return None;
    }
    let question = match Question::parse(packet.payload()) {
        Ok((_, question)) => question,
        Err(_) => return None,
    };
    match Name::read(packet, question.name) {
        Ok(name) => Some((question, name)),
        Err(_) => None,
    }
}

// The way of the key of a question that goes this way.
fn name_way(service: Service, way: Way) -> Way {
    match service {
        Service::Dns => way,
        _ => way.to_anyone(),
    }
}

// The class of a question.
fn question_class(service: Service, question: &Question<'_>) -> u16 {
    match service {
        Service::Mdns => question.multicast_class(),
        _ => question.class,
    }
}
