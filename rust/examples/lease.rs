//! Leases an IPv4 address for an interface by DHCP, and prints what the server gives (RFC 2131 section 4.4):
//!
//!     lease INTERFACE [ADDRESS] [--renew] [--release]
//!
//! With an address it requests this one, as a client does that was leased it before it was started anew. With `--renew`
//! it then requests more time, once, and with `--release` it gives the address back.
//!
//! It is for Linux, as root. std can't bind a socket to an interface, so iproute2's `ip` makes a route to
//! 255.255.255.255 there, and gives the interface its address while it is renewed or released. It deletes both again.

use control_wire::dhcpv4::{CLIENT_PORT, SERVER_PORT};
use control_wire::dhcpv4::{OPT_DOMAIN_NAME_SERVER, OPT_ROUTER, OPT_SUBNET_MASK};
use control_wire::{EthernetAddress, Ipv4Address};
use examples::lease::{self, Answer, Client, Lease, Message};
use std::fmt::Display;
use std::hash::{BuildHasher, Hasher, RandomState};
use std::io::ErrorKind::{TimedOut, WouldBlock};
use std::net::{Ipv4Addr, UdpSocket};
use std::process::Command;
use std::time::{Duration, Instant};

type Result<T> = std::result::Result<T, Box<dyn std::error::Error>>;

/// How many seconds each of the tries waits for its answer (RFC 2131 section 4.1).
const WAITS: [u64; 2] = [4, 8];

/// Acts while there is a route or an address.
fn with<T>(kind: &str, words: &str, act: impl FnOnce() -> Result<T>) -> Result<T> {
    ip(&format!("{kind} add {words}"))?;
    let result = act();
    ip(&format!("{kind} del {words}"))?;
    result
}

fn ip(words: &str) -> Result<()> {
    let status = Command::new("ip").args(words.split(' ')).status()?;
    let failed = || format!("ip {words}: {status}").into();
    status.success().then_some(()).ok_or_else(failed)
}

/// A client, and the socket that it is on.
struct Host {
    socket: UdpSocket,
    client: Client<'static>,
}

impl Host {
    fn new(interface: &str) -> Result<Host> {
        let socket = UdpSocket::bind((Ipv4Addr::UNSPECIFIED, CLIENT_PORT))?;
        socket.set_broadcast(true)?;
        let client = Client {
            address: hardware_address(interface)?,
            broadcast: true,
            requested: &[OPT_SUBNET_MASK, OPT_ROUTER, OPT_DOMAIN_NAME_SERVER],
            min_len: 300,
        };
        Ok(Host { socket, client })
    }

    fn send(&self, message: &Message, id: u32, to: Ipv4Addr) -> Result<()> {
        let mut octets = [0; 600];
        let len = lease::write(message, id, &self.client, &mut octets).unwrap();
        self.socket.send_to(&octets[..len], (to, SERVER_PORT))?;
        Ok(())
    }

    /// The lease that a message is answered with, which is sent again where no answer comes.
    fn ask(&self, message: &Message, id: u32, to: Ipv4Addr) -> Result<Lease> {
        for wait in WAITS {
            self.send(message, id, to)?;
            match self.wait(message, id, Duration::from_secs(wait))? {
                Some(Answer::Offer(lease) | Answer::Ack(lease)) => return Ok(lease),
                Some(Answer::Nak(server)) => return Err(format!("{server} refuses").into()),
                None => {}
            }
        }
        Err(format!("no answer to {} messages", WAITS.len()).into())
    }

    /// The first answer to a message that comes in this time, whatever else comes: an offer where it looks for servers,
    /// and else none.
    fn wait(&self, message: &Message, id: u32, time: Duration) -> Result<Option<Answer>> {
        let start = Instant::now();
        let mut octets = [0; 1500];
        while let Some(left) = time.checked_sub(start.elapsed()) {
            let left = left.max(Duration::from_millis(1));
            self.socket.set_read_timeout(Some(left))?;
            let answer = match self.socket.recv(&mut octets) {
                Ok(len) => lease::read_answer(&octets[..len], id, self.client.address),
                Err(error) if matches!(error.kind(), WouldBlock | TimedOut) => None,
                Err(error) => return Err(error.into()),
            };
            let offer = matches!(answer, Some(Answer::Offer(_)));
            if answer.is_some() && offer == (*message == Message::Discover) {
                return Ok(answer);
            }
        }
        Ok(None)
    }

    /// A lease of the address that the client had, or of the one that is offered first.
    fn lease(&self, had: Option<Ipv4Address>) -> Result<Lease> {
        let all = Ipv4Addr::BROADCAST;
        let id = new_id();
        if let Some(address) = had {
            return self.ask(&Message::Reboot { address }, id, all);
        }
        let offer = self.ask(&Message::Discover, id, all)?;
        let (server, address) = (offer.server, offer.address);
        self.ask(&Message::Select { server, address }, id, all)
    }

    /// Renews a lease and releases it, as wanted, from its address.
    fn keep(&self, lease: &Lease, renew: bool, release: bool) -> Result<()> {
        let (server, address) = (lease.server, lease.address);
        if renew {
            print(&self.ask(&Message::Renew { address }, new_id(), server.into())?);
        }
        if release {
            let message = Message::Release { server, address };
            self.send(&message, new_id(), server.into())?;
            // Nobody answers. The kernel sends it once it has found the server's hardware address.
            std::thread::sleep(Duration::from_millis(200));
            line("released", Some(address));
        }
        Ok(())
    }
}

/// The number of a new exchange, which others can't guess.
fn new_id() -> u32 {
    RandomState::new().build_hasher().finish() as u32
}

fn hardware_address(interface: &str) -> Result<EthernetAddress> {
    let path = format!("/sys/class/net/{interface}/address");
    let text = std::fs::read_to_string(&path).map_err(|error| format!("{path}: {error}"))?;
    let octet = |digits| u8::from_str_radix(digits, 16).ok();
    let octets: Vec<u8> = text.trim().split(':').filter_map(octet).collect();
    let other = |_| format!("{interface} is no Ethernet");
    Ok(EthernetAddress(octets.try_into().map_err(other)?))
}

/// Prints a lease, without a line for what the server didn't say.
fn print(lease: &Lease) {
    line("address", Some(lease.address));
    line("server", Some(lease.server));
    line("mask", lease.subnet_mask);
    line("router", lease.router);
    for server in lease.dns_servers.iter().flatten() {
        line("dns", Some(server));
    }
    line("renew-seconds", lease.renew_duration);
    line("rebind-seconds", lease.rebind_duration);
    line("lease-seconds", lease.lease_duration);
}

fn line(name: &str, value: Option<impl Display>) {
    if let Some(value) = value {
        println!("{name} {value}");
    }
}

/// Does what the arguments say.
fn run() -> Result<()> {
    let mut words: Vec<String> = std::env::args().skip(1).collect();
    let has = |option: &str| words.iter().any(|word| word == option);
    let (renew, release) = (has("--renew"), has("--release"));
    words.retain(|word| word != "--renew" && word != "--release");
    let (interface, had) = match &words[..] {
        [interface] => (interface, None),
        [interface, had] => (interface, Some(had.parse::<Ipv4Addr>()?.into())),
        _ => return Err("usage: lease INTERFACE [ADDRESS] [--renew] [--release]".into()),
    };
    let mut host = Host::new(interface)?;
    let route = format!("255.255.255.255 dev {interface}");
    let lease = with("route", &route, || host.lease(had))?;
    print(&lease);
    if renew || release {
        let mask = lease.subnet_mask.map_or([255; 4], |mask| mask.octets());
        let bits = u32::from_be_bytes(mask).count_ones();
        let address = format!("{}/{bits} dev {interface}", lease.address);
        host.client.broadcast = false; // it has an address by then
        let keep = || host.keep(&lease, renew, release);
        with("address", &address, keep)?;
    }
    Ok(())
}

fn main() {
    if let Err(error) = run() {
        eprintln!("lease: {error}");
        std::process::exit(1);
    }
}
