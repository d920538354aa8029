//! Asks a DNS server for the records of a name, over UDP, and over TCP where the response was cut:
//!
//!     cargo run --example resolve -- NAME [TYPE] [@SERVER[:PORT]]
//!
//! The type is A, AAAA, CNAME, MX, NS, SOA, TXT or a number, and the server by default the first of /etc/resolv.conf.
//! It prints each record of the answer; data of a type that has no text here stand in hexadecimal (RFC 3597 section 5).

use control_wire::dns::{Packet, Rcode, RecordData, Type};
use control_wire::record::{Name, Record};
use examples::resolver::{self, Answers, Response};
use std::hash::{BuildHasher, Hasher, RandomState};
use std::io::ErrorKind::{TimedOut, WouldBlock};
use std::io::{Read, Write};
use std::net::{IpAddr, SocketAddr, TcpStream, UdpSocket};
use std::time::{Duration, Instant};

type Result<T> = std::result::Result<T, Box<dyn std::error::Error>>;

/// How many seconds each of the tries waits for its response.
const WAITS: [u64; 3] = [1, 2, 4];

/// A question, and the query that asks it.
struct Query {
    id: u16,
    name: Name,
    type_: Type,
    octets: Vec<u8>,
}

impl Query {
    fn new(text: &str, type_: Type) -> Result<Query> {
        let name = Name::from_text(text.as_bytes()).map_err(|_| format!("{text} is no name"))?;
        let id = RandomState::new().build_hasher().finish() as u16;
        let mut octets = vec![0; 512];
        let len = resolver::query(id, name.octets(), type_, &mut octets).unwrap();
        octets.truncate(len);
        Ok(Query {
            id,
            name,
            type_,
            octets,
        })
    }

    /// What a message tells, where it is a response to this query.
    fn read<'a>(&'a self, message: &'a [u8]) -> Option<Response<'a>> {
        resolver::read_answers(message, self.id, self.name.octets(), self.type_)
    }

    /// The response of a server over UDP, in three tries (RFC 1035 section 4.2.1).
    fn ask(&self, server: SocketAddr) -> Result<Vec<u8>> {
        let v4 = server.is_ipv4();
        let any = if v4 { "0.0.0.0:0" } else { "[::]:0" };
        let socket = UdpSocket::bind(any)?;
        socket.connect(server)?;
        for wait in WAITS {
            socket.send(&self.octets)?;
            if let Some(response) = self.wait(&socket, Duration::from_secs(wait))? {
                return Ok(response);
            }
        }
        Err(format!("no response to {} queries", WAITS.len()).into())
    }

    /// The first response that comes in this time, whatever else comes.
    fn wait(&self, socket: &UdpSocket, time: Duration) -> Result<Option<Vec<u8>>> {
        let start = Instant::now();
        let mut octets = vec![0; 65_535];
        while let Some(left) = time.checked_sub(start.elapsed()) {
            socket.set_read_timeout(Some(left.max(Duration::from_millis(1))))?;
            match socket.recv(&mut octets) {
                Ok(len) if self.read(&octets[..len]).is_some() => {
                    octets.truncate(len);
                    return Ok(Some(octets));
                }
                Ok(_) => {}
                Err(error) if matches!(error.kind(), WouldBlock | TimedOut) => {}
                Err(error) => return Err(error.into()),
            }
        }
        Ok(None)
    }

    /// The response over TCP, in which two bytes before each message have its length (RFC 1035 section 4.2.2).
    fn ask_whole(&self, server: SocketAddr) -> Result<Vec<u8>> {
        let mut stream = TcpStream::connect_timeout(&server, Duration::from_secs(WAITS[2]))?;
        stream.set_read_timeout(Some(Duration::from_secs(WAITS[2])))?;
        let len = self.octets.len() as u16;
        stream.write_all(&[&len.to_be_bytes()[..], &self.octets].concat())?;
        let mut len = [0; 2];
        stream.read_exact(&mut len)?;
        let mut octets = vec![0; usize::from(u16::from_be_bytes(len))];
        stream.read_exact(&mut octets)?;
        Ok(octets)
    }
}

/// A record as a line of text.
fn line(packet: &Packet<&[u8]>, record: &Record<'_>) -> Result<String> {
    let data = match RecordData::parse(record.type_, record.data)? {
        RecordData::A(address) => format!("A {address}"),
        RecordData::Aaaa(address) => format!("AAAA {address}"),
        RecordData::Cname(name) => format!("CNAME {}", Name::read(packet, name)?),
        RecordData::Other(Type::Ns, name) => format!("NS {}", Name::read(packet, name)?),
        RecordData::Other(type_, data) => {
            let digits: String = data.iter().map(|octet| format!("{octet:02X}")).collect();
            format!("TYPE{} \\# {} {digits}", u16::from(type_), data.len())
        }
    };
    let name = Name::read(packet, record.name)?;
    Ok(format!("{name} {} {data}", record.ttl))
}

/// Prints the records of an answer.
fn print(answers: &Answers<'_>) -> Result<()> {
    let packet = Packet::new_unchecked(answers.message);
    let mut rest = answers.bytes;
    for _ in 0..answers.left {
        let (behind, record) = Record::parse(rest)?;
        println!("{}", line(&packet, &record)?);
        rest = behind;
    }
    Ok(())
}

/// Asks for a name's records, and prints them; an error where there is none.
fn resolve(text: &str, type_: Type, server: SocketAddr) -> Result<()> {
    let query = Query::new(text, type_)?;
    let mut response = query
        .ask(server)
        .map_err(|error| format!("{server}: {error}"))?;
    if matches!(query.read(&response), Some(Response::Truncated(_))) {
        eprintln!("the response was cut: asking again over TCP");
        response = query
            .ask_whole(server)
            .map_err(|error| format!("{server} over TCP: {error}"))?;
    }
    match query.read(&response) {
        Some(Response::Whole(answers)) if answers.left > 0 => print(&answers),
        Some(Response::Whole(_)) => Err(format!("{text} has no records of this type").into()),
        Some(Response::Failed(Rcode::NXDomain)) => Err(format!("there is no {text}").into()),
        Some(Response::Failed(code)) => Err(format!("{server} answers {code:?}").into()),
        _ => Err(format!("{server} gives no whole answer").into()),
    }
}

/// The server of an argument: an address, with a port or without.
fn server(text: &str) -> Result<SocketAddr> {
    match text.parse::<IpAddr>() {
        Ok(address) => Ok((address, 53).into()),
        Err(_) => Ok(text.parse().map_err(|_| format!("{text} is no address"))?),
    }
}

/// The first server of the machine's own.
fn own_server() -> Result<SocketAddr> {
    let text = std::fs::read_to_string("/etc/resolv.conf")?;
    let mut lines = text.lines();
    let found = lines.find_map(|line| line.strip_prefix("nameserver "));
    server(found.ok_or("/etc/resolv.conf has no server")?.trim())
}

/// The type of an argument.
fn type_of(text: &str) -> Result<Type> {
    let number = match text.to_ascii_uppercase().as_str() {
        "A" => 1,
        "NS" => 2,
        "CNAME" => 5,
        "SOA" => 6,
        "MX" => 15,
        "TXT" => 16,
        "AAAA" => 28,
        digits => digits.parse().map_err(|_| format!("{text} is no type"))?,
    };
    Ok(Type::from(number))
}

/// Does what the arguments say.
fn run() -> Result<()> {
    let arguments: Vec<String> = std::env::args().skip(1).collect();
    let (servers, words): (Vec<_>, Vec<_>) =
        arguments.iter().partition(|word| word.starts_with('@'));
    let server = match servers.first() {
        Some(text) => server(&text[1..])?,
        None => own_server()?,
    };
    match words[..] {
        [name] => resolve(name, Type::A, server),
        [name, text] => resolve(name, type_of(text)?, server),
        _ => Err("usage: resolve NAME [TYPE] [@SERVER[:PORT]]".into()),
    }
}

fn main() {
    if let Err(error) = run() {
        eprintln!("resolve: {error}");
        std::process::exit(1);
    }
}
