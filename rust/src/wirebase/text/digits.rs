// Made from crates/wirebase/src/text/digits.rt by rust/erase.
//! Numbers of a few digits as text.

use crate::wirebase::text::address::ROOM;

// The numbers from 0 to 255 in four octets each: the digits, and then dots.
const OCTETS: &[u8; 1024] = b"\
    0...1...2...3...4...5...6...7...8...9...10..11..12..13..14..15..\
    16..17..18..19..20..21..22..23..24..25..26..27..28..29..30..31..\
    32..33..34..35..36..37..38..39..40..41..42..43..44..45..46..47..\
    48..49..50..51..52..53..54..55..56..57..58..59..60..61..62..63..\
    64..65..66..67..68..69..70..71..72..73..74..75..76..77..78..79..\
    80..81..82..83..84..85..86..87..88..89..90..91..92..93..94..95..\
    96..97..98..99..100.101.102.103.104.105.106.107.108.109.110.111.\
    112.113.114.115.116.117.118.119.120.121.122.123.124.125.126.127.\
    128.129.130.131.132.133.134.135.136.137.138.139.140.141.142.143.\
    144.145.146.147.148.149.150.151.152.153.154.155.156.157.158.159.\
    160.161.162.163.164.165.166.167.168.169.170.171.172.173.174.175.\
    176.177.178.179.180.181.182.183.184.185.186.187.188.189.190.191.\
    192.193.194.195.196.197.198.199.200.201.202.203.204.205.206.207.\
    208.209.210.211.212.213.214.215.216.217.218.219.220.221.222.223.\
    224.225.226.227.228.229.230.231.232.233.234.235.236.237.238.239.\
    240.241.242.243.244.245.246.247.248.249.250.251.252.253.254.255.";

/// Puts a number of one octet and a dot after the first octets of a buffer, and returns the end. Four octets are
/// copied, since a copy of constant length is cheaper: what follows the end has no meaning.
///
/// # Panics
///
/// May panic where what is asked for above does not hold.
#[inline(always)]
pub fn put_octet(room: &mut [u8; ROOM], at: usize, number: u8) -> usize {
    room[at..at + 4].copy_from_slice(&digits_and_dots(number));
    at + count(number) + 1
}

// The digits of a number, and dots after them.
fn digits_and_dots(number: u8) -> [u8; 4] {
    let at = 4 * number as usize;
    [OCTETS[at], OCTETS[at + 1], OCTETS[at + 2], OCTETS[at + 3]]
}

// The number of digits of a number, without a branch.
fn count(number: u8) -> usize {
    1 + (number >= 10) as usize + (number >= 100) as usize
}

/// Puts a port after the first octets of a buffer, and returns the end.
///
/// # Panics
///
/// May panic where what is asked for above does not hold.
pub fn put_port(room: &mut [u8; ROOM], at: usize, port: u16) -> usize {
    room[at] = b'0' + (port / 10_000) as u8;
    let thousands = next_digit(room, at, port / 1_000);
    let hundreds = next_digit(room, thousands, port / 100);
    let tens = next_digit(room, hundreds, port / 10);
    let ones = next_digit(room, tens, port);
    ones + 1
}

// Puts the last digit of a number after that of its tenth, at `at`, or in its place where the tenth is 0. Returns the
// place of the digit.
#[inline(always)]
fn next_digit(room: &mut [u8; ROOM], at: usize, number: u16) -> usize {
    let place = at + (number >= 10) as usize;
    room[place] = b'0' + (number % 10) as u8;
    place
}
