//! The library beside its peers, in one process: what reading or writing a packet takes, and how often it allocates.
//! Before it is timed, each pair is seen to agree.

mod chain;
mod dhcp;
mod dns;
mod icmp;
mod measure;

fn main() {
    let words: Vec<String> = std::env::args().skip(1).collect();
    match &words.iter().map(String::as_str).collect::<Vec<_>>()[..] {
        ["chain-here", stack] => chain::here(stack.parse().unwrap()),
        ["chain-hickory", stack] => chain::hickory(stack.parse().unwrap()),
        _ => {
            measure::head();
            icmp::rows();
            dhcp::rows();
            dns::rows();
        }
    }
}
