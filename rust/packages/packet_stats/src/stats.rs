// Made from crates/packet_stats/src/stats.rt by rust/erase.
//! What is counted of all messages.

use crate::row::Mention;
use crate::subject::Subject;
use crate::table::{Fault, MOST_ROWS, MOST_SERVERS, Table};

/// What the control packets of a capture say, counted in tables of at most `MOST_ROWS` rows, and of `MOST_SERVERS`
/// servers: less than 20 MB. A table that is full takes no new row, and counts what it did not take.
pub struct Stats {
    pub(crate) questions: Table,
    pub(crate) rcodes: Table,
    pub(crate) servers: Table,
    pub(crate) clients: Table,
    pub(crate) leases: Table,
    pub(crate) members: Table,
    pub(crate) sources: Table,
    pub(crate) neighbors: Table,
    pub(crate) routers: Table,
    pub(crate) prefixes: Table,
}

impl Stats {
    /// No message was counted yet.
    pub fn new() -> Stats {
        Stats {
            questions: Table::new(),
            rcodes: Table::new(),
            servers: Table::new(),
            clients: Table::new(),
            leases: Table::new(),
            members: Table::new(),
            sources: Table::new(),
            neighbors: Table::new(),
            routers: Table::new(),
            prefixes: Table::new(),
        }
    }

    // Counts what a message says of a subject.
    pub(crate) fn mention(&mut self, mention: Mention) -> Result<(), Fault> {
        match &mention.subject {
            Subject::Question(..) => self.questions.count(MOST_ROWS, mention),
            Subject::Rcode(_) => self.rcodes.count(MOST_ROWS, mention),
            Subject::Server(_) => self.servers.count(MOST_SERVERS, mention),
            Subject::Client(_) => self.clients.count(MOST_ROWS, mention),
            Subject::Lease(..) => self.leases.count(MOST_ROWS, mention),
            Subject::Member(..) => self.members.count(MOST_ROWS, mention),
            Subject::Source(_) => self.sources.count(MOST_ROWS, mention),
            Subject::Neighbor(..) => self.neighbors.count(MOST_ROWS, mention),
            Subject::Router(_) => self.routers.count(MOST_ROWS, mention),
            Subject::Prefix(..) => self.prefixes.count(MOST_ROWS, mention),
        }
    }

    // Counts a subject that a message speaks of.
    pub(crate) fn count_subject(&mut self, subject: Subject) -> Result<(), Fault> {
        self.mention(Mention {
            subject,
            after: None,
        })
    }

    // Puts each table into the order of a page.
    pub(crate) fn sort(&mut self) {
        self.questions.sort();
        self.rcodes.sort();
        self.servers.sort();
        self.clients.sort();
        self.leases.sort();
        self.members.sort();
        self.sources.sort();
        self.neighbors.sort();
        self.routers.sort();
        self.prefixes.sort();
    }
}
