//! What a caller is told, and how it is printed.

use crate::access_list::{AclFault, Deciding, EntryKind};
use crate::blocks::{NewBlock, Transfer};
use crate::cluster::{EventAnswer, Lost, Outcome};
use crate::names::{Names, Who};
use crate::plans::RecoveryOrder;
use crate::request::{IllFormed, SpecFault};
use crate::tokens::{IssuedKey, Token};
use crate::tree::{Denial, FileState, Need};
use std::rc::Rc;

pub struct FileDetail {
    pub replication: u8,
    pub length: u64,
    pub state: FileState,
}

pub struct Status {
    pub mode: u16,
    pub is_extended: bool,
    pub owner: Who,
    pub group: Who,
    /// What is told of a file alone.
    pub file: Option<FileDetail>,
}

/// A new block, the token with which it is written, and the row of the ledger that has it, counted from 1.
#[allow(dead_code)]
pub struct Added {
    pub new: NewBlock,
    pub token: Token,
    pub row: u64,
}

/// A block that can be read, and the token with which it is.
#[allow(dead_code)]
pub struct Located {
    pub block: u64,
    pub stamp: u64,
    pub length: u64,
    pub nodes: Box<[u32]>,
    pub token: Token,
    pub row: u64,
}

/// A file to be read: its length, and its blocks whose length is committed.
pub struct Opened {
    pub length: u64,
    pub blocks: Box<[Located]>,
}

/// A copy that a DataNode is to make, and the token with which it does.
pub struct CopyOrder {
    pub transfer: Transfer,
    pub token: Token,
}

/// What a DataNode is told: the keys that serve, the recoveries that it is to lead, the replicas that it is to remove, each with its stamp,
/// and the copies that it is to make.
pub struct Commands {
    pub keys: Rc<[IssuedKey]>,
    pub recoveries: Vec<RecoveryOrder>,
    pub removals: Vec<(u64, u64)>,
    pub copies: Vec<CopyOrder>,
}

pub enum Reply {
    Empty,
    Status(Status),
    /// The names, each behind a slash.
    Names(Box<str>),
    Deleted(u64),
    /// The file was taken from a client whose lease is past a limit, and closed.
    Released,
    /// The file was taken from him, and this block is being recovered under this stamp.
    Recovering(u64, u64),
    /// The file is closed, and has so many bytes.
    Closed(u64),
    Opened(Box<Opened>),
    Added(Box<Added>),
    /// The number of a new key.
    Serial(u32),
    Heartbeat(Box<Commands>),
    /// So many files were closed, and so many recoveries begun.
    Expired(u64, u64),
}

pub enum Refusal {
    BadPath,
    NotFound,
    NotDirectory(Box<str>),
    IsDirectory,
    Exists,
    NotEmpty,
    IsRoot,
    UnderItself,
    Acl(AclFault),
    /// This client has the file open.
    LeaseHeld(Who),
    /// The file's last block is being recovered.
    RecoveryRunning,
    /// Another client has the file open.
    NoLease,
    NotOpen,
    /// No DataNode has reported the last block.
    NotYetReplicated,
    /// No DataNode is live.
    TooFewNodes,
    /// The newest stamp of the block is this one.
    StaleStamp(u64),
    SpentSerial,
    SpentBlock,
    SpentStamp,
    BadName,
}

pub enum Failure {
    Denied(Box<Denial>),
    Refused(Refusal),
}

impl From<Box<Denial>> for Failure {
    fn from(denial: Box<Denial>) -> Failure {
        Failure::Denied(denial)
    }
}

impl From<Refusal> for Failure {
    fn from(refusal: Refusal) -> Failure {
        Failure::Refused(refusal)
    }
}

pub type Verdict = Result<Reply, Failure>;

/// A text to which answers are added.
pub struct Printer<'a> {
    pub names: &'a Names,
    pub text: &'a mut String,
}

fn rights_text(rights: u8) -> &'static str {
    ["---", "--x", "-w-", "-wx", "r--", "r-x", "rw-", "rwx"][usize::from(rights & 0o7)]
}

fn kind_text(kind: EntryKind) -> &'static str {
    match kind {
        EntryKind::User => "user:",
        EntryKind::Group => "group:",
        EntryKind::Mask => "mask:",
        EntryKind::Other => "other:",
    }
}

impl Printer<'_> {
    pub fn push(&mut self, text: &str) {
        self.text.push_str(text);
    }

    fn push_who(&mut self, who: Who) {
        self.text.push_str(self.names.text(who));
    }

    pub fn push_number(&mut self, mut number: u64) {
        let mut digits = [b'0'; 20];
        let mut first = digits.len();
        loop {
            first -= 1;
            digits[first] = b'0' + (number % 10) as u8;
            number /= 10;
            if number == 0 {
                break;
            }
        }
        self.push(str::from_utf8(&digits[first..]).expect("digits"));
    }

    fn push_mode(&mut self, mode: u16) {
        for shift in [9, 6, 3, 0] {
            self.text
                .push(char::from(b'0' + (mode >> shift & 0o7) as u8));
        }
    }

    fn push_entry(&mut self, deciding: &Deciding) {
        self.push(kind_text(deciding.entry.kind));
        if let Some(name) = deciding.entry.name {
            self.push_who(name);
        }
        self.push(":");
        self.push(rights_text(deciding.entry.rights));
        if let Some(mask) = deciding.mask {
            self.push(" mask::");
            self.push(rights_text(mask));
        }
    }

    fn push_need(&mut self, need: &Need) {
        match need {
            Need::Rights(asked, deciding) => {
                self.push(rights_text(*asked));
                self.push(" by ");
                self.push_entry(deciding);
            }
            Need::Sticky(owner, above) => {
                self.push("sticky by owner:");
                self.push_who(*owner);
                self.push(" dir:");
                self.push_who(*above);
            }
            Need::Owner(owner) => {
                self.push("owner by owner:");
                self.push_who(*owner);
            }
            Need::Superuser => self.push("superuser by superuser"),
            Need::Node => self.push("node by node"),
        }
    }

    fn push_detail(&mut self, detail: &FileDetail) {
        self.push(" ");
        self.push_number(detail.replication.into());
        self.push(" ");
        self.push_number(detail.length);
        match detail.state {
            FileState::Closed => self.push(" closed"),
            FileState::Open(holder) => {
                self.push(" open:");
                self.push_who(holder);
            }
            FileState::Recovering => self.push(" recovering"),
        }
    }

    fn push_status(&mut self, status: &Status) {
        self.push(if status.file.is_some() {
            "ok file "
        } else {
            "ok dir "
        });
        self.push_mode(status.mode);
        self.push(if status.is_extended { "+ " } else { " " });
        self.push_who(status.owner);
        self.push(" ");
        self.push_who(status.group);
        if let Some(detail) = &status.file {
            self.push_detail(detail);
        }
    }

    fn push_names(&mut self, names: &str) {
        self.push("ok list");
        for name in names.split('/').skip(1) {
            self.push(" ");
            self.push(name);
        }
    }

    fn push_added(&mut self, added: &Added) {
        self.push("ok block ");
        self.push_number(added.new.block);
        self.push(" ");
        self.push_number(added.new.stamp);
        self.push(" targets ");
        self.push_nodes(&added.new.targets);
        self.push(" token #");
        self.push_number(added.row);
    }

    pub fn push_nodes(&mut self, nodes: &[u32]) {
        if nodes.is_empty() {
            self.push("-");
        }
        for (i, node) in nodes.iter().enumerate() {
            self.push(if i == 0 { "" } else { "," });
            self.push_number((*node).into());
        }
    }

    fn push_opened(&mut self, opened: &Opened) {
        self.push("ok open ");
        self.push_number(opened.length);
        for own in &opened.blocks {
            for (sign, number) in [(" ", own.block), (":", own.stamp), (":", own.length)] {
                self.push(sign);
                self.push_number(number);
            }
            self.push(":");
            self.push_nodes(&own.nodes);
            self.push(":#");
            self.push_number(own.row);
        }
    }

    fn push_reply(&mut self, reply: &Reply) {
        match reply {
            Reply::Empty => self.push("ok"),
            Reply::Status(status) => self.push_status(status),
            Reply::Names(names) => self.push_names(names),
            Reply::Deleted(count) => {
                self.push("ok deleted ");
                self.push_number(*count);
            }
            Reply::Released => self.push("ok released"),
            Reply::Recovering(block, stamp) => {
                self.push("ok recovering ");
                self.push_number(*block);
                self.push(" ");
                self.push_number(*stamp);
            }
            Reply::Closed(length) => {
                self.push("ok closed ");
                self.push_number(*length);
            }
            Reply::Opened(opened) => self.push_opened(opened),
            Reply::Added(added) => self.push_added(added),
            Reply::Serial(serial) => {
                self.push("ok serial ");
                self.push_number((*serial).into());
            }
            Reply::Heartbeat(_) => self.push("ok heartbeat"),
            Reply::Expired(closed, recovering) => {
                self.push("ok closed ");
                self.push_number(*closed);
                self.push(" recovering ");
                self.push_number(*recovering);
            }
        }
    }

    fn push_refusal(&mut self, refusal: &Refusal) {
        self.push("refused ");
        match refusal {
            Refusal::BadPath => self.push("1 BadPath"),
            Refusal::NotFound => self.push("2 NotFound"),
            Refusal::NotDirectory(path) => {
                self.push("3 NotDirectory ");
                self.push(path);
            }
            Refusal::IsDirectory => self.push("4 IsDirectory"),
            Refusal::Exists => self.push("5 Exists"),
            Refusal::NotEmpty => self.push("6 NotEmpty"),
            Refusal::IsRoot => self.push("7 IsRoot"),
            Refusal::UnderItself => self.push("8 UnderItself"),
            Refusal::Acl(AclFault::NoBase) => self.push("9 BadAcl NoBase"),
            Refusal::Acl(AclFault::TooManyEntries) => self.push("10 TooManyEntries"),
            Refusal::LeaseHeld(client) => {
                self.push("11 LeaseHeld ");
                self.push_who(*client);
            }
            Refusal::RecoveryRunning => self.push("12 RecoveryRunning"),
            Refusal::NoLease => self.push("13 NoLease"),
            Refusal::NotOpen => self.push("14 NotOpen"),
            Refusal::NotYetReplicated => self.push("15 NotYetReplicated"),
            Refusal::TooFewNodes => self.push("16 TooFewNodes"),
            Refusal::StaleStamp(stamp) => {
                self.push("17 StaleStamp ");
                self.push_number(*stamp);
            }
            Refusal::SpentSerial => self.push("18 Spent Serial"),
            Refusal::SpentBlock => self.push("18 Spent BlockId"),
            Refusal::SpentStamp => self.push("18 Spent Stamp"),
            Refusal::BadName => self.push("19 BadName"),
        }
    }

    pub fn push_verdict(&mut self, verdict: &Verdict) {
        match verdict {
            Ok(reply) => self.push_reply(reply),
            Err(Failure::Refused(refusal)) => self.push_refusal(refusal),
            Err(Failure::Denied(denial)) => {
                self.push("denied ");
                self.push(&denial.path);
                self.push(" ");
                self.push_need(&denial.need);
            }
        }
    }

    /// What comes of an event.
    pub fn push_outcome(&mut self, outcome: &Outcome) {
        match &outcome.answer {
            EventAnswer::Named(verdict) => self.push_verdict(verdict),
            EventAnswer::Called(answer) => self.push_called(answer),
            EventAnswer::Lost(Lost::NoMessage) => self.push("refused D1 NoMessage"),
            EventAnswer::Lost(Lost::NoNode) => self.push("refused D2 NoNode"),
        }
        if let Some((first, last)) = outcome.sent {
            self.push(" sent ");
            self.push_number(first);
            self.push("-");
            self.push_number(last);
        }
    }

    pub fn push_bad(&mut self, fault: IllFormed) {
        self.push(match fault {
            IllFormed::BadLine => "bad 0 BadLine",
            IllFormed::BadPath => "bad 1 BadPath",
            IllFormed::BadAcl(SpecFault::Form) => "bad 9 BadAcl Form",
            IllFormed::BadAcl(SpecFault::Duplicate) => "bad 9 BadAcl Duplicate",
            IllFormed::BadAcl(SpecFault::NamedBase) => "bad 9 BadAcl NamedBase",
            IllFormed::BadName => "bad 19 BadName",
            IllFormed::BadMode => "bad 20 BadMode",
        });
    }
}
