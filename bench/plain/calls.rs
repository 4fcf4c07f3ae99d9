//! What is asked of DataNodes, and the messages that they and the NameNode send.

use crate::names::Who;
use crate::plans::{Found, RecoveryOrder};
use crate::tokens::{IssuedKey, Token};
use std::rc::Rc;

/// The bytes of a packet. One byte many times takes no memory, and other bytes are shared with the message that passes them on.
#[derive(Clone)]
pub enum Payload {
    Repeated(u8, u64),
    Listed(Rc<[u8]>),
}

impl Payload {
    pub fn len(&self) -> u64 {
        match self {
            Payload::Repeated(_, count) => *count,
            Payload::Listed(bytes) => bytes.len() as u64,
        }
    }

    /// Puts the bytes behind others; so many are no more than a replica holds.
    pub fn append_to(&self, others: &mut Vec<u8>) {
        match self {
            Payload::Repeated(byte, count) => others.resize(others.len() + *count as usize, *byte),
            Payload::Listed(bytes) => others.extend_from_slice(bytes),
        }
    }
}

/// The nodes that come next in a pipeline: those of a list that is shared, behind so many.
#[derive(Clone)]
pub struct Next {
    pub nodes: Option<Rc<[u32]>>,
    pub passed: usize,
}

impl Next {
    /// The first of them, and those behind it.
    pub fn split(&self) -> Option<(u32, Next)> {
        let nodes = self.nodes.as_ref()?;
        let first = *nodes.get(self.passed)?;
        let rest = Next {
            nodes: Some(Rc::clone(nodes)),
            passed: self.passed + 1,
        };
        Some((first, rest))
    }
}

/// Who asks for something of a block at a stamp, and the token that he presents for it.
#[derive(Clone)]
pub struct Presented {
    pub caller: Who,
    pub block: u64,
    pub stamp: u64,
    pub token: Token,
}

/// What is asked of a replica.
pub enum Asked {
    Begin(Next),
    /// These bytes at this offset.
    Packet(u64, Payload, Next),
    /// At this length.
    Finalize(u64, Next),
    /// From this offset so many bytes.
    Read(u64, u64),
    /// To this node. Only the NameNode asks so, in the name of the node that is asked.
    SendCopy(u32),
    TakeCopy(Payload),
    /// What a node that leads a recovery asks: what its replica is, and to take none of an older stamp any more.
    Init,
    /// To cut the replica to this length.
    Update(u64),
}

/// A call of a DataNode that presents a token.
pub struct Call {
    pub presented: Presented,
    pub asked: Asked,
}

pub enum Message {
    Call(u32, Call),
    /// The keys that serve, for a node.
    Keys(u32, Rc<[IssuedKey]>),
    /// A node is to remove a replica of a block, if its stamp isn't newer.
    Invalidate(u32, u64, u64),
    /// A node tells the NameNode of a replica of a block: its stamp and its length.
    Reported(u32, u64, u64, u64),
    /// A node is to lead a recovery.
    Recover(u32, RecoveryOrder),
    /// To the node that leads the recovery of a block at a stamp, from one that it asked for its replica.
    Answered(u32, u64, u64, u32, Found),
    /// To the node that leads the recovery of a block at a stamp, from one that has cut its replica.
    Updated(u32, u64, u64, u32),
    /// A node that led a recovery of a block at a stamp tells the NameNode the length, and the nodes that have it.
    Recovered(u32, u64, u64, u64, Rc<[u32]>),
}
