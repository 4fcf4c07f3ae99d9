//! A cluster in plain Rust: a NameNode, the DataNodes 1 to 8, and all messages that they sent, which a script may deliver in any order.

use crate::answer::{Commands, Reply, Verdict};
use crate::calls::{Asked, Call, Message, Presented};
use crate::data_node::{Answer, DataNode};
use crate::event::Event;
use crate::name_node::NameNode;
use crate::names::{Names, Who};
use crate::plans::RecoveryOrder;
use crate::request::{Op, Request};
use std::rc::Rc;

const NODES: u32 = 8;

pub enum Lost {
    NoMessage,
    NoNode,
}

pub enum EventAnswer<'a> {
    Named(&'a Verdict),
    Called(Answer<'a>),
    Lost(Lost),
}

/// What comes of an event: the answer, and the numbers of the first and the last message that were sent, if any was.
pub struct Outcome<'a> {
    pub answer: EventAnswer<'a>,
    pub sent: Option<(u64, u64)>,
}

pub struct Cluster {
    pub name_node: NameNode,
    nodes: Vec<DataNode>,
    /// The first has the number 1.
    messages: Vec<Message>,
    /// Those of the event that is stepped.
    sent: Vec<Message>,
}

impl Cluster {
    pub fn new(names: &mut Names) -> Cluster {
        let name_node = NameNode::new(names);
        let node = |id| {
            let principal = names.who(&format!("dn-{id}")).expect("a name");
            DataNode::new(id, principal)
        };
        Cluster {
            name_node,
            nodes: (1..=NODES).map(node).collect(),
            messages: Vec::new(),
            sent: Vec::new(),
        }
    }

    /// Brings an event about.
    pub fn step(&mut self, names: &Names, event: Event) -> Outcome<'_> {
        let first = self.messages.len() as u64 + 1;
        let answer = match event {
            Event::Name(request) => {
                let caller = request.caller;
                let verdict = &self.name_node.step(names, request).verdict;
                send_commands(names, caller, verdict, &mut self.messages);
                EventAnswer::Named(verdict)
            }
            Event::Data(node, moment, call) => match node_at(&mut self.nodes, node) {
                Some(node) => {
                    EventAnswer::Called(node.call(names, moment, &call, &mut self.messages))
                }
                None => EventAnswer::Lost(Lost::NoNode),
            },
            Event::Lead(node, going, block, stamp) => match node_at(&mut self.nodes, node) {
                Some(node) => {
                    EventAnswer::Called(node.go_on(going, block, stamp, &mut self.messages))
                }
                None => EventAnswer::Lost(Lost::NoNode),
            },
            Event::Deliver(number, moment) => {
                let answer = deliver(
                    &self.messages,
                    &mut self.name_node,
                    &mut self.nodes,
                    names,
                    number,
                    moment,
                    &mut self.sent,
                );
                self.messages.append(&mut self.sent);
                answer
            }
        };
        let last = self.messages.len() as u64;
        Outcome {
            answer,
            sent: (first <= last).then_some((first, last)),
        }
    }
}

fn node_at(nodes: &mut [DataNode], id: u32) -> Option<&mut DataNode> {
    nodes.get_mut((id - 1) as usize)
}

/// What a DataNode is told with the answer to its heartbeat goes to it by messages.
fn send_commands(names: &Names, caller: Who, verdict: &Verdict, messages: &mut Vec<Message>) {
    let (Ok(Reply::Heartbeat(commands)), Some(node)) = (verdict, names.node(caller)) else {
        return;
    };
    let Commands {
        keys,
        recoveries,
        removals,
        copies,
    } = &**commands;
    messages.push(Message::Keys(node, keys.clone()));
    let recovery = |order: &RecoveryOrder| Message::Recover(node, order.clone());
    messages.extend(recoveries.iter().map(recovery));
    let removal = |own: &(u64, u64)| Message::Invalidate(node, own.0, own.1);
    messages.extend(removals.iter().map(removal));
    for copy in copies {
        let presented = Presented {
            caller,
            block: copy.transfer.block,
            stamp: copy.transfer.stamp,
            token: copy.token.clone(),
        };
        let asked = Asked::SendCopy(copy.transfer.target);
        messages.push(Message::Call(node, Call { presented, asked }));
    }
}

/// Delivers the message of a number.
fn deliver<'a>(
    messages: &[Message],
    name_node: &'a mut NameNode,
    nodes: &'a mut [DataNode],
    names: &Names,
    number: u64,
    moment: u64,
    sent: &mut Vec<Message>,
) -> EventAnswer<'a> {
    let index = usize::try_from(number).ok().and_then(|n| n.checked_sub(1));
    let Some(message) = index.and_then(|index| messages.get(index)) else {
        return EventAnswer::Lost(Lost::NoMessage);
    };
    let (Message::Call(to, _)
    | Message::Keys(to, _)
    | Message::Invalidate(to, ..)
    | Message::Reported(to, ..)
    | Message::Recover(to, _)
    | Message::Answered(to, ..)
    | Message::Updated(to, ..)
    | Message::Recovered(to, ..)) = message;
    let Some(node) = node_at(nodes, *to) else {
        return EventAnswer::Lost(Lost::NoNode);
    };
    // what comes to the NameNode is a request of the node that sent it
    let told = |op| Request {
        caller: node.principal,
        moment,
        op,
    };
    EventAnswer::Called(match message {
        Message::Call(_, call) => node.call(names, moment, call, sent),
        Message::Keys(_, keys) => node.keys(moment, keys),
        Message::Invalidate(_, block, stamp) => node.invalidate(moment, *block, *stamp),
        Message::Reported(_, block, stamp, length) => {
            let request = told(Op::Reported(*block, *stamp, *length));
            return EventAnswer::Named(&name_node.step(names, request).verdict);
        }
        Message::Recovered(_, block, stamp, length, nodes) => {
            let op = Op::CommitRecovery(*block, *stamp, *length, Rc::clone(nodes));
            return EventAnswer::Named(&name_node.step(names, told(op)).verdict);
        }
        Message::Recover(_, order) => node.lead(order, sent),
        Message::Answered(_, block, stamp, from, found) => {
            node.answered(*block, *stamp, *from, *found)
        }
        Message::Updated(_, block, stamp, from) => node.updated(*block, *stamp, *from),
    })
}
