//! A DataNode: its replicas, the keys that it was sent, and whom it let at its replicas.

use crate::calls::{Asked, Call, Message, Next, Payload, Presented};
use crate::event::Going;
use crate::names::{FastMap, Names, Who};
use crate::plans::{Found, PlanRefusal, Plans, RecoveryOrder};
use crate::tokens::{Access, IssuedKey, KeyCache, READ, Token, TokenRefusal, WRITE};
use std::rc::Rc;

/// The most bytes of a packet, and of a replica.
const PACKET_LIMIT: u64 = 65_536;
const REPLICA_LIMIT: u64 = 134_217_728;

struct Replica {
    stamp: u64,
    is_writing: bool,
    bytes: Vec<u8>,
}

/// What is held of a block, and the greatest stamp that was ever held or promised of it.
struct Held {
    replica: Option<Replica>,
    promised: u64,
}

/// That a caller was let at a block for a token.
#[allow(dead_code)]
struct AccessRecord {
    moment: u64,
    caller: Who,
    mode: u8,
    block: u64,
    offset: u64,
    length: u64,
    token: Token,
}

impl AccessRecord {
    fn of(presented: &Presented, moment: u64, mode: u8, offset: u64, length: u64) -> AccessRecord {
        AccessRecord {
            moment,
            caller: presented.caller,
            mode,
            block: presented.block,
            offset,
            length,
            token: Token::clone(&presented.token),
        }
    }
}

/// What is answered to a call that isn't refused.
pub enum Told<'a> {
    Begun,
    Taken(u64),
    Finalized(u64),
    Read(&'a [u8]),
    Removed,
    Copied(u64),
    Stored(u64),
    Keys(usize),
    /// Of a recovery that is led: so many nodes are asked.
    Asked(usize),
    /// The stamp and the length of a replica, and whether it is still being written.
    Replica(u64, u64, bool),
    Noted,
    /// The length to which a block is recovered, and those that take part.
    Length(u64, Rc<[u32]>),
    Updated(u64),
    Committed(u64),
}

pub enum ReplicaRefusal {
    NoReplica,
    StampDiffers(u64),
    OutOfRange,
    NotWritable,
    OffsetGap(u64),
    ReplicaExists,
}

pub enum NodeRefusal {
    Token(TokenRefusal),
    Replica(ReplicaRefusal),
    Plan(PlanRefusal),
}

impl From<TokenRefusal> for NodeRefusal {
    fn from(refusal: TokenRefusal) -> NodeRefusal {
        NodeRefusal::Token(refusal)
    }
}

impl From<ReplicaRefusal> for NodeRefusal {
    fn from(refusal: ReplicaRefusal) -> NodeRefusal {
        NodeRefusal::Replica(refusal)
    }
}

impl From<PlanRefusal> for NodeRefusal {
    fn from(refusal: PlanRefusal) -> NodeRefusal {
        NodeRefusal::Plan(refusal)
    }
}

pub type Answer<'a> = Result<Told<'a>, NodeRefusal>;

type Judged<T> = Result<T, ReplicaRefusal>;

pub struct DataNode {
    id: u32,
    /// In whose name it reports.
    pub principal: Who,
    clock: u64,
    keys: KeyCache,
    held: FastMap<u64, Held>,
    log: Vec<AccessRecord>,
    /// The recoveries that it leads.
    plans: Plans,
}

impl Asked {
    fn mode(&self) -> u8 {
        match self {
            Asked::Read(..) | Asked::SendCopy(_) => READ,
            _ => WRITE,
        }
    }
}

impl DataNode {
    pub fn new(id: u32, principal: Who) -> DataNode {
        DataNode {
            id,
            principal,
            clock: 0,
            keys: KeyCache::default(),
            held: FastMap::default(),
            log: Vec::new(),
            plans: Plans::default(),
        }
    }

    /// The clock moves on, and keys that have expired by then are dropped.
    fn move_on(&mut self, moment: u64) {
        if moment > self.clock {
            self.clock = moment;
            self.keys.drop_expired(moment);
        }
    }

    /// Takes in keys.
    pub fn keys(&mut self, moment: u64, update: &[IssuedKey]) -> Answer<'_> {
        self.clock = self.clock.max(moment);
        self.keys.merge(update);
        self.keys.drop_expired(self.clock);
        Ok(Told::Keys(self.keys.len()))
    }

    /// Removes a replica whose stamp isn't above this one.
    pub fn invalidate(&mut self, moment: u64, block: u64, stamp: u64) -> Answer<'_> {
        self.move_on(moment);
        let held = self.held.get_mut(&block);
        let held = held.ok_or(ReplicaRefusal::NoReplica)?;
        match &held.replica {
            None => Err(ReplicaRefusal::NoReplica.into()),
            Some(replica) if replica.stamp > stamp => {
                Err(ReplicaRefusal::StampDiffers(replica.stamp).into())
            }
            Some(_) => {
                held.replica = None;
                Ok(Told::Removed)
            }
        }
    }

    /// Answers a call that presents a token, and adds what it sends to the messages.
    pub fn call(
        &mut self,
        names: &Names,
        moment: u64,
        call: &Call,
        sent: &mut Vec<Message>,
    ) -> Answer<'_> {
        self.move_on(moment);
        let presented = &call.presented;
        self.check(names, presented, call.asked.mode())?;
        match &call.asked {
            Asked::Begin(next) => self.begin(presented, next, sent),
            Asked::Packet(offset, bytes, next) => {
                self.packet(presented, *offset, bytes, next, sent)
            }
            Asked::Finalize(length, next) => self.finalize(presented, *length, next, sent),
            Asked::Read(offset, length) => self.read(presented, *offset, *length),
            Asked::SendCopy(to) => self.send_copy(presented, *to, sent),
            Asked::TakeCopy(bytes) => self.take_copy(presented, bytes, sent),
            Asked::Init => self.init_recovery(names, presented, sent),
            Asked::Update(length) => self.update(names, presented, *length, sent),
        }
    }

    fn check(&self, names: &Names, presented: &Presented, mode: u8) -> Result<(), TokenRefusal> {
        let access = Access {
            now: self.clock,
            caller: names.text(presented.caller),
            block: presented.block,
            mode,
        };
        self.keys.check(&presented.token, &access)
    }

    /// Notes down that who presents a token was let at so many bytes from an offset.
    fn note(&mut self, presented: &Presented, mode: u8, offset: u64, length: u64) {
        let clock = self.clock;
        self.log
            .push(AccessRecord::of(presented, clock, mode, offset, length));
    }

    /// The stamp that was promised of a block.
    fn promised(&self, block: u64) -> u64 {
        self.held.get(&block).map_or(0, |held| held.promised)
    }

    fn expect_no_replica(&self, block: u64) -> Judged<()> {
        let held = self.held.get(&block);
        match held.is_some_and(|held| held.replica.is_some()) {
            true => Err(ReplicaRefusal::ReplicaExists),
            false => Ok(()),
        }
    }

    /// The replica of a block, which is being written at this stamp.
    fn written(&mut self, presented: &Presented) -> Judged<&mut Replica> {
        let held = self.held.get_mut(&presented.block);
        let held = held.ok_or(ReplicaRefusal::NoReplica)?;
        let replica = held.replica.as_mut().ok_or(ReplicaRefusal::NoReplica)?;
        if presented.stamp != held.promised {
            return Err(ReplicaRefusal::StampDiffers(held.promised));
        }
        if !replica.is_writing || replica.stamp < held.promised {
            return Err(ReplicaRefusal::NotWritable);
        }
        Ok(replica)
    }

    fn place(&mut self, presented: &Presented, is_writing: bool, bytes: Vec<u8>) {
        let replica = Replica {
            stamp: presented.stamp,
            is_writing,
            bytes,
        };
        let held = Held {
            replica: Some(replica),
            promised: presented.stamp,
        };
        self.held.insert(presented.block, held);
    }

    fn begin(&mut self, presented: &Presented, next: &Next, sent: &mut Vec<Message>) -> Answer<'_> {
        self.expect_no_replica(presented.block)?;
        let promised = self.promised(presented.block);
        if presented.stamp <= promised {
            return Err(ReplicaRefusal::StampDiffers(promised).into());
        }
        self.place(presented, true, Vec::new());
        self.note(presented, WRITE, 0, 0);
        pass_on(presented, next, sent, Asked::Begin);
        Ok(Told::Begun)
    }

    fn packet(
        &mut self,
        presented: &Presented,
        offset: u64,
        bytes: &Payload,
        next: &Next,
        sent: &mut Vec<Message>,
    ) -> Answer<'_> {
        let replica = self.written(presented)?;
        let length = replica.bytes.len() as u64;
        if offset != length {
            return Err(ReplicaRefusal::OffsetGap(length).into());
        }
        if bytes.len() > PACKET_LIMIT.min(REPLICA_LIMIT - length) {
            return Err(ReplicaRefusal::OutOfRange.into());
        }
        bytes.append_to(&mut replica.bytes);
        self.note(presented, WRITE, offset, bytes.len());
        pass_on(presented, next, sent, |rest| {
            Asked::Packet(offset, bytes.clone(), rest)
        });
        Ok(Told::Taken(length + bytes.len()))
    }

    fn finalize(
        &mut self,
        presented: &Presented,
        length: u64,
        next: &Next,
        sent: &mut Vec<Message>,
    ) -> Answer<'_> {
        let replica = self.written(presented)?;
        if length != replica.bytes.len() as u64 {
            return Err(ReplicaRefusal::OffsetGap(replica.bytes.len() as u64).into());
        }
        replica.is_writing = false;
        self.note(presented, WRITE, 0, length);
        pass_on(presented, next, sent, |rest| Asked::Finalize(length, rest));
        self.report(presented, length, sent);
        Ok(Told::Finalized(length))
    }

    fn report(&self, presented: &Presented, length: u64, sent: &mut Vec<Message>) {
        let (block, stamp) = (presented.block, presented.stamp);
        sent.push(Message::Reported(self.id, block, stamp, length));
    }

    fn read(&mut self, presented: &Presented, offset: u64, length: u64) -> Answer<'_> {
        let bytes = &finalized(&self.held, presented)?.bytes;
        let end = offset.checked_add(length);
        let end = end.filter(|end| *end <= bytes.len() as u64);
        let end = end.ok_or(ReplicaRefusal::OutOfRange)?;
        let record = AccessRecord::of(presented, self.clock, READ, offset, length);
        self.log.push(record);
        Ok(Told::Read(&bytes[offset as usize..end as usize]))
    }

    fn send_copy(&mut self, presented: &Presented, to: u32, sent: &mut Vec<Message>) -> Answer<'_> {
        let replica = finalized(&self.held, presented)?;
        let bytes = Payload::Listed(replica.bytes.as_slice().into());
        let length = bytes.len();
        self.note(presented, READ, 0, length);
        let call = Call {
            presented: presented.clone(),
            asked: Asked::TakeCopy(bytes),
        };
        sent.push(Message::Call(to, call));
        Ok(Told::Copied(length))
    }

    fn take_copy(
        &mut self,
        presented: &Presented,
        bytes: &Payload,
        sent: &mut Vec<Message>,
    ) -> Answer<'_> {
        self.expect_no_replica(presented.block)?;
        let promised = self.promised(presented.block);
        if presented.stamp < promised {
            return Err(ReplicaRefusal::StampDiffers(promised).into());
        }
        if bytes.len() > REPLICA_LIMIT {
            return Err(ReplicaRefusal::OutOfRange.into());
        }
        let mut own = Vec::new();
        bytes.append_to(&mut own);
        self.place(presented, false, own);
        self.note(presented, WRITE, 0, bytes.len());
        self.report(presented, bytes.len(), sent);
        Ok(Told::Stored(bytes.len()))
    }

    // ---- recoveries of others

    /// A recovery begins: the stamp is promised, so that no writer of an older one goes on. The replica stays as it is.
    fn init_recovery(
        &mut self,
        names: &Names,
        presented: &Presented,
        sent: &mut Vec<Message>,
    ) -> Answer<'_> {
        let (block, stamp) = (presented.block, presented.stamp);
        let held = self.held.get_mut(&block);
        let held = held.ok_or(ReplicaRefusal::NoReplica)?;
        let replica = held.replica.as_ref().ok_or(ReplicaRefusal::NoReplica)?;
        if stamp <= held.promised {
            return Err(ReplicaRefusal::StampDiffers(held.promised).into());
        }
        held.promised = stamp;
        let found = Found {
            length: replica.bytes.len() as u64,
            is_writing: replica.is_writing,
        };
        let told = Told::Replica(replica.stamp, found.length, found.is_writing);
        self.note(presented, WRITE, 0, 0);
        if let Some(leader) = names.node(presented.caller) {
            sent.push(Message::Answered(leader, block, stamp, self.id, found));
        }
        Ok(told)
    }

    /// The replica gets the length and the stamp of a recovery, and is finalized.
    fn update(
        &mut self,
        names: &Names,
        presented: &Presented,
        length: u64,
        sent: &mut Vec<Message>,
    ) -> Answer<'_> {
        let (block, stamp) = (presented.block, presented.stamp);
        let held = self.held.get_mut(&block);
        let held = held.ok_or(ReplicaRefusal::NoReplica)?;
        let replica = held.replica.as_mut().ok_or(ReplicaRefusal::NoReplica)?;
        if stamp != held.promised {
            return Err(ReplicaRefusal::StampDiffers(held.promised).into());
        }
        if replica.stamp == stamp {
            return Err(ReplicaRefusal::NotWritable.into());
        }
        if length > replica.bytes.len() as u64 {
            return Err(ReplicaRefusal::OutOfRange.into());
        }
        replica.bytes.truncate(length as usize);
        replica.stamp = stamp;
        replica.is_writing = false;
        self.note(presented, WRITE, 0, length);
        if let Some(leader) = names.node(presented.caller) {
            sent.push(Message::Updated(leader, block, stamp, self.id));
        }
        self.report(presented, length, sent);
        Ok(Told::Updated(length))
    }

    // ---- recoveries that it leads, which move no clock

    /// Asks all who are to hold a block for their replicas.
    pub fn lead(&mut self, order: &RecoveryOrder, sent: &mut Vec<Message>) -> Answer<'_> {
        self.plans.begin(order)?;
        let presented = self.presented(order.block, order.stamp, &order.token);
        call_all(&presented, &order.nodes, sent, || Asked::Init);
        Ok(Told::Asked(order.nodes.len()))
    }

    /// What it presents as the leader of a recovery.
    fn presented(&self, block: u64, stamp: u64, token: &Token) -> Presented {
        Presented {
            caller: self.principal,
            block,
            stamp,
            token: Token::clone(token),
        }
    }

    pub fn answered(&mut self, block: u64, stamp: u64, from: u32, found: Found) -> Answer<'_> {
        self.plans.answer(block, stamp, from, found)?;
        Ok(Told::Noted)
    }

    pub fn updated(&mut self, block: u64, stamp: u64, from: u32) -> Answer<'_> {
        self.plans.confirm(block, stamp, from)?;
        Ok(Told::Noted)
    }

    /// Goes on with a recovery.
    pub fn go_on(
        &mut self,
        going: Going,
        block: u64,
        stamp: u64,
        sent: &mut Vec<Message>,
    ) -> Answer<'_> {
        match going {
            Going::Decide => {
                let settled = self.plans.decide(block, stamp)?;
                let presented = self.presented(block, stamp, &settled.token);
                let update = || Asked::Update(settled.length);
                call_all(&presented, &settled.nodes, sent, update);
                Ok(Told::Length(settled.length, settled.nodes))
            }
            Going::Commit => {
                let (length, nodes) = self.plans.commit(block, stamp)?;
                let message = Message::Recovered(self.id, block, stamp, length, nodes);
                sent.push(message);
                Ok(Told::Committed(length))
            }
        }
    }
}

/// Asks the same of each of these nodes.
fn call_all(
    presented: &Presented,
    nodes: &[u32],
    sent: &mut Vec<Message>,
    asked: impl Fn() -> Asked,
) {
    let call = |node: &u32| {
        let call = Call {
            presented: presented.clone(),
            asked: asked(),
        };
        Message::Call(*node, call)
    };
    sent.extend(nodes.iter().map(call));
}

/// The replica of a block, which is finalized and has this stamp.
fn finalized<'a>(held: &'a FastMap<u64, Held>, presented: &Presented) -> Judged<&'a Replica> {
    let held = held.get(&presented.block);
    let replica = held.and_then(|held| held.replica.as_ref());
    let replica = replica.filter(|replica| !replica.is_writing);
    let replica = replica.ok_or(ReplicaRefusal::NoReplica)?;
    if presented.stamp != replica.stamp {
        return Err(ReplicaRefusal::StampDiffers(replica.stamp));
    }
    Ok(replica)
}

/// Asks the same of the node that comes next, if one does.
fn pass_on(
    presented: &Presented,
    next: &Next,
    sent: &mut Vec<Message>,
    asked: impl FnOnce(Next) -> Asked,
) {
    if let Some((to, rest)) = next.split() {
        let call = Call {
            presented: presented.clone(),
            asked: asked(rest),
        };
        sent.push(Message::Call(to, call));
    }
}
