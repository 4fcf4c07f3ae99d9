//! What is known of blocks, and of the DataNodes that hold them or are to.

use crate::names::FastMap;
use crate::recoveries::Recoveries;
use crate::tree::Place;
use std::cmp::Reverse;
use std::collections::{BTreeMap, BTreeSet};
use std::mem;
use std::rc::Rc;

/// The greatest age, in milliseconds, of a last heartbeat at which a node is live.
const DEAD_LIMIT: u64 = 630_000;

/// How long a copy isn't asked for again, in milliseconds.
const RETRY_LIMIT: u64 = 60_000;

/// What is known of a block.
struct Record {
    stamp: u64,
    committed: Option<u64>,
    replication: u8,
    /// The nodes that are to hold it, ascending.
    expected: Box<[u32]>,
    /// The nodes that reported it, ascending, each with the length.
    reports: Vec<(u32, u64)>,
    /// When a node was last told to copy it.
    handed_out: Option<u64>,
}

impl Record {
    fn is_reported_by(&self, node: u32) -> bool {
        self.report_of(node).is_ok()
    }

    fn report_of(&self, node: u32) -> Result<usize, usize> {
        self.reports.binary_search_by_key(&node, |report| report.0)
    }

    fn is_held_by(&self, node: u32) -> bool {
        self.expected.contains(&node) || self.is_reported_by(node)
    }

    /// Whether it is committed, and fewer nodes reported it than there are to be replicas.
    fn is_scarce(&self) -> bool {
        self.committed.is_some() && self.reports.len() < usize::from(self.replication)
    }
}

/// A DataNode: its last heartbeat, and how many blocks it is to hold or reported.
struct Node {
    heard: u64,
    blocks: u64,
}

impl Node {
    fn is_live(&self, now: u64) -> bool {
        now.saturating_sub(self.heard) <= DEAD_LIMIT
    }
}

/// A file's last block, as its writer names it, with its length.
#[derive(Clone, Copy)]
pub struct LastBlock {
    pub block: u64,
    pub length: u64,
}

/// A copy of a block that a node is to make.
pub struct Transfer {
    pub block: u64,
    pub stamp: u64,
    pub target: u32,
}

/// A new block.
pub struct NewBlock {
    pub block: u64,
    pub stamp: u64,
    pub targets: Box<[u32]>,
}

/// The recovery of a block that a node is to lead, under a stamp, among the nodes that are to hold the block.
pub struct Leading {
    pub block: u64,
    pub stamp: u64,
    pub nodes: Rc<[u32]>,
}

/// What a node is told when it was heard of: the recoveries that it is to lead, the replicas that it is to remove, each with its stamp, and
/// the copies that it is to make.
pub struct Orders {
    pub recoveries: Vec<Leading>,
    pub removals: Vec<(u64, u64)>,
    pub transfers: Vec<Transfer>,
}

/// Why there is no new block, or no recovery begins or ends.
pub enum BlockRefusal {
    NotYetReplicated,
    TooFewNodes,
    SpentBlock,
    SpentStamp,
    /// No such block is known.
    NotFound,
    /// This is the newest stamp.
    StaleStamp(u64),
    /// No recovery runs.
    NotOpen,
}

/// The greatest number of a block, and the greatest stamp, are never given.
const NEVER_GIVEN: u64 = u64::MAX;

pub struct Blocks {
    records: FastMap<u64, Record>,
    nodes: BTreeMap<u32, Node>,
    /// Replicas that a node is still to be told to remove.
    marks: BTreeSet<(u32, u64, u64)>,
    /// The blocks that are committed, and that fewer nodes reported than there are to be replicas.
    scarce: BTreeSet<u64>,
    recoveries: Recoveries,
    next_block: u64,
    next_stamp: u64,
}

impl Blocks {
    pub fn new() -> Blocks {
        Blocks {
            records: FastMap::default(),
            nodes: BTreeMap::new(),
            marks: BTreeSet::new(),
            scarce: BTreeSet::new(),
            recoveries: Recoveries::default(),
            next_block: 1,
            next_stamp: 1001,
        }
    }

    /// The stamp of a block, and the nodes that reported it.
    pub fn located(&self, block: u64) -> Option<(u64, Box<[u32]>)> {
        let record = self.records.get(&block)?;
        let nodes = record.reports.iter().map(|report| report.0).collect();
        Some((record.stamp, nodes))
    }

    // ---- heartbeats

    /// A node was heard of. Tells what it is told.
    pub fn heard_of(&mut self, node: u32, now: u64) -> Orders {
        let new = || Node {
            heard: now,
            blocks: 0,
        };
        self.nodes.entry(node).or_insert_with(new).heard = now;
        Orders {
            recoveries: self.led(node),
            removals: self.removals(node),
            transfers: self.transfers(node, now),
        }
    }

    fn led(&mut self, node: u32) -> Vec<Leading> {
        let blocks = self.recoveries.tell(node).into_iter();
        let leading = |block| {
            let record = &self.records[&block];
            Leading {
                block,
                stamp: record.stamp,
                nodes: record.expected.as_ref().into(),
            }
        };
        blocks.map(leading).collect()
    }

    fn removals(&mut self, node: u32) -> Vec<(u64, u64)> {
        let own = (node, 0, 0)..=(node, u64::MAX, u64::MAX);
        let removals: Vec<_> = self.marks.range(own).copied().collect();
        for mark in &removals {
            self.marks.remove(mark);
        }
        removals.into_iter().map(|mark| (mark.1, mark.2)).collect()
    }

    fn transfers(&mut self, node: u32, now: u64) -> Vec<Transfer> {
        let are_all_live = self.nodes.values().all(|node| node.is_live(now));
        if are_all_live && self.scarce.is_empty() {
            return Vec::new();
        }
        let mut blocks: Vec<u64> = if are_all_live {
            self.scarce.iter().copied().collect()
        } else {
            self.records.keys().copied().collect()
        };
        blocks.sort_unstable();
        let transfer = |block: &u64| self.transfer(*block, node, now);
        let transfers: Vec<Transfer> = blocks.iter().filter_map(transfer).collect();
        for transfer in &transfers {
            let record = self.records.get_mut(&transfer.block).expect("a block");
            record.handed_out = Some(now);
        }
        transfers
    }

    /// The copy of a block that a node is to make: where it is the lowest live one that reported the block, to the one with the fewest
    /// blocks of those that didn't.
    fn transfer(&self, block: u64, node: u32, now: u64) -> Option<Transfer> {
        let record = self.records.get(&block)?;
        record.committed?;
        let live = self.nodes.iter().filter(|(_, node)| node.is_live(now));
        let is_held = |(id, _): &(&u32, &Node)| record.is_reported_by(**id);
        let mut holding = live.clone().filter(is_held);
        if *holding.next()?.0 != node || 1 + holding.count() >= usize::from(record.replication) {
            return None;
        }
        let is_recent = |last| now.saturating_sub(last) <= RETRY_LIMIT;
        if record.handed_out.is_some_and(is_recent) {
            return None;
        }
        let lacking = live.filter(|node| !is_held(node));
        let target = lacking.min_by_key(|(id, node)| (node.blocks, **id))?;
        Some(Transfer {
            block,
            stamp: record.stamp,
            target: *target.0,
        })
    }

    // ---- reports

    fn watch(&mut self, block: u64) {
        if self.records.get(&block).is_some_and(Record::is_scarce) {
            self.scarce.insert(block);
        } else {
            self.scarce.remove(&block);
        }
    }

    fn gains(&mut self, node: u32) {
        if let Some(node) = self.nodes.get_mut(&node) {
            node.blocks += 1;
        }
    }

    fn loses(&mut self, node: u32) {
        if let Some(node) = self.nodes.get_mut(&node) {
            node.blocks -= 1;
        }
    }

    /// A node reported a replica: it holds it, or is to remove it.
    pub fn reported(&mut self, node: u32, block: u64, stamp: u64, length: u64) {
        let Some(record) = self.records.get_mut(&block) else {
            self.marks.insert((node, block, stamp));
            return;
        };
        if stamp < record.stamp && self.recoveries.is_running(block) {
            return;
        }
        let is_held = record.is_held_by(node);
        let is_valid = record.committed.is_none_or(|committed| committed == length);
        if stamp != record.stamp || !is_valid {
            self.invalidated(node, block, stamp);
            return;
        }
        match record.report_of(node) {
            Ok(index) => record.reports[index].1 = length,
            Err(index) => record.reports.insert(index, (node, length)),
        }
        if !is_held {
            self.gains(node);
        }
        self.watch(block);
    }

    /// A node is to remove its replica, and reports it no more, where it has the newest stamp.
    fn invalidated(&mut self, node: u32, block: u64, stamp: u64) {
        self.marks.insert((node, block, stamp));
        let record = self.records.get_mut(&block).expect("a block");
        if stamp != record.stamp {
            return;
        }
        if let Ok(index) = record.report_of(node) {
            record.reports.remove(index);
            if !record.expected.contains(&node) {
                self.loses(node);
            }
        }
        self.watch(block);
    }

    /// Whether a node reported a file's last block with its length.
    pub fn can_commit(&self, last: LastBlock) -> bool {
        let record = self.records.get(&last.block);
        let has_length = |report: &(u32, u64)| report.1 == last.length;
        record.is_some_and(|record| record.reports.iter().any(has_length))
    }

    /// The length of a block is committed. The nodes that reported another are to remove their replicas.
    pub fn commit(&mut self, last: LastBlock) {
        let record = self.records.get_mut(&last.block).expect("a block");
        record.committed = Some(last.length);
        let differs = |report: &mut (u32, u64)| report.1 != last.length;
        let others: Vec<(u32, u64)> = record.reports.extract_if(.., differs).collect();
        for (node, _) in others {
            let record = &self.records[&last.block];
            self.marks.insert((node, last.block, record.stamp));
            if !record.expected.contains(&node) {
                self.loses(node);
            }
        }
        self.watch(last.block);
    }

    // ---- blocks of files

    /// The live nodes with the fewest blocks, as many as there are to be, or all, ascending.
    fn targets(&self, replication: u8, now: u64) -> Box<[u32]> {
        let live = self.nodes.iter().filter(|(_, node)| node.is_live(now));
        let mut fewest: Vec<(u64, u32)> = live.map(|(id, node)| (node.blocks, *id)).collect();
        fewest.sort_unstable();
        fewest.truncate(replication.into());
        let mut targets: Vec<u32> = fewest.into_iter().map(|(_, id)| id).collect();
        targets.sort_unstable();
        targets.into()
    }

    /// A new block behind a file's last one, whose length is committed.
    pub fn add(
        &mut self,
        last: Option<LastBlock>,
        replication: u8,
        now: u64,
    ) -> Result<NewBlock, BlockRefusal> {
        if last.is_some_and(|last| !self.can_commit(last)) {
            return Err(BlockRefusal::NotYetReplicated);
        }
        if !self.nodes.values().any(|node| node.is_live(now)) {
            return Err(BlockRefusal::TooFewNodes);
        }
        if self.next_block == NEVER_GIVEN {
            return Err(BlockRefusal::SpentBlock);
        }
        if self.next_stamp == NEVER_GIVEN {
            return Err(BlockRefusal::SpentStamp);
        }
        if let Some(last) = last {
            self.commit(last);
        }
        let targets = self.targets(replication, now);
        for target in &targets {
            self.gains(*target);
        }
        let (block, stamp) = (self.next_block, self.next_stamp);
        self.next_block += 1;
        self.next_stamp += 1;
        let record = Record {
            stamp,
            committed: None,
            replication,
            expected: targets.clone(),
            reports: Vec::new(),
            handed_out: None,
        };
        self.records.insert(block, record);
        Ok(NewBlock {
            block,
            stamp,
            targets,
        })
    }

    /// A block is to have so many replicas.
    pub fn set_replication(&mut self, block: u64, replication: u8) {
        let record = self.records.get_mut(&block).expect("a block");
        record.replication = replication;
        self.watch(block);
    }

    /// Blocks of deleted files are known no more, and their replicas are to be removed.
    pub fn remove_all(&mut self, blocks: &[u64]) {
        for block in blocks {
            let record = self.records.remove(block).expect("a block");
            self.scarce.remove(block);
            self.recoveries.end(*block);
            let reporting = record.reports.iter().map(|report| report.0);
            let others = reporting.filter(|node| !record.expected.contains(node));
            for node in record.expected.iter().copied().chain(others) {
                self.loses(node);
                self.marks.insert((node, *block, record.stamp));
            }
        }
    }

    // ---- recoveries

    /// Of the nodes that are to hold a block, the live one that was heard of last, of several the lowest.
    fn leader(&self, block: u64, now: u64) -> Option<u32> {
        let heard = |id: &u32| {
            let node = self.nodes.get(id).filter(|node| node.is_live(now))?;
            Some((node.heard, Reverse(*id)))
        };
        let expected = self.records[&block].expected.iter();
        expected.filter_map(heard).max().map(|(_, id)| id.0)
    }

    /// The recovery of a file's last block begins, under a new stamp, which is told. No node has reported it.
    pub fn begin_recovery(
        &mut self,
        block: u64,
        file: Place,
        now: u64,
    ) -> Result<u64, BlockRefusal> {
        let stamp = self.next_stamp;
        if stamp == NEVER_GIVEN {
            return Err(BlockRefusal::SpentStamp);
        }
        let leader = self.leader(block, now).ok_or(BlockRefusal::TooFewNodes)?;
        self.next_stamp += 1;
        let record = self.records.get_mut(&block).expect("a block");
        record.stamp = stamp;
        for (node, _) in mem::take(&mut record.reports) {
            if !self.records[&block].expected.contains(&node) {
                self.loses(node);
            }
        }
        self.recoveries.begin(block, file, leader, now);
        Ok(stamp)
    }

    /// The files whose recoveries are to begin anew.
    pub fn overdue(&self, now: u64) -> impl Iterator<Item = Place> {
        self.recoveries.overdue(now)
    }

    /// The recovery of a block ends: these nodes, ascending, are to hold it with this length, and report it. Tells the file.
    pub fn end_recovery(
        &mut self,
        block: u64,
        stamp: u64,
        length: u64,
        nodes: &[u32],
    ) -> Result<Place, BlockRefusal> {
        let record = self.records.get_mut(&block);
        let record = record.ok_or(BlockRefusal::NotFound)?;
        if stamp != record.stamp {
            return Err(BlockRefusal::StaleStamp(record.stamp));
        }
        let file = self.recoveries.end(block).ok_or(BlockRefusal::NotOpen)?;
        record.committed = Some(length);
        let expected = mem::replace(&mut record.expected, nodes.into());
        let named = nodes.iter().map(|node| (*node, length));
        let reports = mem::replace(&mut record.reports, named.collect());
        let mut before = expected.into_vec();
        for (node, told) in reports {
            if !before.contains(&node) {
                before.push(node);
            }
            if nodes.binary_search(&node).is_ok() {
                continue;
            }
            if told == length {
                let index = record.reports.partition_point(|other| other.0 < node);
                record.reports.insert(index, (node, told));
            } else {
                self.marks.insert((node, block, stamp));
            }
        }
        // those that are named report it, so that the reports tell all who hold it now
        let now: Vec<u32> = record.reports.iter().map(|report| report.0).collect();
        before.into_iter().for_each(|node| self.loses(node));
        now.into_iter().for_each(|node| self.gains(node));
        self.watch(block);
        Ok(file)
    }
}
