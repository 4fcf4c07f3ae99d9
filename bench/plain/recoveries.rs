//! The recoveries that run: each by its block, by when it began, and by the DataNode that is to lead it and hasn't been told.

use crate::names::FastMap;
use crate::tree::Place;
use std::collections::BTreeSet;

/// How long a recovery isn't begun anew, in milliseconds.
const RETRY_LIMIT: u64 = 60_000;

struct Recovery {
    began: u64,
    /// The file whose last block is recovered. It keeps its place where it is renamed.
    file: Place,
    leader: u32,
}

#[derive(Default)]
pub struct Recoveries {
    running: FastMap<u64, Recovery>,
    /// The moment at which each began, and its block: the oldest first, so that a tick looks at none that isn't due.
    by_start: BTreeSet<(u64, u64)>,
    /// The leaders that are still to be told, and the blocks, so that a heartbeat finds its own.
    untold: BTreeSet<(u32, u64)>,
}

impl Recoveries {
    /// The recovery of a file's block begins, in place of one that runs.
    pub fn begin(&mut self, block: u64, file: Place, leader: u32, now: u64) {
        self.end(block);
        self.by_start.insert((now, block));
        self.untold.insert((leader, block));
        let recovery = Recovery {
            began: now,
            file,
            leader,
        };
        self.running.insert(block, recovery);
    }

    /// The recovery of a block ends, if one runs. Tells the file.
    pub fn end(&mut self, block: u64) -> Option<Place> {
        let recovery = self.running.remove(&block)?;
        self.by_start.remove(&(recovery.began, block));
        self.untold.remove(&(recovery.leader, block));
        Some(recovery.file)
    }

    pub fn is_running(&self, block: u64) -> bool {
        self.running.contains_key(&block)
    }

    /// The files whose recoveries are to begin anew.
    pub fn overdue(&self, now: u64) -> impl Iterator<Item = Place> {
        let is_due = move |own: &&(u64, u64)| now.saturating_sub(own.0) > RETRY_LIMIT;
        let due = self.by_start.iter().take_while(is_due);
        due.map(|own| self.running[&own.1].file)
    }

    /// The blocks whose recoveries a node is to lead. It is told once.
    pub fn tell(&mut self, node: u32) -> Vec<u64> {
        let own = (node, 0)..=(node, u64::MAX);
        let blocks: Vec<u64> = self.untold.range(own).map(|own| own.1).collect();
        for block in &blocks {
            self.untold.remove(&(node, *block));
        }
        blocks
    }
}
