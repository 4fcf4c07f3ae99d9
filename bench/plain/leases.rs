//! The leases of clients: which files each has open, and when each was last renewed, the oldest first.

use crate::names::{FastHasher, FastMap, Who};
use crate::tree::Place;
use std::collections::HashSet;
use std::hash::BuildHasherDefault;

/// The greatest age, in milliseconds, at which no other client may take over a file.
const SOFT_LIMIT: u64 = 60_000;

/// The greatest age, in milliseconds, at which the NameNode closes no file.
const HARD_LIMIT: u64 = 1_200_000;

/// No lease.
const NONE: usize = usize::MAX;

struct Lease {
    client: Who,
    renewed: u64,
    open_files: HashSet<Place, BuildHasherDefault<FastHasher>>,
    older: usize,
    newer: usize,
}

/// A linked list in a vector, with an index by client. A client has a lease where it has a file open.
pub struct Leases {
    indexes: FastMap<Who, usize>,
    leases: Vec<Lease>,
    free: Vec<usize>,
    oldest: usize,
    newest: usize,
}

impl Leases {
    pub fn new() -> Leases {
        Leases {
            indexes: FastMap::default(),
            leases: Vec::new(),
            free: Vec::new(),
            oldest: NONE,
            newest: NONE,
        }
    }

    fn unlink(&mut self, index: usize) {
        let (older, newer) = (self.leases[index].older, self.leases[index].newer);
        match older {
            NONE => self.oldest = newer,
            older => self.leases[older].newer = newer,
        }
        match newer {
            NONE => self.newest = older,
            newer => self.leases[newer].older = older,
        }
    }

    fn link_last(&mut self, index: usize) {
        let older = self.newest;
        self.leases[index].older = older;
        self.leases[index].newer = NONE;
        match older {
            NONE => self.oldest = index,
            older => self.leases[older].newer = index,
        }
        self.newest = index;
    }

    fn add(&mut self, client: Who) -> usize {
        let lease = Lease {
            client,
            renewed: 0,
            open_files: HashSet::default(),
            older: NONE,
            newer: NONE,
        };
        let index = match self.free.pop() {
            Some(index) => {
                self.leases[index] = lease;
                index
            }
            None => {
                self.leases.push(lease);
                self.leases.len() - 1
            }
        };
        self.indexes.insert(client, index);
        index
    }

    /// A client has opened a file: its lease is renewed.
    pub fn opened(&mut self, client: Who, file: Place, now: u64) {
        let index = match self.indexes.get(&client) {
            Some(&index) => {
                self.unlink(index);
                index
            }
            None => self.add(client),
        };
        self.link_last(index);
        self.leases[index].renewed = now;
        self.leases[index].open_files.insert(file);
    }

    /// A file that a client had open is closed. With the last one its lease ends.
    pub fn closed(&mut self, client: Who, file: Place) {
        let Some(&index) = self.indexes.get(&client) else {
            return;
        };
        self.leases[index].open_files.remove(&file);
        if self.leases[index].open_files.is_empty() {
            self.unlink(index);
            self.indexes.remove(&client);
            self.free.push(index);
        }
    }

    /// Whether the age of a client's lease is past no limit.
    pub fn is_live(&self, client: Who, now: u64) -> bool {
        let index = self.indexes.get(&client);
        index.is_some_and(|&index| self.age(index, now) <= SOFT_LIMIT.min(HARD_LIMIT))
    }

    fn age(&self, index: usize, now: u64) -> u64 {
        now.saturating_sub(self.leases[index].renewed)
    }

    /// Tries to close the files of each client whose lease is past the hard limit, and tells how many were closed. A lease whose last
    /// file is closed ends.
    pub fn close_past_hard(&mut self, now: u64, mut close: impl FnMut(Who, Place) -> bool) -> u64 {
        let mut closed = 0;
        let mut next = self.oldest;
        while next != NONE && self.age(next, now) > HARD_LIMIT {
            let index = next;
            let lease = &mut self.leases[index];
            next = lease.newer;
            let client = lease.client;
            let before = lease.open_files.len();
            lease.open_files.retain(|place| !close(client, *place));
            closed += (before - lease.open_files.len()) as u64;
            if lease.open_files.is_empty() {
                self.unlink(index);
                self.indexes.remove(&client);
                self.free.push(index);
            }
        }
        closed
    }

    /// Renews the lease of a client, if he has one.
    pub fn renew(&mut self, client: Who, now: u64) -> bool {
        let Some(&index) = self.indexes.get(&client) else {
            return false;
        };
        self.unlink(index);
        self.link_last(index);
        self.leases[index].renewed = now;
        true
    }
}
