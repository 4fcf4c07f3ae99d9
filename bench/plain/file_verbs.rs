//! The verbs of those who write and read files, of DataNodes, and of the keys of tokens.

use crate::answer::{
    Added, Commands, CopyOrder, Failure, Located, Opened, Refusal, Reply, Verdict,
};
use crate::blocks::{BlockRefusal, LastBlock, Leading, Transfer};
use crate::name_node::Serving;
use crate::names::Who;
use crate::plans::RecoveryOrder;
use crate::tokens::{LedgerRow, READ, Token, WRITE};
use crate::tree::{File, FileBlock, FileState, Place, Walk, no_node, require_superuser};

impl From<BlockRefusal> for Refusal {
    fn from(refusal: BlockRefusal) -> Refusal {
        match refusal {
            BlockRefusal::NotYetReplicated => Refusal::NotYetReplicated,
            BlockRefusal::TooFewNodes => Refusal::TooFewNodes,
            BlockRefusal::SpentBlock => Refusal::SpentBlock,
            BlockRefusal::SpentStamp => Refusal::SpentStamp,
            BlockRefusal::NotFound => Refusal::NotFound,
            BlockRefusal::StaleStamp(stamp) => Refusal::StaleStamp(stamp),
            BlockRefusal::NotOpen => Refusal::NotOpen,
        }
    }
}

/// The writer names a file's last block, and none where there is none.
fn expect_last(file: &File, last: Option<LastBlock>) -> Result<(), Refusal> {
    let own = file.blocks.last().map(|block| block.id);
    if last.map(|last| last.block) == own {
        Ok(())
    } else {
        Err(Refusal::NotYetReplicated)
    }
}

/// The length of a file's last block is committed, if one is named.
fn commit_last(file: &mut File, last: Option<LastBlock>) {
    if let (Some(last), Some(block)) = (last, file.blocks.last_mut()) {
        block.committed = Some(last.length);
    }
}

impl Serving<'_> {
    pub fn create(&mut self, path: &str, mode: u16, replication: u8, over: bool) -> Verdict {
        let walk = self.walk(path)?;
        self.tree.require_write_above(self.caller, &walk)?;
        let is_file = walk.is_found() && !self.last(&walk).is_directory();
        if over && is_file {
            self.tree.require_write(self.caller, &walk)?;
        }
        self.expect_no_file_above(&walk)?;
        if walk.is_found() && !is_file {
            return Err(Refusal::IsDirectory.into());
        }
        if is_file && !over {
            return Err(Refusal::Exists.into());
        }
        let state = FileState::Open(self.caller.name);
        let file = File {
            replication,
            state,
            blocks: Vec::new(),
        };
        let place = self.make(walk, mode, file);
        self.leases.opened(self.caller.name, place, self.now);
        Ok(Reply::Empty)
    }

    /// Makes a file, after one that has the path is deleted.
    fn make(&mut self, mut walk: Walk, mode: u16, file: File) -> Place {
        if walk.is_found() {
            let deleted = self.tree.delete(&walk);
            self.forget(deleted);
            walk = walk.without_last();
        }
        self.tree.make(self.caller.name, &walk, mode, Some(file))
    }

    pub fn append(&mut self, path: &str) -> Verdict {
        let walk = self.walk(path)?;
        self.tree.require_write(self.caller, &walk)?;
        let place = self.expect_found(&walk)?;
        let file = self.tree.file_mut(place).ok_or(Refusal::IsDirectory)?;
        let holder = match file.state {
            FileState::Closed => {
                file.state = FileState::Open(self.caller.name);
                self.leases.opened(self.caller.name, place, self.now);
                return Ok(Reply::Empty);
            }
            FileState::Recovering => return Err(Refusal::RecoveryRunning.into()),
            FileState::Open(holder) => holder,
        };
        if holder == self.caller.name || self.leases.is_live(holder, self.now) {
            return Err(Refusal::LeaseHeld(holder).into());
        }
        if file.ends_uncommitted() {
            let (block, stamp) = self.recover(place, Some(holder))?;
            return Ok(Reply::Recovering(block, stamp));
        }
        file.state = FileState::Closed;
        self.leases.closed(holder, place);
        Ok(Reply::Released)
    }

    /// The recovery of a file's last block begins, and the file is taken from who has it open. Tells the block and its new stamp.
    fn recover(&mut self, place: Place, holder: Option<Who>) -> Result<(u64, u64), Refusal> {
        let file = self.tree.file_mut(place).expect("a file");
        let block = file.blocks.last().expect("a block").id;
        let stamp = self.blocks.begin_recovery(block, place, self.now)?;
        file.state = FileState::Recovering;
        if let Some(holder) = holder {
            self.leases.closed(holder, place);
        }
        Ok((block, stamp))
    }

    /// The place of a file that the caller has open, whose last block he names.
    fn written(&self, path: &str, last: Option<LastBlock>) -> Result<Place, Failure> {
        let walk = self.walk(path)?;
        let place = self.expect_found(&walk)?;
        let file = self.tree.file(place).ok_or(Refusal::IsDirectory)?;
        match file.state {
            FileState::Closed => return Err(Refusal::NotOpen.into()),
            FileState::Recovering => return Err(Refusal::RecoveryRunning.into()),
            FileState::Open(holder) if holder == self.caller.name => {}
            FileState::Open(_) => return Err(Refusal::NoLease.into()),
        }
        expect_last(file, last)?;
        Ok(place)
    }

    /// Grants the caller a token, and tells in which row of the ledger it stands, counted from 1.
    fn grant(&mut self, block: u64, modes: u8) -> (Token, u64) {
        let user = self.names.text(self.caller.name);
        let token = self.keys.token(self.now, user, block, modes);
        self.ledger.push(LedgerRow {
            place: self.place,
            user: self.caller.name,
            block,
            modes,
            expiry: LedgerRow::expiry_at(self.now),
            serial: self.keys.serial(),
            token: Token::clone(&token),
        });
        (token, self.ledger.len() as u64)
    }

    pub fn add_block(&mut self, path: &str, last: Option<LastBlock>) -> Verdict {
        let place = self.written(path, last)?;
        let file = self.tree.file_mut(place).expect("a file");
        let added = self.blocks.add(last, file.replication, self.now);
        let new = added.map_err(Refusal::from)?;
        commit_last(file, last);
        file.blocks.push(FileBlock {
            id: new.block,
            committed: None,
        });
        let (token, row) = self.grant(new.block, WRITE);
        Ok(Reply::Added(Box::new(Added { new, token, row })))
    }

    pub fn complete(&mut self, path: &str, last: Option<LastBlock>) -> Verdict {
        let place = self.written(path, last)?;
        if let Some(last) = last {
            if !self.blocks.can_commit(last) {
                return Err(Refusal::NotYetReplicated.into());
            }
            self.blocks.commit(last);
        }
        let file = self.tree.file_mut(place).expect("a file");
        commit_last(file, last);
        file.state = FileState::Closed;
        let length = file.length();
        self.leases.closed(self.caller.name, place);
        Ok(Reply::Closed(length))
    }

    /// What a reader is told of a block whose length is committed.
    fn locate(&mut self, block: u64, length: u64) -> Option<Located> {
        let (stamp, nodes) = self.blocks.located(block)?;
        let (token, row) = self.grant(block, READ);
        Some(Located {
            block,
            stamp,
            length,
            nodes,
            token,
            row,
        })
    }

    pub fn open(&mut self, path: &str) -> Verdict {
        let walk = self.walk(path)?;
        self.tree.require_read(self.caller, &walk)?;
        let place = self.expect_found(&walk)?;
        let file = self.tree.file(place).ok_or(Refusal::IsDirectory)?;
        let length = file.length();
        let committed = |block: &FileBlock| Some((block.id, block.committed?));
        let blocks: Vec<(u64, u64)> = file.blocks.iter().filter_map(committed).collect();
        let blocks = blocks.into_iter();
        let blocks = blocks.filter_map(|(block, length)| self.locate(block, length));
        Ok(Reply::Opened(Box::new(Opened {
            length,
            blocks: blocks.collect(),
        })))
    }

    pub fn set_replication(&mut self, path: &str, replication: u8) -> Verdict {
        let walk = self.walk(path)?;
        self.tree.require_write(self.caller, &walk)?;
        let place = self.expect_found(&walk)?;
        let file = self.tree.file_mut(place).ok_or(Refusal::IsDirectory)?;
        file.replication = replication;
        for block in &file.blocks {
            self.blocks.set_replication(block.id, replication);
        }
        Ok(Reply::Empty)
    }

    pub fn roll_key(&mut self, key: [u8; 20]) -> Verdict {
        require_superuser(self.caller)?;
        let serial = self.keys.roll(key, self.now).ok_or(Refusal::SpentSerial)?;
        Ok(Reply::Serial(serial))
    }

    pub fn renew(&mut self) -> Verdict {
        if !self.leases.renew(self.caller.name, self.now) {
            return Err(Refusal::NoLease.into());
        }
        Ok(Reply::Empty)
    }

    fn copy_order(&mut self, transfer: Transfer) -> CopyOrder {
        let (token, _) = self.grant(transfer.block, READ | WRITE);
        CopyOrder { transfer, token }
    }

    fn recovery_order(&mut self, leading: Leading) -> RecoveryOrder {
        let (token, _) = self.grant(leading.block, WRITE);
        RecoveryOrder {
            block: leading.block,
            stamp: leading.stamp,
            nodes: leading.nodes,
            token,
        }
    }

    pub fn heartbeat(&mut self) -> Verdict {
        let node = self.names.node(self.caller.name).ok_or_else(no_node)?;
        let keys = self.keys.update(self.now);
        let orders = self.blocks.heard_of(node, self.now);
        let recoveries = orders.recoveries.into_iter();
        let recoveries = recoveries
            .map(|leading| self.recovery_order(leading))
            .collect();
        let transfers = orders.transfers.into_iter();
        let copies = transfers
            .map(|transfer| self.copy_order(transfer))
            .collect();
        Ok(Reply::Heartbeat(Box::new(Commands {
            keys,
            recoveries,
            removals: orders.removals,
            copies,
        })))
    }

    /// A DataNode reports a replica.
    pub fn reported(&mut self, block: u64, stamp: u64, length: u64) -> Verdict {
        let node = self.names.node(self.caller.name).ok_or_else(no_node)?;
        self.blocks.reported(node, block, stamp, length);
        Ok(Reply::Empty)
    }

    /// A DataNode that led the recovery of a block tells its length, and the nodes that have it.
    pub fn commit_recovery(
        &mut self,
        block: u64,
        stamp: u64,
        length: u64,
        nodes: &[u32],
    ) -> Verdict {
        self.names.node(self.caller.name).ok_or_else(no_node)?;
        let ended = self.blocks.end_recovery(block, stamp, length, nodes);
        let place = ended.map_err(Refusal::from)?;
        let file = self.tree.file_mut(place).expect("a file");
        file.state = FileState::Closed;
        file.blocks.last_mut().expect("a block").committed = Some(length);
        Ok(Reply::Empty)
    }

    pub fn tick(&mut self) -> Verdict {
        require_superuser(self.caller)?;
        let overdue = self.blocks.overdue(self.now);
        let mut recovered: Vec<(Place, Option<Who>)> = overdue.map(|place| (place, None)).collect();
        let tree = &mut *self.tree;
        let closed = self.leases.close_past_hard(self.now, |holder, place| {
            let file = tree.file_mut(place).expect("an open file");
            if file.ends_uncommitted() {
                recovered.push((place, Some(holder)));
                return false;
            }
            file.state = FileState::Closed;
            true
        });
        // stamps are given in the order of the paths
        recovered.sort_by_cached_key(|(place, _)| self.tree.order(*place));
        let mut begun = 0;
        for (place, holder) in recovered {
            // a file is passed over where no node can lead
            begun += u64::from(self.recover(place, holder).is_ok());
        }
        Ok(Reply::Expired(closed, begun))
    }
}
