//! The recoveries that a DataNode leads: whom it asked for replicas, what they answered, to which length it decided, and who has cut his
//! replica to it.

use crate::names::FastMap;
use crate::tokens::Token;
use std::rc::Rc;

/// What a DataNode is told to lead: the recovery of a block at a stamp, with a token to write the block, among the nodes that are to hold
/// it, ascending.
#[derive(Clone)]
pub struct RecoveryOrder {
    pub block: u64,
    pub stamp: u64,
    pub nodes: Rc<[u32]>,
    pub token: Token,
}

/// What a node answers of its replica.
#[derive(Clone, Copy)]
pub struct Found {
    pub length: u64,
    pub is_writing: bool,
}

/// What was decided: the length, the nodes that take part, ascending, and which of these have cut their replicas.
struct Decided {
    length: u64,
    nodes: Rc<[u32]>,
    updated: Vec<bool>,
}

struct Plan {
    order: RecoveryOrder,
    /// What each of the nodes answered.
    answers: Vec<Option<Found>>,
    decided: Option<Decided>,
}

pub enum PlanRefusal {
    AlreadyBegun(u64),
    Stranger,
    Doubled,
    NoReplicaAnswered,
}

/// What a decision hands out: the length, the nodes that take part, ascending, and the token by which they are told to cut their replicas.
pub struct Settled {
    pub length: u64,
    pub nodes: Rc<[u32]>,
    pub token: Token,
}

impl Plan {
    fn place_of(&self, node: u32) -> Option<usize> {
        self.order.nodes.binary_search(&node).ok()
    }

    fn answered(&self) -> impl Iterator<Item = (u32, Found)> {
        let nodes = self.order.nodes.iter().copied();
        let both = nodes.zip(&self.answers);
        both.filter_map(|(node, found)| Some((node, (*found)?)))
    }

    /// The length that the answers give, and those that take part: by the finalized replicas alone, where there are some.
    fn settle(&self) -> Option<(u64, Rc<[u32]>)> {
        let finalized = self.answered().filter(|(_, found)| !found.is_writing);
        let least_finalized = finalized.map(|(_, found)| found.length).min();
        let least = || self.answered().map(|(_, found)| found.length).min();
        let length = least_finalized.or_else(least)?;
        // each finalized replica is so long, and where there is none each of the others
        let long = self.answered().filter(|(_, found)| found.length >= length);
        Some((length, long.map(|(node, _)| node).collect()))
    }
}

#[derive(Default)]
pub struct Plans {
    /// By their blocks, and those of a block by their stamps, ascending: none begins at a stamp below another's.
    plans: FastMap<u64, Vec<Plan>>,
}

impl Plans {
    /// A recovery is to be led from now on, if none of the block at this stamp or a greater one was before.
    pub fn begin(&mut self, order: &RecoveryOrder) -> Result<(), PlanRefusal> {
        let own = self.plans.entry(order.block).or_default();
        if let Some(last) = own.last().filter(|last| last.order.stamp >= order.stamp) {
            return Err(PlanRefusal::AlreadyBegun(last.order.stamp));
        }
        own.push(Plan {
            order: order.clone(),
            answers: vec![None; order.nodes.len()],
            decided: None,
        });
        Ok(())
    }

    fn plan(&mut self, block: u64, stamp: u64) -> Result<&mut Plan, PlanRefusal> {
        let own = self.plans.get_mut(&block).ok_or(PlanRefusal::Stranger)?;
        let index = own.binary_search_by_key(&stamp, |plan| plan.order.stamp);
        Ok(&mut own[index.map_err(|_| PlanRefusal::Stranger)?])
    }

    /// A node answers what it has.
    pub fn answer(
        &mut self,
        block: u64,
        stamp: u64,
        node: u32,
        found: Found,
    ) -> Result<(), PlanRefusal> {
        let plan = self.plan(block, stamp)?;
        let place = plan.place_of(node).ok_or(PlanRefusal::Stranger)?;
        if plan.answers[place].is_some() {
            return Err(PlanRefusal::Doubled);
        }
        if plan.decided.is_some() {
            return Err(PlanRefusal::Stranger);
        }
        plan.answers[place] = Some(found);
        Ok(())
    }

    /// Decides by the answers that have come, once.
    pub fn decide(&mut self, block: u64, stamp: u64) -> Result<Settled, PlanRefusal> {
        let plan = self.plan(block, stamp)?;
        if plan.decided.is_some() {
            return Err(PlanRefusal::Stranger);
        }
        let (length, nodes) = plan.settle().ok_or(PlanRefusal::NoReplicaAnswered)?;
        plan.decided = Some(Decided {
            length,
            nodes: Rc::clone(&nodes),
            updated: vec![false; nodes.len()],
        });
        Ok(Settled {
            length,
            nodes,
            token: Token::clone(&plan.order.token),
        })
    }

    /// A node confirms that it has cut its replica.
    pub fn confirm(&mut self, block: u64, stamp: u64, node: u32) -> Result<(), PlanRefusal> {
        let decided = self.plan(block, stamp)?.decided.as_mut();
        let decided = decided.ok_or(PlanRefusal::Stranger)?;
        let place = decided.nodes.binary_search(&node);
        let place = place.map_err(|_| PlanRefusal::Stranger)?;
        if decided.updated[place] {
            return Err(PlanRefusal::Doubled);
        }
        decided.updated[place] = true;
        Ok(())
    }

    /// Tells the length, and the nodes that have confirmed it so far.
    pub fn commit(&mut self, block: u64, stamp: u64) -> Result<(u64, Rc<[u32]>), PlanRefusal> {
        let decided = self.plan(block, stamp)?.decided.as_ref();
        let decided = decided.ok_or(PlanRefusal::Stranger)?;
        let both = decided.nodes.iter().zip(&decided.updated);
        let nodes: Rc<[u32]> = both
            .filter_map(|(node, updated)| updated.then_some(*node))
            .collect();
        if nodes.is_empty() {
            return Err(PlanRefusal::NoReplicaAnswered);
        }
        Ok((decided.length, nodes))
    }
}
