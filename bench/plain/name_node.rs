//! A NameNode in plain Rust: the tree, the users, the leases of clients, blocks and DataNodes, the tokens that were granted, and the
//! history of all requests.

use crate::access_list::AclChange;
use crate::answer::{Failure, FileDetail, Refusal, Reply, Status, Verdict};
use crate::blocks::Blocks;
use crate::leases::Leases;
use crate::names::{FastMap, Names, Who};
use crate::request::{Op, Request};
use crate::tokens::{KeyRing, LedgerRow};
use crate::tree::{Caller, Deleted, Held, Node, Place, Tree, Walk, last_name, require_superuser};

const MOST_NAMES: usize = 1000;
const MOST_BYTES: usize = 8000;

/// One step: a request, and the verdict on it.
#[allow(dead_code)]
pub struct HistoryEntry {
    /// Which entry it is, counted from 1.
    place: u64,
    /// Which caller's session handed the request in, and which request of that session it is.
    pass: u64,
    index: u64,
    request: Request,
    pub verdict: Verdict,
}

/// The known users, each with its groups.
struct Users {
    groups: FastMap<Who, Box<[Who]>>,
    superuser: Who,
    supergroup: Who,
}

impl Users {
    fn caller(&self, name: Who) -> Caller<'_> {
        let groups = self.groups.get(&name).map_or(&[][..], |groups| groups);
        Caller {
            name,
            groups,
            is_superuser: name == self.superuser || groups.contains(&self.supergroup),
        }
    }
}

pub struct NameNode {
    tree: Tree,
    users: Users,
    leases: Leases,
    blocks: Blocks,
    keys: KeyRing,
    ledger: Vec<LedgerRow>,
    /// The greatest moment of a request.
    clock: u64,
    history: Vec<HistoryEntry>,
}

/// What the verbs work on.
pub struct Serving<'a> {
    pub names: &'a Names,
    pub tree: &'a mut Tree,
    pub leases: &'a mut Leases,
    pub blocks: &'a mut Blocks,
    pub keys: &'a mut KeyRing,
    pub ledger: &'a mut Vec<LedgerRow>,
    pub caller: Caller<'a>,
    pub now: u64,
    /// The place of the entry that is made.
    pub place: u64,
}

impl NameNode {
    pub fn new(names: &mut Names) -> NameNode {
        let superuser = names.who("hdfs").expect("a name");
        let supergroup = names.who("supergroup").expect("a name");
        NameNode {
            tree: Tree::new(superuser, supergroup),
            users: Users {
                groups: FastMap::default(),
                superuser,
                supergroup,
            },
            leases: Leases::new(),
            blocks: Blocks::new(),
            keys: KeyRing::new(),
            ledger: Vec::new(),
            clock: 0,
            history: Vec::new(),
        }
    }

    /// The tokens that were granted.
    pub fn ledger(&self) -> &[LedgerRow] {
        &self.ledger
    }

    /// Answers a request, which the history keeps with its verdict.
    pub fn step(&mut self, names: &Names, request: Request) -> &HistoryEntry {
        self.clock = self.clock.max(request.moment);
        let (request, verdict) = self.serve(names, request);
        let place = self.history.len() as u64;
        self.history.push(HistoryEntry {
            place: place + 1,
            pass: 0,
            index: place,
            request,
            verdict,
        });
        self.history.last().expect("an entry")
    }

    fn serve(&mut self, names: &Names, request: Request) -> (Request, Verdict) {
        let verdict = match &request.op {
            Op::AddUser(user, groups) => self.add_user(names, request.caller, *user, groups),
            op => self.serving(names, request.caller).serve(op),
        };
        (request, verdict)
    }

    fn add_user(&mut self, names: &Names, caller: Who, user: Who, groups: &[Who]) -> Verdict {
        require_superuser(self.users.caller(caller))?;
        if names.node(user).is_some() {
            return Err(Refusal::BadName.into());
        }
        if self.users.groups.contains_key(&user) {
            return Err(Refusal::Exists.into());
        }
        self.users.groups.insert(user, groups.into());
        Ok(Reply::Empty)
    }

    fn serving<'a>(&'a mut self, names: &'a Names, caller: Who) -> Serving<'a> {
        Serving {
            names,
            tree: &mut self.tree,
            leases: &mut self.leases,
            blocks: &mut self.blocks,
            keys: &mut self.keys,
            ledger: &mut self.ledger,
            caller: self.users.caller(caller),
            now: self.clock,
            place: self.history.len() as u64 + 1,
        }
    }
}

impl Serving<'_> {
    fn serve(&mut self, op: &Op) -> Verdict {
        match op {
            Op::Mkdirs(path, mode) => self.mkdirs(path, *mode),
            Op::Stat(path) => self.stat(path),
            Op::List(path) => self.list(path),
            Op::Delete(path, is_recursive) => self.delete(path, *is_recursive),
            Op::Rename(from, to) => self.rename(from, to),
            Op::SetMode(path, mode) => self.set_mode(path, *mode),
            Op::SetAcl(path, change) => self.set_acl(path, change),
            Op::Create(path, mode, replication, over) => {
                self.create(path, *mode, *replication, *over)
            }
            Op::Append(path) => self.append(path),
            Op::AddBlock(path, last) => self.add_block(path, *last),
            Op::Complete(path, last) => self.complete(path, *last),
            Op::Open(path) => self.open(path),
            Op::SetReplication(path, replication) => self.set_replication(path, *replication),
            Op::RollKey(key) => self.roll_key(*key),
            Op::Renew => self.renew(),
            Op::Tick => self.tick(),
            Op::Heartbeat => self.heartbeat(),
            Op::Reported(block, stamp, length) => self.reported(*block, *stamp, *length),
            Op::CommitRecovery(block, stamp, length, nodes) => {
                self.commit_recovery(*block, *stamp, *length, nodes)
            }
            Op::AddUser(..) => unreachable!("users are added elsewhere"),
        }
    }

    pub fn walk<'p>(&self, path: &'p str) -> Result<Walk<'p>, Failure> {
        Ok(self.tree.walk(self.caller, path)?)
    }

    pub fn last(&self, walk: &Walk) -> &Node {
        self.tree.node(walk.last)
    }

    /// No file is above the path.
    pub fn expect_no_file_above(&self, walk: &Walk) -> Result<(), Refusal> {
        if walk.is_found() || self.last(walk).is_directory() {
            return Ok(());
        }
        Err(Refusal::NotDirectory(walk.front().into()))
    }

    /// Something has the path.
    pub fn expect_found(&self, walk: &Walk) -> Result<Place, Refusal> {
        self.expect_no_file_above(walk)?;
        if walk.is_found() {
            Ok(walk.last)
        } else {
            Err(Refusal::NotFound)
        }
    }

    fn mkdirs(&mut self, path: &str, mode: u16) -> Verdict {
        let walk = self.walk(path)?;
        if walk.is_found() {
            let is_directory = self.last(&walk).is_directory();
            return if is_directory {
                Ok(Reply::Empty)
            } else {
                Err(Refusal::Exists.into())
            };
        }
        self.tree.require_write_above(self.caller, &walk)?;
        self.expect_no_file_above(&walk)?;
        self.tree.make(self.caller.name, &walk, mode, None);
        Ok(Reply::Empty)
    }

    fn stat(&mut self, path: &str) -> Verdict {
        let walk = self.walk(path)?;
        let node = self.tree.node(self.expect_found(&walk)?);
        Ok(Reply::Status(Status {
            mode: node.acl.mode(),
            is_extended: node.acl.is_extended(),
            owner: node.owner,
            group: node.group,
            file: match &node.held {
                Held::File(file) => Some(FileDetail {
                    replication: file.replication,
                    length: file.length(),
                    state: file.state,
                }),
                Held::Directory(_) => None,
            },
        }))
    }

    fn list(&mut self, path: &str) -> Verdict {
        let walk = self.walk(path)?;
        self.tree.require_listing(self.caller, &walk)?;
        let mut text = String::new();
        match &self.tree.node(self.expect_found(&walk)?).held {
            Held::File(_) => {
                text.push('/');
                text.push_str(last_name(path));
            }
            Held::Directory(children) => {
                text.reserve(children.keys().map(|name| name.len() + 1).sum());
                for name in children.keys() {
                    text.push('/');
                    text.push_str(name);
                }
            }
        }
        Ok(Reply::Names(text.into()))
    }

    fn delete(&mut self, path: &str, is_recursive: bool) -> Verdict {
        let walk = self.walk(path)?;
        self.tree.require_sticky(self.caller, &walk)?;
        self.tree.require_removal(self.caller, &walk)?;
        self.tree.require_sub_tree(self.caller, &walk)?;
        if walk.is_root() {
            return Err(Refusal::IsRoot.into());
        }
        let place = self.expect_found(&walk)?;
        let is_filled = match &self.tree.node(place).held {
            Held::Directory(children) => !children.is_empty(),
            Held::File(_) => false,
        };
        if is_filled && !is_recursive {
            return Err(Refusal::NotEmpty.into());
        }
        let deleted = self.tree.delete(&walk);
        let gone = deleted.gone;
        self.forget(deleted);
        Ok(Reply::Deleted(gone))
    }

    /// What was deleted is open to nobody, and its blocks are known no more.
    pub fn forget(&mut self, deleted: Deleted) {
        for (holder, place) in deleted.open {
            self.leases.closed(holder, place);
        }
        self.blocks.remove_all(&deleted.blocks);
    }

    fn rename(&mut self, from: &str, to: &str) -> Verdict {
        let old = self.walk(from)?;
        let new = self.walk(to)?;
        self.tree.require_sticky(self.caller, &old)?;
        self.tree.require_write_above(self.caller, &new)?;
        self.tree.require_removal(self.caller, &old)?;
        self.expect_movable(&old, &new)?;
        self.tree.rename(&old, &new);
        Ok(Reply::Empty)
    }

    fn expect_movable(&self, from: &Walk, to: &Walk) -> Result<(), Refusal> {
        if from.is_root() || to.is_root() {
            return Err(Refusal::IsRoot);
        }
        self.expect_found(from)?;
        self.expect_no_file_above(to)?;
        let behind = to.path.strip_prefix(from.path);
        if behind.is_some_and(|behind| behind.is_empty() || behind.starts_with('/')) {
            return Err(Refusal::UnderItself);
        }
        if to.is_found() {
            return Err(Refusal::Exists);
        }
        if to.missing.contains('/') {
            return Err(Refusal::NotFound);
        }
        self.expect_within_limits(from, to)
    }

    /// No path beneath what is moved gets too long or too deep.
    fn expect_within_limits(&self, from: &Walk, to: &Walk) -> Result<(), Refusal> {
        let depth = |path: &str| path.matches('/').count();
        if to.path.len() <= from.path.len() && depth(to.path) <= depth(from.path) {
            return Ok(());
        }
        let (names, bytes) = self.tree.extent(from.last);
        if depth(to.path) + names > MOST_NAMES || to.path.len() + bytes > MOST_BYTES {
            return Err(Refusal::BadPath);
        }
        Ok(())
    }

    fn owned(&self, path: &str) -> Result<Place, Failure> {
        let walk = self.walk(path)?;
        self.tree.require_owner(self.caller, &walk)?;
        Ok(self.expect_found(&walk)?)
    }

    fn set_mode(&mut self, path: &str, mode: u16) -> Verdict {
        let place = self.owned(path)?;
        let node = self.tree.node_mut(place);
        let is_directory = node.is_directory();
        node.acl.set_mode(mode, is_directory);
        Ok(Reply::Empty)
    }

    fn set_acl(&mut self, path: &str, change: &AclChange) -> Verdict {
        let place = self.owned(path)?;
        let acl = &mut self.tree.node_mut(place).acl;
        acl.change(self.names, change).map_err(Refusal::Acl)?;
        Ok(Reply::Empty)
    }
}
