//! The files and directories, each at a place in one vector. A directory has the places of its children by their names.

use crate::access_list::{Acl, Deciding, Judged};
use crate::names::Who;
use std::collections::BTreeMap;
use std::rc::Rc;

const READ: u8 = 0o4;
const WRITE: u8 = 0o2;
const TRAVERSE: u8 = 0o1;

/// The place of a node.
#[derive(Clone, Copy, PartialEq, Eq, Hash)]
pub struct Place(u32);

const ROOT: Place = Place(0);

/// Who asks, as looked up among the users.
#[derive(Clone, Copy)]
pub struct Caller<'a> {
    pub name: Who,
    pub groups: &'a [Who],
    pub is_superuser: bool,
}

/// Who may write a file.
#[derive(Clone, Copy, PartialEq, Eq)]
pub enum FileState {
    Closed,
    Open(Who),
    /// Nobody: the last block is being recovered.
    Recovering,
}

/// A block of a file, and its length, once that is committed.
pub struct FileBlock {
    pub id: u64,
    pub committed: Option<u64>,
}

pub struct File {
    pub replication: u8,
    pub state: FileState,
    /// In their order.
    pub blocks: Vec<FileBlock>,
}

impl File {
    /// How many bytes the blocks have whose length is committed.
    pub fn length(&self) -> u64 {
        let lengths = self.blocks.iter().filter_map(|block| block.committed);
        lengths.sum()
    }

    /// Whether the length of the last block isn't committed.
    pub fn ends_uncommitted(&self) -> bool {
        let last = self.blocks.last();
        last.is_some_and(|last| last.committed.is_none())
    }
}

/// What was deleted: how many nodes, who had which of their files open, and the blocks of these files.
pub struct Deleted {
    pub gone: u64,
    pub open: Vec<(Who, Place)>,
    pub blocks: Vec<u64>,
}

pub enum Held {
    File(File),
    Directory(BTreeMap<Rc<str>, Place>),
}

/// Where a node is held: the directory, and the name that it has there.
struct Link {
    above: Place,
    name: Rc<str>,
}

pub struct Node {
    /// The root has none.
    link: Option<Link>,
    pub owner: Who,
    pub group: Who,
    pub acl: Acl,
    pub held: Held,
}

/// What fails.
#[derive(Clone, Copy)]
pub enum Need {
    /// Rights, against which an entry decides.
    Rights(u8, Deciding),
    /// In a directory with the sticky bit, to own what is removed, or the directory: their owners.
    Sticky(Who, Who),
    /// To own: the owner.
    Owner(Who),
    Superuser,
    Node,
}

/// A need that fails, and the path of the component that it fails at.
pub struct Denial {
    pub path: Box<str>,
    pub need: Need,
}

/// How far a path leads.
#[derive(Clone, Copy)]
pub struct Walk<'a> {
    /// What has the path, or the last component above it that is there.
    pub last: Place,
    /// Where the path of that one ends.
    end: usize,
    /// What holds that one; the root holds itself.
    above: Place,
    /// Where the path of that holder ends.
    above_end: usize,
    pub path: &'a str,
    /// The names that nothing has, with a slash between each two.
    pub missing: &'a str,
}

impl<'a> Walk<'a> {
    pub fn is_found(&self) -> bool {
        self.missing.is_empty()
    }

    /// The last component that is there above the path, and where its own ends; the root has none above.
    fn ancestor(&self) -> Option<(Place, usize)> {
        if !self.is_found() {
            return Some((self.last, self.end));
        }
        (self.end > 0).then_some((self.above, self.above_end))
    }

    /// The component that would hold the path, if it is there.
    fn parent(&self) -> Option<(Place, usize)> {
        self.ancestor().filter(|_| !self.missing.contains('/'))
    }

    pub fn is_root(&self) -> bool {
        self.path == "/"
    }

    /// The same once what had the path is gone.
    pub fn without_last(self) -> Walk<'a> {
        Walk {
            last: self.above,
            end: self.above_end,
            missing: last_name(self.path),
            ..self
        }
    }

    /// The path of the last component that is there.
    pub fn front(&self) -> &'a str {
        front(self.path, self.end)
    }
}

fn front(path: &str, end: usize) -> &str {
    if end == 0 { "/" } else { &path[..end] }
}

/// The first name of a path without the first slash, and what stands behind it.
fn split(rest: &str) -> (&str, &str) {
    match rest.as_bytes().iter().position(|byte| *byte == b'/') {
        Some(end) => (&rest[..end], &rest[end + 1..]),
        None => (rest, ""),
    }
}

/// The last name of a path.
pub fn last_name(path: &str) -> &str {
    path.rsplit('/').next().unwrap_or("")
}

pub struct Tree {
    nodes: Vec<Node>,
    /// Places that no node has any more.
    free: Vec<Place>,
}

pub type Allowed<T> = Result<T, Box<Denial>>;

impl Tree {
    pub fn new(owner: Who, group: Who) -> Tree {
        Tree {
            nodes: vec![Node::directory(owner, group, 0o755)],
            free: Vec::new(),
        }
    }

    pub fn node(&self, place: Place) -> &Node {
        &self.nodes[place.0 as usize]
    }

    pub fn node_mut(&mut self, place: Place) -> &mut Node {
        &mut self.nodes[place.0 as usize]
    }

    pub fn file(&self, place: Place) -> Option<&File> {
        match &self.node(place).held {
            Held::File(file) => Some(file),
            Held::Directory(_) => None,
        }
    }

    pub fn file_mut(&mut self, place: Place) -> Option<&mut File> {
        match &mut self.node_mut(place).held {
            Held::File(file) => Some(file),
            Held::Directory(_) => None,
        }
    }

    fn children_mut(&mut self, place: Place) -> Option<&mut BTreeMap<Rc<str>, Place>> {
        match &mut self.node_mut(place).held {
            Held::Directory(children) => Some(children),
            Held::File(_) => None,
        }
    }

    /// The names down to a node, behind one another: their texts are in the order of the paths, since no name has the byte between them,
    /// which is the least of all.
    pub fn order(&self, mut place: Place) -> String {
        let mut names = Vec::new();
        while let Some(link) = &self.node(place).link {
            names.push(&*link.name);
            place = link.above;
        }
        names.reverse();
        names.join("\0")
    }

    /// Goes down a path as far as it leads, through directories that the caller may traverse.
    pub fn walk<'a>(&self, caller: Caller, path: &'a str) -> Allowed<Walk<'a>> {
        let mut walk = Walk {
            last: ROOT,
            end: 0,
            above: ROOT,
            above_end: 0,
            path,
            missing: &path[1..],
        };
        while !walk.missing.is_empty() {
            let node = self.node(walk.last);
            let Held::Directory(children) = &node.held else {
                break;
            };
            node.require(caller, TRAVERSE, walk.path, walk.end)?;
            let (name, rest) = split(walk.missing);
            let Some(child) = children.get(name) else {
                break;
            };
            walk = Walk {
                last: *child,
                end: walk.end + 1 + name.len(),
                above: walk.last,
                above_end: walk.end,
                path,
                missing: rest,
            };
        }
        Ok(walk)
    }

    fn require_at(
        &self,
        caller: Caller,
        right: u8,
        walk: &Walk,
        at: Option<(Place, usize)>,
    ) -> Allowed<()> {
        match at {
            Some((place, end)) => self.node(place).require(caller, right, walk.path, end),
            None => Ok(()),
        }
    }

    /// The caller may write in the last component above the path.
    pub fn require_write_above(&self, caller: Caller, walk: &Walk) -> Allowed<()> {
        self.require_at(caller, WRITE, walk, walk.ancestor())
    }

    /// The caller may write in the directory that holds the path.
    pub fn require_removal(&self, caller: Caller, walk: &Walk) -> Allowed<()> {
        let parent = walk
            .parent()
            .filter(|(place, _)| self.node(*place).is_directory());
        self.require_at(caller, WRITE, walk, parent)
    }

    /// The caller may write what has the path.
    pub fn require_write(&self, caller: Caller, walk: &Walk) -> Allowed<()> {
        self.require_at(
            caller,
            WRITE,
            walk,
            walk.is_found().then_some((walk.last, walk.end)),
        )
    }

    /// The caller may read what has the path.
    pub fn require_read(&self, caller: Caller, walk: &Walk) -> Allowed<()> {
        self.require_at(
            caller,
            READ,
            walk,
            walk.is_found().then_some((walk.last, walk.end)),
        )
    }

    /// The caller may list the directory that has the path.
    pub fn require_listing(&self, caller: Caller, walk: &Walk) -> Allowed<()> {
        let is_listed = walk.is_found() && self.node(walk.last).is_directory();
        self.require_at(
            caller,
            READ | TRAVERSE,
            walk,
            is_listed.then_some((walk.last, walk.end)),
        )
    }

    /// The caller owns what has the path.
    pub fn require_owner(&self, caller: Caller, walk: &Walk) -> Allowed<()> {
        let owner = self.node(walk.last).owner;
        if caller.is_superuser || !walk.is_found() || caller.name == owner {
            return Ok(());
        }
        Err(denial(walk.path, walk.end, Need::Owner(owner)))
    }

    /// Where the directory that holds the path has the sticky bit, the caller owns the one or the other.
    pub fn require_sticky(&self, caller: Caller, walk: &Walk) -> Allowed<()> {
        if caller.is_superuser || !walk.is_found() || walk.is_root() {
            return Ok(());
        }
        let (node, above) = (self.node(walk.last), self.node(walk.above));
        if !above.acl.is_sticky || caller.name == node.owner || caller.name == above.owner {
            return Ok(());
        }
        Err(denial(
            walk.path,
            walk.end,
            Need::Sticky(node.owner, above.owner),
        ))
    }

    /// The caller may do all in the directory that has the path and in those beneath it.
    pub fn require_sub_tree(&self, caller: Caller, walk: &Walk) -> Allowed<()> {
        if caller.is_superuser || !walk.is_found() {
            return Ok(());
        }
        let Some((names, deciding)) = self.first_closed(caller, walk.last) else {
            return Ok(());
        };
        let mut path = String::from(if walk.is_root() { "" } else { walk.path });
        for name in names {
            path.push('/');
            path.push_str(name);
        }
        let need = Need::Rights(READ | WRITE | TRAVERSE, deciding);
        let end = path.len();
        Err(denial(&path, end, need))
    }

    /// The names from a node down to the first directory, in the order of the paths, in which the caller may not do all.
    fn first_closed(&self, caller: Caller, place: Place) -> Option<(Vec<&str>, Deciding)> {
        let node = self.node(place);
        let Held::Directory(children) = &node.held else {
            return None;
        };
        if let Some(deciding) = node
            .acl
            .denial(node.judged(caller), READ | WRITE | TRAVERSE)
        {
            return Some((Vec::new(), deciding));
        }
        children.iter().find_map(|(name, child)| {
            let (mut names, deciding) = self.first_closed(caller, *child)?;
            names.insert(0, name);
            Some((names, deciding))
        })
    }

    fn add(&mut self, mut node: Node, above: Place, name: Rc<str>) -> Place {
        node.link = Some(Link { above, name });
        if let Some(place) = self.free.pop() {
            *self.node_mut(place) = node;
            return place;
        }
        self.nodes.push(node);
        Place(self.nodes.len() as u32 - 1)
    }

    /// Makes what is missing of a path: directories, and the last of them or a file. Answers its place.
    pub fn make(&mut self, owner: Who, walk: &Walk, mode: u16, file: Option<File>) -> Place {
        let group = self.node(walk.last).group;
        let mut last = Some(match file {
            Some(file) => Node::new(owner, group, mode & 0o777, Held::File(file)),
            None => Node::directory(owner, group, mode),
        });
        let mut at = walk.last;
        let mut rest = walk.missing;
        while !rest.is_empty() {
            let (name, behind) = split(rest);
            let between = || Node::directory(owner, group, mode & 0o777 | 0o300);
            let is_last = behind.is_empty();
            let node = last.take_if(|_| is_last).unwrap_or_else(between);
            let name: Rc<str> = name.into();
            let place = self.add(node, at, Rc::clone(&name));
            let children = self.children_mut(at).expect("a directory");
            children.insert(name, place);
            at = place;
            rest = behind;
        }
        at
    }

    /// Takes what has a path out of the directory that holds it.
    fn unlink(&mut self, walk: &Walk) {
        let name = last_name(walk.path);
        self.children_mut(walk.above)
            .expect("a directory")
            .remove(name);
    }

    /// Moves what has a path to another, which nothing has in a directory that is there.
    pub fn rename(&mut self, from: &Walk, to: &Walk) {
        self.unlink(from);
        let name: Rc<str> = to.missing.into();
        self.node_mut(from.last).link = Some(Link {
            above: to.last,
            name: Rc::clone(&name),
        });
        let children = self.children_mut(to.last).expect("a directory");
        children.insert(name, from.last);
    }

    /// Removes what has a path, and tells what that was.
    pub fn delete(&mut self, walk: &Walk) -> Deleted {
        self.unlink(walk);
        let mut gone = 0;
        let mut open = Vec::new();
        let mut blocks = Vec::new();
        let mut places = vec![walk.last];
        while let Some(place) = places.pop() {
            gone += 1;
            match std::mem::replace(
                &mut self.node_mut(place).held,
                Held::Directory(BTreeMap::new()),
            ) {
                Held::Directory(children) => places.extend(children.into_values()),
                Held::File(file) => {
                    if let FileState::Open(holder) = file.state {
                        open.push((holder, place));
                    }
                    blocks.extend(file.blocks.iter().map(|block| block.id));
                }
            }
            self.free.push(place);
        }
        Deleted { gone, open, blocks }
    }

    /// The most names and bytes that the paths beneath a node have behind its own.
    pub fn extent(&self, place: Place) -> (usize, usize) {
        let Held::Directory(children) = &self.node(place).held else {
            return (0, 0);
        };
        children
            .iter()
            .fold((0, 0), |(names, bytes), (name, child)| {
                let below = self.extent(*child);
                (names.max(below.0 + 1), bytes.max(below.1 + 1 + name.len()))
            })
    }
}

fn denial(path: &str, end: usize, need: Need) -> Box<Denial> {
    let path = front(path, end).into();
    Box::new(Denial { path, need })
}

/// What a verb of superusers needs.
pub fn require_superuser(caller: Caller) -> Allowed<()> {
    if caller.is_superuser {
        return Ok(());
    }
    Err(denial("/", 0, Need::Superuser))
}

/// The denial of a caller who isn't a DataNode's principal.
pub fn no_node() -> Box<Denial> {
    denial("/", 0, Need::Node)
}

impl Node {
    fn new(owner: Who, group: Who, mode: u16, held: Held) -> Node {
        Node {
            link: None,
            owner,
            group,
            acl: Acl::from_mode(mode),
            held,
        }
    }

    fn directory(owner: Who, group: Who, mode: u16) -> Node {
        Node::new(owner, group, mode, Held::Directory(BTreeMap::new()))
    }

    pub fn is_directory(&self) -> bool {
        matches!(self.held, Held::Directory(_))
    }

    fn judged<'a>(&self, caller: Caller<'a>) -> Judged<'a> {
        Judged {
            owner: self.owner,
            group: self.group,
            caller: caller.name,
            groups: caller.groups,
        }
    }

    #[inline]
    fn require(&self, caller: Caller, right: u8, path: &str, end: usize) -> Allowed<()> {
        if caller.is_superuser {
            return Ok(());
        }
        match self.acl.denial(self.judged(caller), right) {
            None => Ok(()),
            Some(deciding) => Err(denial(path, end, Need::Rights(right, deciding))),
        }
    }
}
