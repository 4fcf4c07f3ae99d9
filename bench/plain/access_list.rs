//! Access control lists in plain Rust, judged and modified as HDFS does. There are no default lists.

use crate::names::{Names, Who};
use crate::request::SpecFault;

/// Whom an entry is for; with no name the owner, the owning group, the mask or all others.
#[derive(Clone, Copy, PartialEq, Eq)]
pub enum EntryKind {
    User,
    Group,
    Mask,
    Other,
}

/// An entry of a list, or one that a change names.
#[derive(Clone, Copy)]
pub struct Entry {
    pub kind: EntryKind,
    pub name: Option<Who>,
    pub rights: u8,
}

/// How a list is changed.
pub enum AclChange {
    /// These entries alone, those of owner, owning group and others among them.
    Set(Box<[Entry]>),
    /// These entries, each instead of one of the same kind and name.
    Modify(Box<[Entry]>),
}

#[derive(Clone, Copy)]
pub enum AclFault {
    NoBase,
    TooManyEntries,
}

/// The entries `KIND:[NAME]:RIGHTS` that a text spells, with a comma between each two.
pub fn parse_spec(names: &mut Names, text: &str) -> Result<Box<[Entry]>, SpecFault> {
    let entries: Option<Box<[Entry]>> = text
        .split(',')
        .map(|text| parse_entry(names, text))
        .collect();
    let entries = entries.ok_or(SpecFault::Form)?;
    let is_twice = |(at, entry): (usize, &Entry)| {
        let same = |other: &Entry| other.kind == entry.kind && other.name == entry.name;
        entries[..at].iter().any(same)
    };
    let is_base = |entry: &Entry| matches!(entry.kind, EntryKind::Mask | EntryKind::Other);
    if entries.iter().enumerate().any(is_twice) {
        return Err(SpecFault::Duplicate);
    }
    if entries
        .iter()
        .any(|entry| entry.name.is_some() && is_base(entry))
    {
        return Err(SpecFault::NamedBase);
    }
    Ok(entries)
}

fn parse_entry(names: &mut Names, text: &str) -> Option<Entry> {
    let mut fields = text.split(':');
    let kind = match fields.next()? {
        "user" => EntryKind::User,
        "group" => EntryKind::Group,
        "mask" => EntryKind::Mask,
        "other" => EntryKind::Other,
        _ => return None,
    };
    let name = match fields.next()? {
        "" => None,
        name => Some(names.who(name)?),
    };
    let rights = parse_rights(fields.next()?)?;
    fields
        .next()
        .is_none()
        .then_some(Entry { kind, name, rights })
}

fn parse_rights(text: &str) -> Option<u8> {
    let letters: &[u8; 3] = text.as_bytes().try_into().ok()?;
    let bit = |rights: u8, (found, letter): (&u8, &u8)| match found {
        b'-' => Some(rights << 1),
        _ if found == letter => Some(rights << 1 | 1),
        _ => None,
    };
    letters.iter().zip(b"rwx").try_fold(0, bit)
}

/// What a named user or a named group is granted.
#[derive(Clone, Copy)]
struct NamedEntry {
    name: Who,
    rights: u8,
}

/// The entries that most lists don't have, named ones in the order of their names.
struct Extension {
    mask: u8,
    users: Vec<NamedEntry>,
    groups: Vec<NamedEntry>,
}

/// An access control list, without a default list.
pub struct Acl {
    pub is_sticky: bool,
    user: u8,
    group: u8,
    other: u8,
    extension: Option<Box<Extension>>,
}

/// The entry that decides, and the mask that filters it.
#[derive(Clone, Copy)]
pub struct Deciding {
    pub entry: Entry,
    pub mask: Option<u8>,
}

impl Deciding {
    fn grants(&self, right: u8) -> bool {
        self.entry.rights & self.mask.unwrap_or(0o7) & right == right
    }
}

const MOST_NAMED: usize = 28;

/// The rights of the entry without a name of a kind, where a spec has one.
fn given(spec: &[Entry], kind: EntryKind) -> Option<u8> {
    let is_given = |entry: &&Entry| entry.kind == kind && entry.name.is_none();
    spec.iter().find(is_given).map(|entry| entry.rights)
}

/// The named entries of a kind.
fn named(spec: &[Entry], kind: EntryKind) -> impl Iterator<Item = NamedEntry> {
    spec.iter()
        .filter(move |entry| entry.kind == kind)
        .filter_map(|entry| {
            let rights = entry.rights;
            entry.name.map(|name| NamedEntry { name, rights })
        })
}

fn place(names: &Names, entries: &[NamedEntry], name: Who) -> Result<usize, usize> {
    if let Some(index) = entries.iter().position(|entry| entry.name == name) {
        return Ok(index);
    }
    entries.binary_search_by(|entry| names.text(entry.name).cmp(names.text(name)))
}

/// How many entries a spec adds to those of a kind.
fn added(names: &Names, entries: &[NamedEntry], spec: &[Entry], kind: EntryKind) -> usize {
    let is_new = |new: &NamedEntry| place(names, entries, new.name).is_err();
    named(spec, kind).filter(is_new).count()
}

/// Puts in the named entries of a kind, each instead of one of the same name.
fn put_each(names: &Names, entries: &mut Vec<NamedEntry>, spec: &[Entry], kind: EntryKind) {
    for new in named(spec, kind) {
        match place(names, entries, new.name) {
            Ok(index) => entries[index] = new,
            Err(index) => entries.insert(index, new),
        }
    }
}

impl Extension {
    fn empty() -> Extension {
        Extension {
            mask: 0,
            users: Vec::new(),
            groups: Vec::new(),
        }
    }

    fn is_empty(&self) -> bool {
        self.users.is_empty() && self.groups.is_empty()
    }

    /// All that the entries of a class grant together.
    fn union_with(&self, group: u8) -> u8 {
        let named = self.users.iter().chain(&self.groups);
        named.fold(group, |union, entry| union | entry.rights)
    }

    fn has_room_for(&self, names: &Names, spec: &[Entry]) -> bool {
        let users = added(names, &self.users, spec, EntryKind::User);
        let groups = added(names, &self.groups, spec, EntryKind::Group);
        self.users.len() + self.groups.len() + users + groups <= MOST_NAMED
    }

    fn deciding(&self, kind: EntryKind, entry: &NamedEntry) -> Deciding {
        let entry = Entry {
            kind,
            name: Some(entry.name),
            rights: entry.rights,
        };
        Deciding {
            entry,
            mask: Some(self.mask),
        }
    }
}

fn base(kind: EntryKind, rights: u8, mask: Option<u8>) -> Deciding {
    let entry = Entry {
        kind,
        name: None,
        rights,
    };
    Deciding { entry, mask }
}

/// Who is judged: a caller and his groups, beside the owner and the owning group of a node.
#[derive(Clone, Copy)]
pub struct Judged<'a> {
    pub owner: Who,
    pub group: Who,
    pub caller: Who,
    pub groups: &'a [Who],
}

impl Acl {
    pub fn from_mode(mode: u16) -> Acl {
        let three = |shift: u16| (mode >> shift & 0o7) as u8;
        Acl {
            is_sticky: mode & 0o1000 != 0,
            user: three(6),
            group: three(3),
            other: three(0),
            extension: None,
        }
    }

    /// The mode that the list shows: where there is a mask, it stands for the group.
    pub fn mode(&self) -> u16 {
        let group = self
            .extension
            .as_ref()
            .map_or(self.group, |extension| extension.mask);
        let bits = |rights: u8, shift: u16| u16::from(rights) << shift;
        bits(self.is_sticky.into(), 9) | bits(self.user, 6) | bits(group, 3) | bits(self.other, 0)
    }

    pub fn set_mode(&mut self, mode: u16, is_directory: bool) {
        let new = Acl::from_mode(mode);
        self.is_sticky = new.is_sticky && is_directory;
        self.user = new.user;
        self.other = new.other;
        match &mut self.extension {
            Some(extension) => extension.mask = new.group,
            None => self.group = new.group,
        }
    }

    pub fn is_extended(&self) -> bool {
        self.extension.is_some()
    }

    /// The entry that decides for a caller about rights: the owner's, else a named user's, else of those of his groups the first
    /// that grants the rights, else the first, else that of all others.
    fn deciding(&self, judged: Judged, rights: u8) -> Deciding {
        if judged.caller == judged.owner {
            return base(EntryKind::User, self.user, None);
        }
        let mask = self.extension.as_ref().map(|extension| extension.mask);
        let owning = judged.groups.contains(&judged.group);
        let owning = owning.then(|| base(EntryKind::Group, self.group, mask));
        let others = || base(EntryKind::Other, self.other, None);
        let Some(extension) = &self.extension else {
            return owning.unwrap_or_else(others);
        };
        if let Some(entry) = extension
            .users
            .iter()
            .find(|entry| entry.name == judged.caller)
        {
            return extension.deciding(EntryKind::User, entry);
        }
        let matching = extension
            .groups
            .iter()
            .filter(|entry| judged.groups.contains(&entry.name));
        let matching = matching.map(|entry| extension.deciding(EntryKind::Group, entry));
        let mut matching = owning.into_iter().chain(matching).peekable();
        let first = matching.peek().copied();
        matching
            .find(|deciding| deciding.grants(rights))
            .or(first)
            .unwrap_or_else(others)
    }

    /// What decides against a caller who asks for rights, if it does.
    #[inline]
    pub fn denial(&self, judged: Judged, rights: u8) -> Option<Deciding> {
        let deciding = self.deciding(judged, rights);
        (!deciding.grants(rights)).then_some(deciding)
    }

    /// Changes the list, or leaves it as it was.
    pub fn change(&mut self, names: &Names, change: &AclChange) -> Result<(), AclFault> {
        match change {
            AclChange::Set(spec) => self.set(names, spec),
            AclChange::Modify(spec) => self.add(names, spec),
        }
    }

    fn set(&mut self, names: &Names, spec: &[Entry]) -> Result<(), AclFault> {
        let bases = [EntryKind::User, EntryKind::Group, EntryKind::Other];
        if bases.iter().any(|kind| given(spec, *kind).is_none()) {
            return Err(AclFault::NoBase);
        }
        let mut list = Acl::from_mode(0);
        list.is_sticky = self.is_sticky;
        list.add(names, spec)?;
        *self = list;
        Ok(())
    }

    /// Adds entries. A mask that isn't given becomes the union of its class; with no named entries it filters the group for good.
    fn add(&mut self, names: &Names, spec: &[Entry]) -> Result<(), AclFault> {
        let new = || Box::new(Extension::empty());
        let mut extension = self.extension.take().unwrap_or_else(new);
        if !extension.has_room_for(names, spec) {
            self.extension = Some(extension).filter(|old| !old.is_empty());
            return Err(AclFault::TooManyEntries);
        }
        self.user = given(spec, EntryKind::User).unwrap_or(self.user);
        self.group = given(spec, EntryKind::Group).unwrap_or(self.group);
        self.other = given(spec, EntryKind::Other).unwrap_or(self.other);
        put_each(names, &mut extension.users, spec, EntryKind::User);
        put_each(names, &mut extension.groups, spec, EntryKind::Group);
        let mask = given(spec, EntryKind::Mask);
        if extension.is_empty() {
            self.group &= mask.unwrap_or(self.group);
            return Ok(());
        }
        extension.mask = mask.unwrap_or(extension.union_with(self.group));
        self.extension = Some(extension);
        Ok(())
    }
}
