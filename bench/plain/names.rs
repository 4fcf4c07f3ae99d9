//! The names of users and groups, each kept once and told apart by a number.

use std::collections::HashMap;
use std::hash::{BuildHasherDefault, Hasher};

/// A fast hash of short keys (the multiplications of FxHash).
#[derive(Default)]
pub struct FastHasher {
    hash: u64,
}

impl FastHasher {
    fn add(&mut self, word: u64) {
        self.hash = (self.hash.rotate_left(5) ^ word).wrapping_mul(0x517c_c1b7_2722_0a95);
    }
}

impl Hasher for FastHasher {
    fn write(&mut self, bytes: &[u8]) {
        let mut words = bytes.chunks_exact(8);
        for word in &mut words {
            self.add(u64::from_le_bytes(word.try_into().expect("eight bytes")));
        }
        let mut last = [0; 8];
        let rest = words.remainder();
        last[..rest.len()].copy_from_slice(rest);
        self.add(u64::from_le_bytes(last));
    }

    fn write_u8(&mut self, byte: u8) {
        self.add(u64::from(byte));
    }

    fn write_u32(&mut self, word: u32) {
        self.add(u64::from(word));
    }

    fn write_u64(&mut self, word: u64) {
        self.add(word);
    }

    fn finish(&self) -> u64 {
        self.hash
    }
}

pub type FastMap<K, V> = HashMap<K, V, BuildHasherDefault<FastHasher>>;

/// A user or a group.
#[derive(Clone, Copy, PartialEq, Eq, Hash)]
pub struct Who(u32);

/// A name, and the DataNode whose principal it is.
struct Name {
    text: Box<str>,
    node: Option<u32>,
}

/// All users and groups that were named.
#[derive(Default)]
pub struct Names {
    numbers: FastMap<Box<str>, Who>,
    all: Vec<Name>,
}

fn is_who(text: &str) -> bool {
    let is_allowed = |byte: &u8| matches!(byte, b'!'..=b'~') && !matches!(byte, b':' | b',' | b'/');
    (1..=255).contains(&text.len()) && text.as_bytes().iter().all(is_allowed)
}

/// The id of the DataNode whose principal has this name, `dn-N`.
fn node_of(text: &str) -> Option<u32> {
    let number = text.strip_prefix("dn-")?;
    let is_id = !number.starts_with('0') && number.bytes().all(|byte| byte.is_ascii_digit());
    if is_id { number.parse().ok() } else { None }
}

impl Names {
    /// The user or group that a word names.
    pub fn who(&mut self, word: &str) -> Option<Who> {
        if let Some(who) = self.numbers.get(word) {
            return Some(*who);
        }
        if !is_who(word) {
            return None;
        }
        let who = Who(self.all.len() as u32);
        self.all.push(Name {
            text: word.into(),
            node: node_of(word),
        });
        self.numbers.insert(word.into(), who);
        Some(who)
    }

    pub fn text(&self, who: Who) -> &str {
        &self.all[who.0 as usize].text
    }

    /// The DataNode whose principal the name is, which no user can have.
    pub fn node(&self, who: Who) -> Option<u32> {
        self.all[who.0 as usize].node
    }
}
