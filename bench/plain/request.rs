//! What a line asks for.

use crate::access_list::{AclChange, parse_spec};
use crate::blocks::LastBlock;
use crate::names::{Names, Who};
use std::rc::Rc;

const LATEST: u64 = 1 << 62;

/// An absolute path, in one piece.
pub type Path = Box<str>;

pub enum Op {
    Mkdirs(Path, u16),
    Stat(Path),
    List(Path),
    Delete(Path, bool),
    Rename(Path, Path),
    SetMode(Path, u16),
    SetAcl(Path, AclChange),
    AddUser(Who, Box<[Who]>),
    /// A file of this mode and replication, and whether a file that has the path is deleted first.
    Create(Path, u16, u8, bool),
    Append(Path),
    AddBlock(Path, Option<LastBlock>),
    Complete(Path, Option<LastBlock>),
    Open(Path),
    SetReplication(Path, u8),
    RollKey([u8; 20]),
    Renew,
    Tick,
    Heartbeat,
    /// A node has a finalized replica of a block, of this stamp and this length. No line says so, but a message does.
    Reported(u64, u64, u64),
    /// The recovery of a block at a stamp ends with this length, which these nodes have. Only a message says so, too.
    CommitRecovery(u64, u64, u64, Rc<[u32]>),
}

pub struct Request {
    pub caller: Who,
    /// In milliseconds.
    pub moment: u64,
    pub op: Op,
}

/// Why a line is no request.
#[derive(Clone, Copy, PartialEq, Eq)]
pub enum IllFormed {
    BadLine,
    BadPath,
    BadAcl(SpecFault),
    BadName,
    BadMode,
}

#[derive(Clone, Copy, PartialEq, Eq)]
pub enum SpecFault {
    Form,
    Duplicate,
    NamedBase,
}

pub type Read<T> = Result<T, IllFormed>;

/// The most words that a line has.
const MOST_WORDS: usize = 10;

/// Whether a byte separates words. Nearly all bytes are told by the first comparison.
fn is_blank(byte: u8) -> bool {
    byte <= b' ' && (byte == b' ' || byte == b'\t')
}

/// The words of a line, and how many they are, if these aren't too many.
pub fn words_of(line: &str) -> Option<([&str; MOST_WORDS], usize)> {
    let mut words = [""; MOST_WORDS];
    let mut count = 0;
    let mut rest = line;
    loop {
        let Some(start) = rest.bytes().position(|byte| !is_blank(byte)) else {
            return Some((words, count));
        };
        rest = &rest[start..];
        let end = rest.as_bytes().iter().position(|byte| is_blank(*byte));
        let end = end.unwrap_or(rest.len());
        *words.get_mut(count)? = &rest[..end];
        count += 1;
        rest = &rest[end..];
    }
}

pub fn number(word: &str) -> Option<u64> {
    let is_number = word.bytes().all(|byte| byte.is_ascii_digit());
    is_number.then(|| word.parse().ok()).flatten()
}

pub fn moment(word: &str) -> Read<u64> {
    number(word)
        .filter(|moment| *moment <= LATEST)
        .ok_or(IllFormed::BadLine)
}

fn replication(word: &str) -> Read<u8> {
    let count = number(word).filter(|count| (1..=16).contains(count));
    count.map(|count| count as u8).ok_or(IllFormed::BadLine)
}

fn mode(word: &str) -> Read<u16> {
    let is_octal =
        (1..=4).contains(&word.len()) && word.bytes().all(|byte| matches!(byte, b'0'..=b'7'));
    let bits = u16::from_str_radix(word, 8)
        .ok()
        .filter(|bits| is_octal && *bits <= 0o1777);
    bits.ok_or(IllFormed::BadMode)
}

fn is_name(name: &str) -> bool {
    (1..=255).contains(&name.len()) && name != "." && name != ".."
}

/// The path that a word spells: absolute, with no slash at its end and none twice, within the limits.
fn path(word: &str) -> Read<Path> {
    let is_byte = |byte: u8| !matches!(byte, b':' | 0 | b'\n');
    let is_path = word.strip_prefix('/').is_some_and(|names| {
        names.is_empty()
            || word.len() <= 8000
                && word.bytes().all(is_byte)
                && names.split('/').all(is_name)
                && names.split('/').count() <= 1000
    });
    if is_path {
        Ok(word.into())
    } else {
        Err(IllFormed::BadPath)
    }
}

pub fn who(names: &mut Names, word: &str) -> Read<Who> {
    names.who(word).ok_or(IllFormed::BadName)
}

fn groups(names: &mut Names, word: &str) -> Read<Box<[Who]>> {
    if word == "-" {
        return Ok(Box::default());
    }
    word.split(',').map(|word| who(names, word)).collect()
}

fn word_is(word: &str, wanted: &str) -> Read<bool> {
    if word == wanted {
        Ok(true)
    } else {
        Err(IllFormed::BadLine)
    }
}

fn last_block(block: &str, length: &str) -> Read<Option<LastBlock>> {
    let block = number(block).ok_or(IllFormed::BadLine)?;
    let length = number(length).ok_or(IllFormed::BadLine)?;
    Ok(Some(LastBlock { block, length }))
}

/// In the place of the value of what is no hexadecimal digit.
const NO_DIGIT: u8 = 0xff;

/// The value of a hexadecimal digit of either case.
const fn hex_digit(digit: u8) -> u8 {
    match digit {
        b'0'..=b'9' => digit - b'0',
        b'a'..=b'f' => digit - b'a' + 10,
        b'A'..=b'F' => digit - b'A' + 10,
        _ => NO_DIGIT,
    }
}

/// The values of all bytes as digits.
const HEX_DIGITS: [u8; 256] = {
    let mut values = [0; 256];
    let mut byte = 0;
    while byte < 256 {
        values[byte] = hex_digit(byte as u8);
        byte += 1;
    }
    values
};

/// The byte that two hexadecimal digits spell.
pub fn hex_byte(high: u8, low: u8) -> Option<u8> {
    let (high, low) = (hex_digit(high), hex_digit(low));
    (high < 16 && low < 16).then_some(high << 4 | low)
}

/// The bytes that hexadecimal digits spell, two for each.
pub fn hex_bytes<B: FromIterator<u8>>(digits: &str) -> Option<B> {
    let mut all = 0;
    let pairs = digits.as_bytes().chunks_exact(2);
    let is_odd = !pairs.remainder().is_empty();
    let byte = |pair: &[u8]| {
        let high = HEX_DIGITS[usize::from(pair[0])];
        let low = HEX_DIGITS[usize::from(pair[1])];
        all |= high | low;
        high << 4 | low
    };
    let bytes = pairs.map(byte).collect();
    (!is_odd && all < 16).then_some(bytes)
}

fn key(word: &str) -> Read<[u8; 20]> {
    let bytes: Vec<u8> = hex_bytes(word).ok_or(IllFormed::BadLine)?;
    bytes.try_into().map_err(|_| IllFormed::BadLine)
}

fn acl_change(names: &mut Names, form: &str, spec: &str) -> Read<AclChange> {
    let entries = parse_spec(names, spec).map_err(IllFormed::BadAcl)?;
    Ok(if form == "set" {
        AclChange::Set(entries)
    } else {
        AclChange::Modify(entries)
    })
}

/// The operation of a verb and its words, of which there are the right number.
fn op(names: &mut Names, verb: &str, words: &[&str]) -> Read<Op> {
    Ok(match (verb, words) {
        ("mkdirs", [at, bits]) => Op::Mkdirs(path(at)?, mode(bits)?),
        ("stat", [at]) => Op::Stat(path(at)?),
        ("ls", [at]) => Op::List(path(at)?),
        ("delete", [at]) => Op::Delete(path(at)?, false),
        ("delete", [at, all]) => Op::Delete(path(at)?, word_is(all, "recursive")?),
        ("rename", [from, to]) => Op::Rename(path(from)?, path(to)?),
        ("chmod", [at, bits]) => Op::SetMode(path(at)?, mode(bits)?),
        ("setfacl", [at, form, spec]) => Op::SetAcl(path(at)?, acl_change(names, form, spec)?),
        ("adduser", [user, of]) => Op::AddUser(who(names, user)?, groups(names, of)?),
        ("create", [at, bits, copies]) => {
            Op::Create(path(at)?, mode(bits)?, replication(copies)?, false)
        }
        ("create", [at, bits, copies, over]) => Op::Create(
            path(at)?,
            mode(bits)?,
            replication(copies)?,
            word_is(over, "over")?,
        ),
        ("append", [at]) => Op::Append(path(at)?),
        ("addblock", [at]) => Op::AddBlock(path(at)?, None),
        ("addblock", [at, block, length]) => Op::AddBlock(path(at)?, last_block(block, length)?),
        ("complete", [at]) => Op::Complete(path(at)?, None),
        ("complete", [at, block, length]) => Op::Complete(path(at)?, last_block(block, length)?),
        ("open", [at]) => Op::Open(path(at)?),
        ("setrep", [at, copies]) => Op::SetReplication(path(at)?, replication(copies)?),
        ("rollkey", [digits]) => Op::RollKey(key(digits)?),
        ("renew", []) => Op::Renew,
        ("tick", []) => Op::Tick,
        ("heartbeat", []) => Op::Heartbeat,
        _ => return Err(IllFormed::BadLine),
    })
}

/// Whether a verb is known and has so many words.
fn is_verb(verb: &str, words: &[&str]) -> bool {
    match (verb, words.len()) {
        ("tick" | "heartbeat" | "renew", 0) => true,
        ("stat" | "ls" | "delete" | "append" | "open" | "rollkey", 1) => true,
        ("mkdirs" | "delete" | "rename" | "chmod" | "adduser" | "setrep", 2) => true,
        ("addblock" | "complete", 1 | 3) | ("create", 3 | 4) => true,
        ("setfacl", 3) => matches!(words[1], "set" | "modify"),
        _ => false,
    }
}

impl Request {
    /// The request that the words of a line make.
    pub fn read(names: &mut Names, words: &[&str]) -> Read<Request> {
        let [at, caller, verb, rest @ ..] = words else {
            return Err(IllFormed::BadLine);
        };
        if !is_verb(verb, rest) {
            return Err(IllFormed::BadLine);
        }
        Ok(Request {
            moment: moment(at)?,
            caller: who(names, caller)?,
            op: op(names, verb, rest)?,
        })
    }
}
