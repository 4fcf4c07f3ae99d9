//! What the lines of a script bring about: requests to the NameNode, calls of DataNodes, and deliveries of messages.

use crate::calls::{Asked, Call, Next, Payload, Presented};
use crate::names::Names;
use crate::request::{
    IllFormed, Read, Request, hex_byte, hex_bytes, moment, number, who, words_of,
};
use crate::tokens::{LedgerRow, Token};

pub enum Event {
    Name(Request),
    /// A call of a DataNode at a moment.
    Data(u32, u64, Call),
    /// A node goes on with the recovery of a block at a stamp that it leads.
    Lead(u32, Going, u64, u64),
    /// The message of a number is delivered at a moment.
    Deliver(u64, u64),
}

/// How a node goes on with a recovery.
#[derive(Clone, Copy)]
pub enum Going {
    Decide,
    Commit,
}

fn node(word: &str) -> Read<u32> {
    let id = number(word).and_then(|id| u32::try_from(id).ok());
    id.filter(|id| *id > 0).ok_or(IllFormed::BadLine)
}

fn called_node(word: &str) -> Read<u32> {
    node(word.strip_prefix('@').ok_or(IllFormed::BadLine)?)
}

fn number_word(word: &str) -> Read<u64> {
    number(word).ok_or(IllFormed::BadLine)
}

fn next(word: &str) -> Read<Next> {
    let nodes = match word {
        "-" => None,
        word => Some(word.split(',').map(node).collect::<Read<_>>()?),
    };
    Ok(Next { nodes, passed: 0 })
}

fn repeated(count: &str, digits: &str) -> Option<Payload> {
    let [high, low] = digits.as_bytes() else {
        return None;
    };
    let byte = hex_byte(*high, *low)?;
    Some(Payload::Repeated(byte, number(count)?))
}

fn payload(word: &str) -> Read<Payload> {
    let read = match word.split_once('*') {
        Some((count, digits)) => repeated(count, digits),
        None => hex_bytes(word).map(Payload::Listed),
    };
    read.ok_or(IllFormed::BadLine)
}

/// The token of a row of the ledger.
fn token(ledger: &[LedgerRow], word: &str) -> Read<Token> {
    let row = word.strip_prefix('#').and_then(number);
    let index = row.and_then(|row| usize::try_from(row).ok()?.checked_sub(1));
    let row = index.and_then(|index| ledger.get(index));
    row.map(|row| Token::clone(&row.token))
        .ok_or(IllFormed::BadLine)
}

/// Whether a verb is that of a call, and has so many words.
fn is_call(verb: &str, words: &[&str]) -> bool {
    let count = match verb {
        "decide" | "commit" => 2,
        "begin" => 4,
        "packet" => 6,
        "finalize" | "read" => 5,
        _ => return false,
    };
    words.len() == count
}

/// What the words behind a verb and a stamp ask for, but for the token.
fn asked(verb: &str, words: &[&str]) -> Read<Asked> {
    Ok(match (verb, words) {
        ("begin", [to, _]) => Asked::Begin(next(to)?),
        ("packet", [offset, bytes, to, _]) => {
            Asked::Packet(number_word(offset)?, payload(bytes)?, next(to)?)
        }
        ("finalize", [length, to, _]) => Asked::Finalize(number_word(length)?, next(to)?),
        ("read", [offset, length, _]) => Asked::Read(number_word(offset)?, number_word(length)?),
        _ => return Err(IllFormed::BadLine),
    })
}

fn data_event(names: &mut Names, ledger: &[LedgerRow], words: &[&str]) -> Read<Event> {
    let [at, caller, to, verb, rest @ ..] = words else {
        return Err(IllFormed::BadLine);
    };
    if !is_call(verb, rest) {
        return Err(IllFormed::BadLine);
    }
    let [block, stamp, rest @ ..] = rest else {
        return Err(IllFormed::BadLine);
    };
    let at = moment(at)?;
    let caller = who(names, caller)?;
    let to = called_node(to)?;
    let block = number_word(block)?;
    let stamp = number_word(stamp)?;
    if let "decide" | "commit" = *verb {
        if names.node(caller) != Some(to) {
            return Err(IllFormed::BadLine);
        }
        let is_decision = *verb == "decide";
        let going = if is_decision {
            Going::Decide
        } else {
            Going::Commit
        };
        return Ok(Event::Lead(to, going, block, stamp));
    }
    let asked = asked(verb, rest)?;
    let token = token(ledger, words.last().ok_or(IllFormed::BadLine)?)?;
    let presented = Presented {
        caller,
        block,
        stamp,
        token,
    };
    Ok(Event::Data(to, at, Call { presented, asked }))
}

fn delivery(words: &[&str]) -> Read<Event> {
    let [at, _, _, message] = words else {
        return Err(IllFormed::BadLine);
    };
    let at = moment(at)?;
    Ok(Event::Deliver(number_word(message)?, at))
}

impl Event {
    /// What a line brings about, where these tokens were granted before.
    pub fn read(names: &mut Names, ledger: &[LedgerRow], line: &str) -> Read<Event> {
        let (words, count) = words_of(line).ok_or(IllFormed::BadLine)?;
        let words = &words[..count];
        match words {
            [_, _, third, ..] if third.starts_with('@') => data_event(names, ledger, words),
            [_, "-", "deliver", ..] => delivery(words),
            _ => Ok(Event::Name(Request::read(names, words)?)),
        }
    }
}
