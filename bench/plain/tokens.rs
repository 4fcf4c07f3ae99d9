//! Block access tokens, version 1: the fields of a grant behind one another, and their HMAC-SHA1 under a key of the NameNode. A DataNode
//! judges them by the keys that it was sent.

use crate::names::Who;
use crate::sha1::HmacKey;
use std::hint::black_box;
use std::rc::Rc;
use std::time::{Duration, Instant};

/// How long a token serves, in milliseconds.
const LIFETIME: u64 = 36_000_000;

/// The first key of the NameNode, which has the serial number 1.
const FIRST_KEY: [u8; 20] = [0x0b; 20];

/// The greatest serial number is never given.
const LAST_SERIAL: u32 = u32::MAX;

/// How many bytes the code of a token is.
const CODE: usize = 20;

/// The modes of a token: one that lets its holder read, one that lets him write.
pub const READ: u8 = 1;
pub const WRITE: u8 = 2;

/// The bytes of a token.
pub type Token = Rc<[u8]>;

/// A key as DataNodes are told of it.
#[derive(Clone, Copy)]
pub struct IssuedKey {
    pub serial: u32,
    pub bytes: [u8; 20],
    pub expiry: Option<u64>,
}

impl IssuedKey {
    fn is_usable(&self, now: u64) -> bool {
        self.expiry.is_none_or(|expiry| expiry > now)
    }
}

/// The keys of the NameNode. The last is the one under which tokens are issued.
pub struct KeyRing {
    keys: Vec<IssuedKey>,
    current: HmacKey,
    /// The keys that serve up to a moment, and that moment.
    update: Rc<[IssuedKey]>,
    until: u64,
}

impl KeyRing {
    pub fn new() -> KeyRing {
        let first = IssuedKey {
            serial: 1,
            bytes: FIRST_KEY,
            expiry: None,
        };
        KeyRing {
            keys: vec![first],
            current: HmacKey::new(&FIRST_KEY),
            update: Rc::new([first]),
            until: u64::MAX,
        }
    }

    pub fn serial(&self) -> u32 {
        self.keys.last().expect("a key").serial
    }

    /// A new key is the current one from now on. Tells its serial number, if one is left.
    pub fn roll(&mut self, key: [u8; 20], now: u64) -> Option<u32> {
        let last = self.keys.last_mut().expect("a key");
        let serial = last.serial + 1;
        if serial == LAST_SERIAL {
            return None;
        }
        last.expiry = Some(now + LIFETIME);
        self.keys.push(IssuedKey {
            serial,
            bytes: key,
            expiry: None,
        });
        self.current = HmacKey::new(&key);
        self.renew(now);
        Some(serial)
    }

    fn renew(&mut self, now: u64) {
        let usable = self.keys.iter().filter(|key| key.is_usable(now));
        self.update = usable.copied().collect();
        let expiries = self.update.iter().filter_map(|key| key.expiry);
        self.until = expiries.min().unwrap_or(u64::MAX);
    }

    /// The keys that serve now.
    pub fn update(&mut self, now: u64) -> Rc<[IssuedKey]> {
        if now >= self.until {
            self.renew(now);
        }
        Rc::clone(&self.update)
    }

    /// The token by which a user may access a block from now on.
    pub fn token(&self, now: u64, user: &str, block: u64, modes: u8) -> Token {
        let mut text = Vec::with_capacity(23 + user.len() + CODE);
        text.push(1);
        text.extend_from_slice(&(now + LIFETIME).to_be_bytes());
        text.extend_from_slice(&self.serial().to_be_bytes());
        text.extend_from_slice(&block.to_be_bytes());
        text.push(modes);
        text.push(user.len() as u8);
        text.extend_from_slice(user.as_bytes());
        let code = self.current.code(&text);
        text.extend_from_slice(&code);
        text.into()
    }
}

/// A token that was granted, and the place of the entry that granted it.
#[allow(dead_code)]
pub struct LedgerRow {
    pub place: u64,
    pub user: Who,
    pub block: u64,
    pub modes: u8,
    pub expiry: u64,
    pub serial: u32,
    pub token: Token,
}

impl LedgerRow {
    pub fn expiry_at(now: u64) -> u64 {
        now + LIFETIME
    }
}

#[derive(Clone, Copy)]
pub enum TokenRefusal {
    Malformed,
    UnknownKey,
    CodeMismatch,
    Expired,
    WrongUser,
    WrongBlock,
    WrongMode,
}

/// What a token says, and its bytes before the code.
struct Body<'a> {
    expiry: u64,
    serial: u32,
    block: u64,
    modes: u8,
    user: &'a [u8],
    text: &'a [u8],
    code: &'a [u8],
}

fn split_number<const N: usize>(bytes: &[u8]) -> Option<([u8; N], &[u8])> {
    let (number, rest) = bytes.split_first_chunk()?;
    Some((*number, rest))
}

fn is_user(user: &[u8]) -> bool {
    let is_allowed = |byte: &u8| matches!(byte, b'!'..=b'~') && !matches!(byte, b':' | b',' | b'/');
    !user.is_empty() && user.iter().all(is_allowed)
}

impl Body<'_> {
    fn read(token: &[u8]) -> Option<Body<'_>> {
        let rest = token.strip_prefix(&[1])?;
        let (expiry, rest) = split_number(rest)?;
        let (serial, rest) = split_number(rest)?;
        let (block, rest) = split_number(rest)?;
        let [modes @ 1..=3, length, rest @ ..] = rest else {
            return None;
        };
        let (user, code) = rest.split_at_checked(usize::from(*length))?;
        if code.len() != CODE || !is_user(user) {
            return None;
        }
        Some(Body {
            expiry: u64::from_be_bytes(expiry),
            serial: u32::from_be_bytes(serial),
            block: u64::from_be_bytes(block),
            modes: *modes,
            user,
            text: &token[..token.len() - CODE],
            code,
        })
    }
}

/// Whether two codes are the same, in the same steps wherever they differ.
fn are_same(code: &[u8; CODE], other: &[u8]) -> bool {
    let differing = code.iter().zip(other).fold(0, |all, (a, b)| all | a ^ b);
    differing == 0
}

/// What is asked for with a token.
pub struct Access<'a> {
    pub now: u64,
    pub caller: &'a str,
    pub block: u64,
    pub mode: u8,
}

/// A key that a DataNode holds.
struct HeldKey {
    serial: u32,
    key: HmacKey,
    expiry: Option<u64>,
}

/// The keys that a DataNode holds, by their serial numbers.
#[derive(Default)]
pub struct KeyCache {
    keys: Vec<HeldKey>,
}

impl KeyCache {
    pub fn len(&self) -> usize {
        self.keys.len()
    }

    /// Keys that weren't known are held from now on, and of a known key an expiry is learned where none was.
    pub fn merge(&mut self, update: &[IssuedKey]) {
        for new in update {
            match self
                .keys
                .binary_search_by_key(&new.serial, |held| held.serial)
            {
                Ok(index) => {
                    let held = &mut self.keys[index];
                    held.expiry = held.expiry.or(new.expiry);
                }
                Err(index) => self.keys.insert(
                    index,
                    HeldKey {
                        serial: new.serial,
                        key: HmacKey::new(&new.bytes),
                        expiry: new.expiry,
                    },
                ),
            }
        }
    }

    pub fn drop_expired(&mut self, now: u64) {
        self.keys
            .retain(|held| held.expiry.is_none_or(|expiry| expiry > now));
    }

    /// Judges a token that is presented, by keys of which none has expired.
    pub fn check(&self, token: &[u8], access: &Access) -> Result<(), TokenRefusal> {
        let body = Body::read(token).ok_or(TokenRefusal::Malformed)?;
        let held = self.keys.iter().find(|held| held.serial == body.serial);
        let held = held.ok_or(TokenRefusal::UnknownKey)?;
        if !are_same(&held.key.code(body.text), body.code) {
            return Err(TokenRefusal::CodeMismatch);
        }
        if body.expiry <= access.now {
            return Err(TokenRefusal::Expired);
        }
        if body.user != access.caller.as_bytes() {
            return Err(TokenRefusal::WrongUser);
        }
        if body.block != access.block {
            return Err(TokenRefusal::WrongBlock);
        }
        if body.modes & access.mode != access.mode {
            return Err(TokenRefusal::WrongMode);
        }
        Ok(())
    }
}

/// Judges one token so many times, by a cache that holds its key and keeps nothing of it for the next time. The name is as long as makes a
/// token of 64 bytes before its code.
pub fn check_uncached(count: u32) -> Duration {
    let mut ring = KeyRing::new();
    let user = "0123456789-0123456789-0123456789-01234567";
    let token = ring.token(0, user, 1, READ);
    let mut cache = KeyCache::default();
    cache.merge(&ring.update(0));
    let access = Access {
        now: 0,
        caller: user,
        block: 1,
        mode: READ,
    };
    let start = Instant::now();
    for _ in 0..count {
        let judged = cache.check(black_box(&token), black_box(&access));
        assert!(judged.is_ok(), "the token isn't taken");
    }
    start.elapsed()
}
