//! SHA-1 (FIPS 180-4), and HMAC with it (RFC 2104) under a key whose two pads are digested once.

/// The five words of a digest.
type State = [u32; 5];

const FIRST: State = [
    0x6745_2301,
    0xefcd_ab89,
    0x98ba_dcfe,
    0x1032_5476,
    0xc3d2_e1f0,
];

/// The twenty rounds of a function and a constant.
#[inline(always)]
fn rounds(state: &mut State, words: &[u32], constant: u32, mixed: impl Fn(u32, u32, u32) -> u32) {
    let [mut a, mut b, mut c, mut d, mut e] = *state;
    let next = |a: u32, f: u32, e: u32, word: u32| {
        let sum = a.rotate_left(5).wrapping_add(f).wrapping_add(e);
        sum.wrapping_add(constant).wrapping_add(word)
    };
    for five in words.chunks_exact(5) {
        e = next(a, mixed(b, c, d), e, five[0]);
        b = b.rotate_left(30);
        d = next(e, mixed(a, b, c), d, five[1]);
        a = a.rotate_left(30);
        c = next(d, mixed(e, a, b), c, five[2]);
        e = e.rotate_left(30);
        b = next(c, mixed(d, e, a), b, five[3]);
        d = d.rotate_left(30);
        a = next(b, mixed(c, d, e), a, five[4]);
        c = c.rotate_left(30);
    }
    *state = [a, b, c, d, e];
}

/// A block of 64 bytes goes into a digest.
fn mix(state: &mut State, block: &[u8; 64]) {
    let mut words = [0; 80];
    for (word, bytes) in words.iter_mut().zip(block.chunks_exact(4)) {
        *word = u32::from_be_bytes(bytes.try_into().expect("four bytes"));
    }
    for i in 16..80 {
        words[i] = (words[i - 3] ^ words[i - 8] ^ words[i - 14] ^ words[i - 16]).rotate_left(1);
    }
    let mut own = *state;
    rounds(&mut own, &words[..20], 0x5a82_7999, |b, c, d| {
        d ^ b & (c ^ d)
    });
    rounds(&mut own, &words[20..40], 0x6ed9_eba1, |b, c, d| b ^ c ^ d);
    rounds(&mut own, &words[40..60], 0x8f1b_bcdc, |b, c, d| {
        b & c | d & (b | c)
    });
    rounds(&mut own, &words[60..], 0xca62_c1d6, |b, c, d| b ^ c ^ d);
    for (word, more) in state.iter_mut().zip(own) {
        *word = word.wrapping_add(more);
    }
}

/// The digest of a text behind so many bytes that went into the state already.
fn digest(mut state: State, before: usize, text: &[u8]) -> [u8; 20] {
    let mut chunks = text.chunks_exact(64);
    for chunk in &mut chunks {
        mix(&mut state, chunk.try_into().expect("64 bytes"));
    }
    let rest = chunks.remainder();
    let mut last = [0; 128];
    last[..rest.len()].copy_from_slice(rest);
    last[rest.len()] = 0x80;
    let end = if rest.len() < 56 { 64 } else { 128 };
    let bits = 8 * (before + text.len()) as u64;
    last[end - 8..end].copy_from_slice(&bits.to_be_bytes());
    for chunk in last[..end].chunks_exact(64) {
        mix(&mut state, chunk.try_into().expect("64 bytes"));
    }
    let mut sum = [0; 20];
    for (bytes, word) in sum.chunks_exact_mut(4).zip(state) {
        bytes.copy_from_slice(&word.to_be_bytes());
    }
    sum
}

fn padded(key: &[u8; 20], pad: u8) -> State {
    let mut block = [pad; 64];
    for (byte, own) in block.iter_mut().zip(key) {
        *byte ^= own;
    }
    let mut state = FIRST;
    mix(&mut state, &block);
    state
}

/// A key, as it stands at the head of both digests.
pub struct HmacKey {
    inner: State,
    outer: State,
}

impl HmacKey {
    pub fn new(key: &[u8; 20]) -> HmacKey {
        HmacKey {
            inner: padded(key, 0x36),
            outer: padded(key, 0x5c),
        }
    }

    pub fn code(&self, text: &[u8]) -> [u8; 20] {
        digest(self.outer, 64, &digest(self.inner, 64, text))
    }
}
