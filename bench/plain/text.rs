//! The lines of workloads, spelled by the rules of `crates/bench_lines/src/text.rt`.

use crate::workload::{block_named, count_at};
use std::fmt::Write;

const WRITERS: u32 = 100;

/// How many bytes are listed.
const BYTES: u32 = 512;

/// A number below the bound, which jumps about from turn to turn (the mixing steps of SplitMix64).
fn jumping(turn: u32, bound: u32) -> u32 {
    let spread = (u64::from(turn) + 1).wrapping_mul(0x9e37_79b9_7f4a_7c15);
    let mixed = (spread ^ (spread >> 30)).wrapping_mul(0xbf58_476d_1ce4_e5b9);
    let mixed = (mixed ^ (mixed >> 27)).wrapping_mul(0x94d0_49bb_1331_11eb);
    ((mixed ^ (mixed >> 31)) % u64::from(bound)) as u32
}

/// A turn of a workload of a size.
#[derive(Clone, Copy)]
struct Turn {
    size: u32,
    number: u32,
}

/// The number whose path a mark is, and how many of the five names.
fn place(mark: &str, turn: Turn) -> (u32, u32) {
    let (size, number) = (turn.size, turn.number);
    let above = |names: u32| (number * 100_u32.pow(5 - names), names);
    match mark {
        "path" => (number, 5),
        "any" => (jumping(number * 2, size.max(1)), 5),
        "any_parent" => (jumping(number * 2, size.max(1)), 4),
        "other" => (jumping(number * 2 + 1, size.max(1)), 5),
        "earlier" => (jumping(number, number.max(1)), 5),
        "behind" => (size + number, 5),
        "level4" => above(4),
        "level3" => above(3),
        "level2" => above(2),
        "level1" => above(1),
        _ => panic!("no mark {mark}"),
    }
}

/// A number so many times, as a mark begins that has this letter, and what stands behind the plus sign.
fn times(mark: &str, letter: char, number: u32) -> Option<(u64, &str)> {
    let (times, rest) = mark.split_once(letter)?;
    let times: u64 = times.parse().ok()?;
    Some((u64::from(number) * times, rest.strip_prefix('+')?))
}

/// The number that a mark is which names two or three: the size so many times, if it does, the turn's number so many times, and so many
/// more.
fn counted(mark: &str, turn: Turn) -> Option<u64> {
    let (of_size, rest) = times(mark, 's', turn.size).unwrap_or((0, mark));
    let (of_turn, more) = times(rest, 'n', turn.number)?;
    let more: u64 = more.parse().ok()?;
    Some(of_size + of_turn + more)
}

fn push_bytes(text: &mut String, turn: u32) {
    for byte in 0..BYTES {
        write!(text, "{:02x}", turn.wrapping_add(byte) % 256).expect("memory");
    }
}

fn push_mark(text: &mut String, mark: &str, turn: Turn) {
    if let Some(number) = counted(mark, turn) {
        write!(text, "{number}").expect("memory");
        return;
    }
    match mark {
        "writer" => write!(text, "u{:02}", turn.number % WRITERS).expect("memory"),
        "bytes" => push_bytes(text, turn.number),
        _ => push_path(text, mark, turn),
    }
}

fn push_path(text: &mut String, mark: &str, turn: Turn) {
    let (number, names) = place(mark, turn);
    for name in 0..names {
        let digits = number / 100_u32.pow(4 - name) % 100;
        write!(text, "/d{digits:02}").expect("memory");
    }
}

fn push_turn(text: &mut String, lines: &str, turn: Turn) {
    for piece in lines.split('{') {
        match piece.split_once('}') {
            Some((mark, rest)) => {
                push_mark(text, mark, turn);
                text.push_str(rest);
            }
            None => text.push_str(piece),
        }
    }
}

/// The lines of the blocks of these names at a size.
pub fn text_of(names: &str, size: u32) -> String {
    let mut text = String::new();
    for name in names.split_whitespace() {
        let block = block_named(name).unwrap_or_else(|| panic!("no block {name}"));
        for number in 0..count_at(block.turns, size) {
            push_turn(&mut text, block.lines, Turn { size, number });
        }
    }
    text
}
