//! `plain NAME N` does a workload of `hdfs_bench` in plain Rust, and prints the same line, `NAME N OPS_PER_SECOND`: the mark that
//! the proved namesystem is measured by. Build it with `rustc --edition 2024 -O`.
//!
//! Both programs read the workloads from one file, spell the same lines, and print the same answers (`plain NAME N script` and
//! `plain NAME N answers` show them; `tools/compare-bench` compares them). What is timed is the same too: each line is read, its
//! request is stepped, with its entry in the history, or its call of a DataNode or its delivery of a message is, and the answer is printed,
//! into memory. `plain - < SCRIPT` prints what a script of a cluster is answered.
//!
//! It is written for speed, with nothing proved: a path is one allocation, users and groups are numbers, nodes stand in one vector,
//! a request moves into the history, and an answer is printed from its entry. A message is found by its number as an index, a payload that
//! is passed on is shared and not copied, a token is shared by the ledger, the calls that present it and the logs, and a DataNode keeps its
//! keys as they stand at the head of both digests. It does less in these ways: it has only the verbs of the workloads and of the stored
//! scripts of clusters, of `setfacl` two forms and no default lists, it keeps no list of the events beside the history, the messages and the
//! logs, and it aborts for want of memory.

mod access_list;
mod answer;
mod blocks;
mod calls;
mod cluster;
mod data_node;
mod event;
mod file_verbs;
mod leases;
mod name_node;
mod names;
mod node_answer;
mod plans;
mod recoveries;
mod request;
mod session;
mod sha1;
mod text;
mod tokens;
mod tree;
#[path = "../../crates/bench_lines/src/workload.rt"]
mod workload;

use session::Session;
use std::io::{self, Write};
use std::mem;
use std::process::ExitCode;
use std::time::{Duration, Instant};
use text::text_of;
use workload::{WORKLOADS, Workload, count_at, workload_named};

/// The exit status for a fault of the command line.
const BAD_COMMAND_LINE: u8 = 2;

/// Whether the answer in a line of output, behind its number, is `ok`.
fn is_ok(line: &str) -> bool {
    let answer = line.split_once(' ').map_or("", |(_, answer)| answer);
    answer == "ok" || answer.starts_with("ok ")
}

/// Runs the lines that prepare and those that are timed, and tells how long the latter took.
fn run(session: &mut Session, before: &str, timed: &str) -> Duration {
    session.run_more(before);
    let start = Instant::now();
    session.run_more(timed);
    let taken = start.elapsed();
    let count = session.output().lines().filter(|line| is_ok(line)).count();
    assert_eq!(
        count,
        before.lines().count() + timed.lines().count(),
        "a line isn't answered ok"
    );
    taken
}

/// How many operations the timed lines of a workload are.
fn operations(workload: Workload, size: u32, timed: &str) -> u128 {
    match workload.operations {
        "lines" => timed.lines().count() as u128,
        count => count_at(count, size).into(),
    }
}

fn print(text: &str) -> io::Result<()> {
    io::stdout().lock().write_all(text.as_bytes())
}

fn show(name: &str, workload: Workload, size: u32, shown: &str) -> io::Result<()> {
    let before = text_of(workload.before, size);
    let timed = text_of(workload.timed, size);
    if shown == "script" {
        print(&before)?;
        return print(&timed);
    }
    let mut session = Session::open();
    let taken = run(&mut session, &before, &timed);
    if shown == "answers" {
        print(session.output())?;
    } else {
        let operations = operations(workload, size, &timed);
        let rate = operations * 1_000_000_000 / taken.as_nanos().max(1);
        println!("{name} {size} {rate}");
    }
    // what it holds needn't be given back
    mem::forget(session);
    Ok(())
}

fn first_word(line: &str) -> Option<&str> {
    line.split(' ').next()
}

/// A workload of a size, with its name, and what is shown of it.
fn asked<'a>(words: &[&'a str]) -> Option<(&'a str, Workload, u32, &'a str)> {
    let (name, size, shown) = match words {
        [_, name, size] => (name, size, "rate"),
        [_, name, size, shown @ ("script" | "answers")] => (name, size, *shown),
        _ => return None,
    };
    Some((name, workload_named(name)?, size.parse().ok()?, shown))
}

/// The workload that is no script.
const CHECK_TOKEN: &str = "check_token_uncached";

fn tokens_asked(words: &[&str]) -> Option<u32> {
    match words {
        [_, name, count] if *name == CHECK_TOKEN => count.parse().ok(),
        _ => None,
    }
}

fn show_tokens(count: u32) {
    let taken = tokens::check_uncached(count);
    let rate = u128::from(count) * 1_000_000_000 / taken.as_nanos().max(1);
    println!("{CHECK_TOKEN} {count} {rate}");
}

fn run_input() -> io::Result<()> {
    let mut session = Session::open();
    session.run_more(&io::read_to_string(io::stdin())?);
    print(session.output())
}

fn main() -> io::Result<ExitCode> {
    let words: Vec<String> = std::env::args().collect();
    let words: Vec<&str> = words.iter().map(String::as_str).collect();
    if let [_, "-"] = words[..] {
        run_input()?;
        return Ok(ExitCode::SUCCESS);
    }
    if let Some(count) = tokens_asked(&words) {
        show_tokens(count);
        return Ok(ExitCode::SUCCESS);
    }
    let Some((name, workload, size, shown)) = asked(&words) else {
        let names: Vec<&str> = WORKLOADS.lines().filter_map(first_word).collect();
        eprintln!(
            "usage: plain NAME N [script|answers], with a NAME of: {} {CHECK_TOKEN}",
            names.join(" ")
        );
        return Ok(ExitCode::from(BAD_COMMAND_LINE));
    };
    show(name, workload, size, shown)?;
    Ok(ExitCode::SUCCESS)
}
