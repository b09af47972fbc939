//! How many copies of more than 2 KB a call makes. Unlike a time, a count has
//! no noise.
//!
//! What is counted runs in a process of its own, under the library of copies.c,
//! and again with twice as many calls: the difference is theirs alone. Rattle's
//! compiler makes a copy of that size a call of memcpy or memmove; a loop that
//! moves entries one by one is not counted.

use crate::queue_tree::{Filled, STATE};
use crate::scheduler::Weighted;
use linduvar_tests::commands::{opening, push, step, POP};
use linduvar_tests::queue_tree::MOST_PACKETS;
use linduvar_tests::random::Random;
use linduvar_tests::{gatewalk, script};
use std::env;
use std::io::Write;
use std::path::{Path, PathBuf};
use std::process::{Command, Stdio};

const CALLS: usize = 100;

pub fn run() {
    println!("copies of more than 2 KB, and their bytes over the {STATE} of a state:");
    let library = library();
    rounds(&library);
    commands(&library);
}

/// A pop and a push of the queue tree alone, or with disciplines and to a leaf
/// or by path, in a process that runs `run_rounds` alone.
fn rounds(library: &Path) {
    for push in ["push", "push to a leaf", "push by path"] {
        for (depth, packets) in [(1, 1), (8, MOST_PACKETS)] {
            report(
                &format!("pop and {push}, depth {depth}, {packets:3} held"),
                |rounds| {
                    let arguments = [depth, packets, rounds].map(|number| number.to_string());
                    let mut program = Command::new(this_program());
                    count(program.arg(push).args(arguments), &[], library).0
                },
            );
        }
    }
}

/// The rounds that the arguments of such a process ask for.
pub fn run_rounds(arguments: &[String]) {
    let [push, depth, packets, rounds] = arguments else {
        panic!("a push, a depth, the packets held and the rounds, or nothing at all");
    };
    let number = |text: &String| -> usize { text.parse().expect("a number") };
    let (depth, packets, rounds) = (number(depth), number(packets), number(rounds) as u32);
    match push.as_str() {
        "push" => _ = Filled::new(depth, packets, &mut Random::new(1)).rounds(rounds),
        "push to a leaf" => _ = Weighted::new(depth, packets).rounds(rounds),
        "push by path" => _ = Weighted::new(depth, packets).path_rounds(rounds),
        _ => panic!("no such push: {push}"),
    }
}

/// The commands of a script over two trees of one node.
fn commands(library: &Path) {
    let empty = |limit: usize| opening(&[0], &[0], limit).concat();
    let push = push(1, 1);
    let full = [empty(1), push.clone()].concat();
    let filled = [empty(MOST_PACKETS), push.repeat(2 * CALLS)].concat();
    let astray = [step(1, 1), push.clone()].concat();
    for (name, start, command, answer) in [
        ("script: push", empty(MOST_PACKETS), push.clone(), "in "),
        ("script: pop", filled, vec![POP], "out "),
        (
            "script: pop of an empty tree",
            empty(1),
            vec![POP],
            "no 16 ",
        ),
        ("script: push to a full tree", full, push, "no 15 "),
        (
            "script: step and push, refused by 13",
            empty(1),
            astray,
            "no 13 ",
        ),
    ] {
        report(name, |calls| {
            let script = [start.clone(), command.repeat(calls)].concat();
            let mut program = Command::new(gatewalk::program());
            let (copies, printed) = count(&mut program, &script, library);
            assert_eq!(printed, script::run(&script));
            let printed = String::from_utf8(printed).expect("plain text");
            let mut answers = printed.lines().rev().take(calls);
            assert!(answers.all(|line| line.starts_with(answer)), "{printed}");
            copies
        });
    }
}

struct Copies {
    number: usize,
    bytes: usize,
}

/// Says what one call copies, where `count` counts a run of some calls.
fn report(what: &str, count: impl Fn(usize) -> Copies) {
    let (once, twice) = (count(CALLS), count(2 * CALLS));
    let each = |once: usize, twice: usize| (twice - once) as f64 / CALLS as f64;
    let bytes = each(once.bytes, twice.bytes);
    println!(
        "{what:41} {:6.2} copies, {bytes:7.0} bytes, {:6.2} states",
        each(once.number, twice.number),
        bytes / STATE as f64
    );
}

/// What a program copies, and what it prints.
fn count(program: &mut Command, input: &[u8], library: &Path) -> (Copies, Vec<u8>) {
    let mut child = program
        .env("LD_PRELOAD", library)
        .stdin(Stdio::piped())
        .stdout(Stdio::piped())
        .stderr(Stdio::piped())
        .spawn()
        .expect("the program starts");
    let mut pipe = child.stdin.take().expect("a pipe");
    pipe.write_all(input).expect("the program reads");
    drop(pipe);
    let output = child.wait_with_output().expect("it was started");
    let said = String::from_utf8(output.stderr).expect("plain text");
    assert!(output.status.success(), "{said}");
    let number = |text: &str| text.parse().expect("a number");
    let numbers: Vec<usize> = said.split_whitespace().map(number).collect();
    let [number, bytes] = numbers[..] else {
        panic!("two counts, and not {said}");
    };
    (Copies { number, bytes }, output.stdout)
}

/// The library, compiled beside this program.
fn library() -> PathBuf {
    let library = this_program().with_file_name("copies.so");
    let mut gcc = Command::new("gcc")
        .args(["-O0", "-shared", "-fPIC", "-x", "c", "-", "-o"])
        .arg(&library)
        .stdin(Stdio::piped())
        .spawn()
        .expect("gcc starts");
    let mut pipe = gcc.stdin.take().expect("a pipe");
    let source = include_bytes!("copies.c");
    pipe.write_all(source).expect("gcc reads");
    drop(pipe);
    let status = gcc.wait().expect("it was started");
    assert!(status.success(), "{status}");
    library
}

fn this_program() -> PathBuf {
    env::current_exe().expect("this program has a path")
}
