//! Runs the program gatewalk and the second implementation on the same
//! scripts and compares all that they print. The first difference ends the run.

use linduvar_tests::commands::{opening, push, step, POP};
use linduvar_tests::gatewalk::{built, end, program, walk, walk_slowly};
use linduvar_tests::paper::text;
use linduvar_tests::random::{seeded, Random};
use linduvar_tests::reached::Reached;
use linduvar_tests::script::{run, run_before_wide, SCRIPT_BYTES};
use linduvar_tests::scripts::{self, LONG_KINDS};
use linduvar_tests::{laborious, paper, samples};
use std::fs::File;
use std::panic::resume_unwind;
use std::process::Command;
use std::thread;
use std::time::{Duration, Instant};

const RANDOM_SCRIPTS: u64 = 6_000;
const LONG_SCRIPTS: u64 = 60;

/// A script that takes longer fails; what is aimed at is `AIM`.
const SECONDS: f64 = 20.0;
const AIM: f64 = 2.0;

fn main() {
    seeded(|seed| {
        paper::check(walk);
        samples::check(walk);
        byte_by_byte();
        ten_megabytes();
        lost_streams();
        crowded_drawings();
        laborious_scripts();
        every_limit(seed);
        random_scripts(seed);
    });
}

/// Compares, and names the script where they differ. A script that reaches neither
/// 09 nor 0A prints what it printed before there were such commands.
fn compare(what: &str, script: &[u8]) {
    let (rattle, rust) = (walk(script), run(script));
    let (before, reaches_wide) = run_before_wide(script);
    assert!(reaches_wide || rattle == before, "{what}: {script:02X?}");
    if rattle != rust {
        let lines = |bytes: &[u8]| -> Vec<String> {
            let text = String::from_utf8_lossy(bytes);
            text.lines().map(str::to_string).collect()
        };
        let (rattle, rust) = (lines(&rattle), lines(&rust));
        let at = rattle.iter().zip(&rust).take_while(|(a, b)| a == b).count();
        panic!(
            "a difference: {what}\n  script {script:02X?}\n  line {at} (from 0)\n  Rattle {:?}\n  Rust   {:?}",
            rattle.get(at),
            rust.get(at)
        );
    }
}

/// A pipe that gives one byte at a time.
fn byte_by_byte() {
    let printed = walk_slowly(|input| {
        for byte in paper::EXAMPLE {
            input.write_all(&[byte])?;
            input.flush()?;
            thread::sleep(Duration::from_millis(1));
        }
        Ok(())
    });
    assert_eq!(printed, paper::EXAMPLE_OUTPUT.as_bytes());
    println!("byte by byte: as at once");
}

/// Ten megabytes: of steps and pushes, of pops, of zeros.
fn ten_megabytes() {
    const LENGTH: usize = 10_000_000;
    let opened = opening(&[1, 0], &[1, 1, 0], 3).concat();
    let turns = [step(1, 1), push(1, 1), vec![POP]].concat();
    for repeated in [turns, vec![POP], vec![0]] {
        let mut script = opened.clone();
        while script.len() < LENGTH {
            script.extend(&repeated);
        }
        compare("ten megabytes", &script);
    }
    println!("ten megabytes: the first {SCRIPT_BYTES} bytes count");
}

/// Without input, or with output that cannot be written, gatewalk ends all the
/// same, and says so; also where its reader goes, since the start of a program
/// in Rattle ignores the signal for that.
fn lost_streams() {
    const LOST: &str = "cannot write all of the output\n";
    const UNREAD: &str = "cannot read all of the input\n";
    let long = [opening(&[0], &[0], 1).concat(), vec![POP; 60_000]].concat();
    for script in [&paper::EXAMPLE[..], &long] {
        for (streams, says) in [
            ("", LOST),
            ("<&-", UNREAD),
            ("</", UNREAD),
            (">&-", LOST),
            ("<&- >&-", UNREAD),
            (">/dev/full", LOST),
        ] {
            let (status, said) = end(script, streams, 0);
            assert!(status.success(), "{streams}");
            assert_eq!(said, says, "{streams}");
        }
    }
    let (status, said) = end(&long, "", 1_000);
    assert!(status.success());
    assert_eq!(said, LOST);
    assert!(end(&[], "", 0).0.success());
    for name in ["gatewalk", "drawtrees", "buychip", "readtree"] {
        let program = match name {
            "gatewalk" => program(),
            _ => built(name),
        };
        let folder = File::open("/").expect("the root folder");
        let output = Command::new(program).stdin(folder).output().expect(name);
        assert!(
            output.status.success() && output.stdout.is_empty(),
            "{name}"
        );
        assert_eq!(text(output.stderr), UNREAD, "{name}");
    }
    println!("streams that are closed, full, a folder or without a reader: it ends, and says so");
}

fn crowded_drawings() {
    for script in scripts::crowded() {
        compare("a crowded drawing", &script);
    }
    println!("crowded drawings: no difference");
}

fn laborious_scripts() {
    println!("the most laborious scripts (the aim is {AIM} s):");
    for (name, script) in laborious::scripts() {
        assert!(script.len() <= SCRIPT_BYTES);
        let start = Instant::now();
        let printed = walk(&script);
        let seconds = start.elapsed().as_secs_f64();
        assert_eq!(printed, run(&script), "{name}");
        let note = if seconds > AIM { ", over the aim" } else { "" };
        println!(
            "  {name:36} {seconds:6.3} s, {} bytes printed{note}",
            printed.len()
        );
        assert!(seconds < SECONDS, "{name} took {seconds} s");
    }
}

/// Whole lists of calls at each limit.
fn every_limit(seed: u64) {
    let mut random = Random::new(seed);
    for limit in 1..=256 {
        compare("a list of calls", &scripts::at_limit(limit, &mut random));
    }
    println!("lists of calls at each limit: no difference");
}

/// Random scripts, shared among as many threads as there are processors.
fn random_scripts(seed: u64) {
    let threads = thread::available_parallelism().map_or(1, |threads| threads.get()) as u64;
    let start = Instant::now();
    let mut reached = Reached::new();
    thread::scope(|scope| {
        let workers: Vec<_> = (0..threads)
            .map(|first| scope.spawn(move || some_scripts(seed, first, threads)))
            .collect();
        for worker in workers {
            reached.add(worker.join().unwrap_or_else(|panic| resume_unwind(panic)));
        }
    });
    reached.print();
    println!("{:.1} s", start.elapsed().as_secs_f64());
    reached.require_everything();
}

/// Every `stride`th of the random scripts.
fn some_scripts(seed: u64, first: u64, stride: u64) -> Reached {
    let mut reached = Reached::new();
    for number in (first..RANDOM_SCRIPTS).step_by(stride as usize) {
        let mut random = Random::new(seed.wrapping_add(number));
        let (kind, script) = scripts::any(&mut random);
        compare(kind, &script);
        reached.script(kind, &script);
    }
    for number in (first..LONG_SCRIPTS).step_by(stride as usize) {
        let mut random = Random::new(seed.wrapping_add(number));
        let kind = LONG_KINDS[number as usize % LONG_KINDS.len()];
        let script = scripts::over_long(kind, &mut random);
        compare(kind, &script);
        reached.script(kind, &script);
    }
    reached
}
