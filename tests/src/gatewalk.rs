//! Starts the program gatewalk, drawtrees or buychip, and sends a script down its
//! pipe.

use std::io::{self, ErrorKind, Read, Write};
use std::path::{Path, PathBuf};
use std::process::{Command, ExitStatus, Stdio};
use std::time::{Duration, Instant};
use std::{env, thread};

/// What gatewalk prints for a script.
pub fn walk(script: &[u8]) -> Vec<u8> {
    walk_slowly(|input| input.write_all(script))
}

/// What gatewalk prints for a script that `write` sends as it likes.
pub fn walk_slowly(write: impl FnOnce(&mut dyn Write) -> io::Result<()> + Send) -> Vec<u8> {
    output_of(program(), write)
}

/// What drawtrees prints for a script.
pub fn drawn(script: &[u8]) -> Vec<u8> {
    output_of(built("drawtrees"), |input| input.write_all(script))
}

/// What buychip prints for a script.
pub fn bought(script: &[u8]) -> Vec<u8> {
    output_of(built("buychip"), |input| input.write_all(script))
}

fn output_of(
    program: PathBuf,
    write: impl FnOnce(&mut dyn Write) -> io::Result<()> + Send,
) -> Vec<u8> {
    let mut child = Command::new(program)
        .stdin(Stdio::piped())
        .stdout(Stdio::piped())
        .spawn()
        .expect("the program starts");
    let mut input = child.stdin.take().expect("a pipe");
    let mut output = child.stdout.take().expect("a pipe");
    let mut printed = Vec::new();
    // Both pipes are served at once: either may be full.
    thread::scope(|scope| {
        scope.spawn(move || match write(&mut input) {
            // It may stop reading where the longest script ends.
            Err(error) if error.kind() != ErrorKind::BrokenPipe => panic!("{error}"),
            _ => {}
        });
        output.read_to_end(&mut printed).expect("what it prints");
    });
    let status = child.wait().expect("it was started");
    assert!(status.success(), "{status}");
    printed
}

/// How gatewalk ends, and what it says on standard error, on a script that it
/// may not be able to answer: its standard streams are changed by `streams` as
/// a shell has it, and its reader goes after `taken` bytes.
pub fn end(script: &[u8], streams: &str, taken: u64) -> (ExitStatus, String) {
    let mut child = Command::new("sh")
        .arg("-c")
        .arg(format!("exec \"$0\" {streams}"))
        .arg(program())
        .stdin(Stdio::piped())
        .stdout(Stdio::piped())
        .stderr(Stdio::piped())
        .spawn()
        .expect("a shell starts");
    let mut input = child.stdin.take().expect("a pipe");
    let mut output = child.stdout.take().filter(|_| taken > 0);
    match input.write_all(script) {
        Err(error) if error.kind() != ErrorKind::BrokenPipe => panic!("{error}"),
        _ => drop(input),
    }
    if let Some(output) = &mut output {
        let copied = io::copy(&mut output.take(taken), &mut io::sink());
        assert_eq!(copied.expect("what it prints"), taken);
    }
    drop(output);
    let start = Instant::now();
    let status = loop {
        if let Some(status) = child.try_wait().expect("it was started") {
            break status;
        }
        if start.elapsed() > Duration::from_secs(5) {
            child.kill().expect("it runs");
            panic!("gatewalk {streams} does not end");
        }
        thread::sleep(Duration::from_millis(1));
    };
    let mut said = String::new();
    let mut errors = child.stderr.take().expect("a pipe");
    errors.read_to_string(&mut said).expect("what it says");
    (status, said)
}

/// The program, or another in its place.
pub fn program() -> PathBuf {
    match env::var_os("LINDUVAR_GATEWALK") {
        Some(path) => there(PathBuf::from(path)),
        None => built("gatewalk"),
    }
}

/// A program of that name, as `rt run` and `rt ci` make it.
pub fn built(name: &str) -> PathBuf {
    let folder = Path::new(env!("CARGO_MANIFEST_DIR")).join("../crates");
    there(folder.join(name).join("out").join(name))
}

fn there(program: PathBuf) -> PathBuf {
    assert!(
        program.is_file(),
        "{} is missing; `samples/build` builds it",
        program.display()
    );
    program
}
