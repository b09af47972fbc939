//! The scripts in `samples/`: hex bytes with comments, and after `=>` in a
//! comment the line that is printed there.

use crate::paper::text;
use std::fs;
use std::path::{Path, PathBuf};

pub struct Sample {
    pub script: Vec<u8>,
    /// The lines that its comments promise.
    pub promised: String,
}

pub fn folder() -> PathBuf {
    Path::new(env!("CARGO_MANIFEST_DIR")).join("../samples")
}

pub fn read(path: &Path) -> Sample {
    let text = fs::read_to_string(path).unwrap_or_else(|error| {
        panic!("{}: {error}", path.display());
    });
    let mut sample = Sample {
        script: Vec::new(),
        promised: String::new(),
    };
    for line in text.lines() {
        let (bytes, comment) = line.split_once('#').unwrap_or((line, ""));
        for byte in bytes.split_whitespace() {
            let byte = u8::from_str_radix(byte, 16).expect("a byte in hex");
            sample.script.push(byte);
        }
        if let Some((_, promised)) = comment.split_once("=> ") {
            sample.promised += promised;
            sample.promised += "\n";
        }
    }
    sample
}

/// Each sample prints what its comments say, and one of a refusal has the number
/// that it is named for in its last line.
pub fn check(run: impl Fn(&[u8]) -> Vec<u8>) {
    let mut refusals = 0;
    for path in all() {
        let sample = read(&path);
        let printed = text(run(&sample.script));
        assert_eq!(printed, sample.promised, "{}", path.display());
        let name = path.file_stem().and_then(|name| name.to_str());
        if let Some(number) = name.and_then(|name| name.parse::<u8>().ok()) {
            let last = printed.lines().last().expect("a line");
            let expected = format!("no {number} ");
            assert!(last.starts_with(&expected), "{}: {last}", path.display());
            refusals += 1;
        }
    }
    println!("samples: as they say, {refusals} refusals");
}

/// The scripts in `samples/`, and those of refusals.
pub fn all() -> Vec<PathBuf> {
    let files = |folder: PathBuf| {
        let files = fs::read_dir(&folder).unwrap_or_else(|error| {
            panic!("{}: {error}", folder.display());
        });
        files.map(|file| file.expect("a file").path())
    };
    let mut samples: Vec<PathBuf> = files(folder())
        .chain(files(folder().join("refusals")))
        .filter(|path| path.extension().is_some_and(|kind| kind == "hex"))
        .collect();
    samples.sort();
    samples
}
