//! Checks what the documents cite. It fails where a path or a link leads to no file, where a name is not in the file that a sentence cites it from, where a
//! crate is missing from the README, and where a definition that a reader has to believe rests on a file of working words (specs/Inner*.antt).
//!
//!     rustc --edition 2021 -o /tmp/documents .ci/documents.rs && /tmp/documents
//!
//! A file is cited by its path in backquotes, without the leading `crates/` and without the ending: `topology/specs/Tree` is
//! crates/topology/specs/Tree.antt. A folder stands for the files with a fixed name in it: `topology/src` for lib.rt, `gatewalk/src` for main.rt,
//! `topology/proofs/read` for Invariants.antt and Answers.antt. Names are cited as "`a`, `b` in `topology/specs/Tree`", or as "`a` in [words](path)".

use std::fs;
use std::path::{Path, PathBuf};
use std::process::exit;

fn main() {
    let mut faults = Vec::new();
    for document in files(Path::new("."), &["md"]) {
        check_document(&document, &mut faults);
    }
    check_crates(&mut faults);
    for file in files(Path::new("crates"), &["antt", "rt"]) {
        check_words(&file, &mut faults);
    }
    for fault in &faults {
        println!("{fault}");
    }
    if !faults.is_empty() {
        exit(1);
    }
}

/// All files below a folder that end in one of the extensions, without what is built.
fn files(folder: &Path, extensions: &[&str]) -> Vec<PathBuf> {
    let mut found = Vec::new();
    for entry in fs::read_dir(folder).expect("a folder that is there") {
        let path = entry.expect("an entry of a folder").path();
        let name = path.file_name().unwrap_or_default().to_string_lossy();
        let is_built = name == "target" || name == "out";
        if path.is_dir() && !is_built && !name.starts_with(".git") {
            found.extend(files(&path, extensions));
        } else if extensions
            .iter()
            .any(|end| name.ends_with(&format!(".{end}")))
        {
            found.push(path);
        }
    }
    found.sort();
    found
}

fn read(path: &Path) -> String {
    fs::read_to_string(path).unwrap_or_else(|error| panic!("{}: {error}", path.display()))
}

/// Whether a document is a note: docs/PORT.md, docs/DESIGN-PASS.md or one in docs/changes. Notes name files as they were then.
fn is_note(document: &Path) -> bool {
    document.starts_with("./docs/changes")
        || document.ends_with("docs/PORT.md")
        || document.ends_with("docs/DESIGN-PASS.md")
}

/// Backquotes divide a document, so that every second piece is a code span. Of a note only the links are checked, and of docs/DESIGN-PASS.md not the
/// number of backquotes in a line, since the code in its fenced blocks has odd ones.
fn check_document(document: &Path, faults: &mut Vec<String>) {
    let text = read(document);
    let pieces: Vec<&str> = text.split('`').collect();
    let is_note = is_note(document);
    let has_code_blocks = document.ends_with("docs/DESIGN-PASS.md");
    for (index, line) in text.lines().enumerate() {
        if !has_code_blocks && line.matches('`').count() % 2 == 1 {
            let place = index + 1;
            faults.push(format!(
                "{}:{place}: an odd number of backquotes",
                document.display()
            ));
        }
    }
    let mut line = 1;
    for (at, piece) in pieces.iter().enumerate() {
        let mut fault = |lines_down: usize, words: String| {
            let place = line + lines_down;
            faults.push(format!("{}:{place}: {words}", document.display()));
        };
        if at % 2 == 1 && is_path(piece) && !is_note {
            let names = names(pieces[at - 1].trim() == "in", &pieces[..at - 1]);
            let missing = file_of(piece).and_then(|file| all_stand_in(&names, &file));
            missing.unwrap_or_else(|words| fault(0, words));
        }
        for (end, _) in piece.match_indices(']').filter(|_| at % 2 == 0) {
            let cites = piece.trim_start().starts_with("in [") && !piece[..end].contains(']');
            let names = names(cites, &pieces[..at]);
            let missing = match link_at(document, piece, end) {
                Ok(Some(file)) => all_stand_in(&names, &file),
                other => other.map(|_| ()),
            };
            missing.unwrap_or_else(|words| fault(piece[..end].matches('\n').count(), words));
        }
        line += piece.matches('\n').count();
    }
}

/// Whether a code span is a path of the repository: it has a `/` and no blank, and begins with a crate or with a folder of the repository, but not with
/// target/, and is not of a folder out/, which is built too. What goes on like a crate's path is one too, so that a crate that is not there is noticed.
fn is_path(span: &str) -> bool {
    let parts: Vec<&str> = span.split('/').collect();
    let in_crate = ["src", "specs", "proofs", "must-fail"];
    parts.len() > 1
        && !span.contains(char::is_whitespace)
        && !["", "..", "target"].contains(&parts[0])
        && !parts.contains(&"out")
        && (Path::new(parts[0]).is_dir()
            || Path::new("crates").join(parts[0]).is_dir()
            || in_crate.contains(&parts[1]))
}

/// The one file, or folder, that a path in a code span means.
fn file_of(span: &str) -> Result<PathBuf, String> {
    let endings = ["", ".antt", ".rt", ".rs", ".edit"];
    let found: Vec<PathBuf> = ["", "crates/"]
        .iter()
        .flat_map(|front| endings.map(|ending| PathBuf::from(format!("{front}{span}{ending}"))))
        .filter(|path| path.exists())
        .collect();
    match found.as_slice() {
        [path] => Ok(path.clone()),
        [] => Err(format!("`{span}` is not there")),
        _ => Err(format!("`{span}` is the path of more than one file")),
    }
}

/// Where the link leads whose words end at an index of a text. A link out of the repository leads to none of its files.
fn link_at(document: &Path, text: &str, end: usize) -> Result<Option<PathBuf>, String> {
    let words = text[..end].rsplit('[').next().unwrap_or("");
    let Some((path, _)) = text[end + 1..]
        .strip_prefix('(')
        .and_then(|rest| rest.split_once(')'))
    else {
        return if words.contains('/') {
            Err(format!("[{words}] has no path"))
        } else {
            Ok(None)
        };
    };
    let path = path.split('#').next().unwrap_or("");
    let target = document.with_file_name("").join(path);
    if path.is_empty() || path.starts_with("http") {
        Ok(None)
    } else if target.exists() {
        Ok(Some(target))
    } else {
        Err(format!("{path} is not there"))
    }
}

/// The names in "`a`, `b` and `c`" at the end of the pieces of a text, if they are cited from a file.
fn names<'a>(cites: bool, pieces: &[&'a str]) -> Vec<&'a str> {
    let is_name = |span: &str| !is_path(span) && !span.contains(char::is_whitespace);
    let mut names = Vec::new();
    let mut goes_on = cites;
    for pair in pieces.rchunks_exact(2) {
        if !goes_on || !is_name(pair[1]) {
            break;
        }
        names.push(pair[1]);
        goes_on = [",", "and", ", and"].contains(&pair[0].trim());
    }
    names
}

/// All of the names stand in a file.
fn all_stand_in(names: &[&str], file: &Path) -> Result<(), String> {
    if names.is_empty() {
        return Ok(());
    }
    let fixed = ["lib.rt", "main.rt", "Invariants.antt", "Answers.antt"];
    let parts: Vec<PathBuf> = match file.is_dir() {
        true => fixed.iter().map(|name| file.join(name)).collect(),
        false => vec![file.to_path_buf()],
    };
    let texts: Vec<String> = parts
        .iter()
        .filter(|part| part.exists())
        .map(|part| without_imports(&read(part)))
        .collect();
    if texts.is_empty() {
        return Err(format!(
            "`{}` is cited from a folder, {}",
            names[0],
            file.display()
        ));
    }
    let text = texts.join("\n");
    match names.iter().find(|name| !stands_in(name, &text)) {
        Some(name) => Err(format!("`{name}` is not in {}", file.display())),
        None => Ok(()),
    }
}

/// The lines of a file that import nothing, so that a name is found only where it is defined or used.
fn without_imports(text: &str) -> String {
    let imports = |line: &&str| line.starts_with("use ") || line.starts_with("ghost use ");
    text.lines()
        .filter(|line| !imports(line))
        .collect::<Vec<_>>()
        .join("\n")
}

/// Whether a name stands in a text as a whole word.
fn stands_in(name: &str, text: &str) -> bool {
    let inside = |c: char| c.is_alphanumeric() || c == '_' || c == '-';
    text.match_indices(name).any(|(at, _)| {
        let before = text[..at].chars().next_back();
        let after = text[at + name.len()..].chars().next();
        !before.is_some_and(inside) && !after.is_some_and(inside)
    })
}

/// Every crate has its place in the README.
fn check_crates(faults: &mut Vec<String>) {
    let readme = read(Path::new("README.md"));
    for line in read(Path::new("crates.txt")).lines() {
        let name = line.split([' ', ':']).next().unwrap_or("");
        if !line.starts_with('#') && !readme.contains(&format!("`{name}`")) {
            faults.push(format!("README.md: the crate `{name}` is missing"));
        }
    }
}

/// A definition that is believed, and the contract of a public function, use no name of a file specs/Inner*.antt.
fn check_words(file: &Path, faults: &mut Vec<String>) {
    let path = file.to_string_lossy().to_string();
    let text = read(file);
    let inner = text.lines().filter(|line| line.contains(".specs.Inner"));
    if path.contains("/specs/") && !path.contains("/specs/Inner") {
        faults.extend(inner.map(|line| format!("{path}: {line}")));
        return;
    }
    let names: Vec<&str> = inner
        .filter_map(|line| line.split_once('{')?.1.split_once('}'))
        .flat_map(|(names, _)| names.split(", "))
        .collect();
    let plain = text.split("\npub fn ").skip(1);
    let exported = text.split("\npub extern \"C\" fn ").skip(1);
    for contract in plain
        .chain(exported)
        .filter_map(|function| function.split("\n{\n").next())
    {
        for name in names
            .iter()
            .filter(|name| path.ends_with(".rt") && stands_in(name, contract))
        {
            faults.push(format!(
                "{path}: a public contract uses `{name}` of a file of working words"
            ));
        }
    }
}
