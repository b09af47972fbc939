//! The worked table of docs/DISCIPLINES.md: packets pushed in turn to the leaves
//! of a weighted root, and then popped.

use std::fs;
use std::path::Path;

const HEADER: &str = "| packet | leaf | length | start | finish | leaves as |";

/// A packet, what Figure 1 gives it, and its place among those that leave.
#[derive(Clone, Debug)]
pub struct Row {
    pub packet: u32,
    pub leaf: usize,
    pub length: u16,
    pub start: u64,
    pub finish: u64,
    pub place: usize,
}

/// The rows of the table; below its header stands a line of dashes.
pub fn rows() -> Vec<Row> {
    let page = Path::new(env!("CARGO_MANIFEST_DIR")).join("../docs/DISCIPLINES.md");
    let text = fs::read_to_string(&page).unwrap_or_else(|error| {
        panic!("{}: {error}", page.display());
    });
    let mut lines = text.lines().skip_while(|line| *line != HEADER).skip(2);
    let rows: Vec<Row> = lines
        .by_ref()
        .take_while(|line| line.starts_with('|'))
        .map(row)
        .collect();
    assert!(!rows.is_empty(), "no table in {}", page.display());
    rows
}

fn row(line: &str) -> Row {
    let cells = line.trim_matches('|').split('|');
    let numbers: Vec<u64> = cells
        .map(|cell| cell.trim().replace(',', ""))
        .map(|cell| cell.parse().unwrap_or_else(|_| panic!("{cell}: {line}")))
        .collect();
    let [packet, leaf, length, start, finish, place] = numbers[..] else {
        panic!("six numbers, and not {line}");
    };
    Row {
        packet: packet as u32,
        leaf: leaf as usize,
        length: length as u16,
        start,
        finish,
        place: place as usize,
    }
}
