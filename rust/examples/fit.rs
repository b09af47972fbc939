//! A drawing fitted to a chip: the least map or why there is none, a path carried
//! over, and packets sent through both trees by their disciplines. examples/c/fit.c
//! does the same in C.

use linduvar::chip::{self, Behind};
use linduvar::{layout, maps, tree, PairOpened, Path, Rule, Step, LAYOUT};
use linduvar::{ARRIVAL, MAX_SOURCE_NODES, MAX_TARGET_NODES, STACK_BYTES, WEIGHTED};
use linduvar::{LACKS_DEPTH, LACKS_LEAVES};
use std::process::exit;
use std::thread;

/// The root has three children: the roses, the glasshouses with two children of
/// their own (palms and orchids), and the gate.
const GARDEN: [u8; 6] = [3, 0, 2, 0, 0, 0];
const ROSES: usize = 1;
const GLASSHOUSES: usize = 2;
const PALMS: usize = 3;
const ORCHIDS: usize = 4;
const GATE: usize = 5;
/// A hut with one course: two nodes with one child each, which the map passes
/// over.
const HUT: [u8; 3] = [1, 1, 0];
const FIVE_COURSES: [u8; 6] = [5, 0, 0, 0, 0, 0];
/// Four leaves, and never more than two children.
const CHIP: [u8; 7] = [2, 2, 0, 0, 2, 0, 0];

fn main() {
    if layout() != LAYOUT {
        eprintln!("the library has layout {}, the crate {LAYOUT}", layout());
        exit(1);
    }
    // A thread with as much stack as the calls need.
    let thread = thread::Builder::new().stack_size(STACK_BYTES).spawn(fit);
    thread.expect("a thread starts").join().expect("it ends");
}

fn fit() {
    search("garden", &GARDEN);
    search("hut", &HUT);
    search("five courses", &FIVE_COURSES);

    // The root shares its turns by weight: the glasshouses get three of them for
    // each one of the roses and of the gate.
    let rule = Rule {
        discipline: ARRIVAL,
        weight: 0,
    };
    let mut rules = [rule; MAX_TARGET_NODES];
    rules[0].discipline = WEIGHTED;
    rules[ROSES].weight = 1;
    rules[GLASSHOUSES].weight = 3;
    rules[GATE].weight = 1;
    let mut pair = chip::open_both(&GARDEN, &CHIP, 6, &rules);
    assert_eq!(pair.refusal, 0);

    carry(&pair, &Path::new(&[Step { child: 1, rank: 2 }], 0));
    push(&mut pair, ROSES, 1);
    push(&mut pair, ROSES, 2);
    push(&mut pair, PALMS, 3);
    push(&mut pair, ORCHIDS, 4);
    push(&mut pair, PALMS, 5);
    push(&mut pair, GLASSHOUSES, 6);
    push(&mut pair, GATE, 7);
    push(&mut pair, GATE, 8);
    for _ in 0..7 {
        pop(&mut pair);
    }
    let (held, refused) = (
        behind(&pair).held(&pair.chip),
        behind(&pair).refusals(&pair.chip),
    );
    println!("held {}, refused {}", held.value, refused.value);
}

fn search(name: &str, source: &[u8]) {
    let mut map = [0; MAX_SOURCE_NODES];
    match maps::search(source, &CHIP, &mut map) {
        0 => {
            let images: Vec<String> = map[..source.len()].iter().map(u8::to_string).collect();
            println!("{name}: map {}", images.join(" "));
        }
        refusal => {
            println!("{name}: no {refusal}");
            if refusal == 12 {
                explain(source);
            }
        }
    }
}

/// Why there is no map.
fn explain(source: &[u8]) {
    let why = maps::why(source, &CHIP);
    let lack = match why.lack {
        LACKS_DEPTH => "depth",
        LACKS_LEAVES => "leaves",
        _ => "room",
    };
    println!(
        "  the branch under node {} lacks {lack}: {} needed, {} there",
        why.node, why.needed, why.there
    );
}

fn behind(pair: &PairOpened) -> Behind<'_> {
    Behind {
        source: &GARDEN,
        map: &pair.map[..GARDEN.len()],
    }
}

fn carry(pair: &PairOpened, path: &Path) {
    let carried = maps::carry(&GARDEN, &CHIP, behind(pair).map, path);
    if carried.refusal != 0 {
        return println!("no {}", carried.refusal);
    }
    let step = |step: &Step| format!("child {} rank {}", step.child, step.rank);
    let steps: Vec<String> = carried.path.steps().iter().map(step).collect();
    println!("steps on the chip: {}", steps.join(", "));
}

/// Pushes a packet of length 300 to a leaf of both trees.
fn push(pair: &mut PairOpened, leaf: usize, packet: u32) {
    let drawn = tree::push_to_leaf(&pair.source, leaf, 0, 300, packet);
    let fitted = behind(pair).push_to_leaf(&pair.chip, leaf, 0, 300, packet);
    pair.source = drawn.tree;
    pair.chip = fitted.tree;
    println!(
        "push {packet} to node {leaf}: drawing {} {}, chip {} {}",
        drawn.refusal, drawn.value, fitted.refusal, fitted.value
    );
}

fn pop(pair: &mut PairOpened) {
    let drawn = tree::pop(&pair.source);
    let fitted = behind(pair).pop(&pair.chip);
    pair.source = drawn.tree;
    pair.chip = fitted.tree;
    println!(
        "pop: drawing {} {}, chip {} {}",
        drawn.refusal, drawn.value, fitted.refusal, fitted.value
    );
}
