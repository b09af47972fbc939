//! The queue tree alone: opening, pushes by path, pops, counts, and refusals by
//! number. examples/c/queue.c does the same in C.

use linduvar::{layout, queue, Path, State, Step, LAYOUT};
use std::process::exit;

fn main() {
    if layout() != LAYOUT {
        eprintln!("the library has layout {}, the crate {LAYOUT}", layout());
        exit(1);
    }
    // The root has three children: the roses, the glasshouses with two children
    // of their own (palms and orchids), and the gate.
    let garden = [3, 0, 2, 0, 0, 0];
    println!(
        "with a limit of 300: no {}",
        queue::open(&garden, 300).refusal
    );
    let opened = queue::open(&garden, 3);
    assert_eq!(opened.refusal, 0);
    let mut state = opened.state;

    let step = |child, rank| Step { child, rank };
    let roses = Path::new(&[step(1, 2)], 0);
    let palms = Path::new(&[step(2, 1), step(1, 7)], 0);
    let gate = Path::new(&[step(3, 2)], 0);
    let astray = Path::new(&[step(4, 0)], 0);
    push(&mut state, &roses, 0xA1);
    push(&mut state, &palms, 0xB1);
    push(&mut state, &gate, 0xC1);
    push(&mut state, &roses, 0xA2);
    push(&mut state, &astray, 0xD1);
    pop(&mut state);
    let (held, refused) = (queue::held(&state), queue::refusals(&state));
    println!("held {}, refused {}", held.value, refused.value);
    pop(&mut state);
    pop(&mut state);
    pop(&mut state);
}

fn push(state: &mut State, path: &Path, packet: u32) {
    let answer = queue::push(state, path, packet);
    *state = answer.state;
    match answer.refusal {
        0 => println!("in {}", answer.value),
        15 => println!("no 15, refused so far: {}", answer.value),
        refusal => println!("no {refusal}"),
    }
}

/// Prints the packet that leaves, and at each node of its way the child and the
/// rank that were at the head.
fn pop(state: &mut State) {
    let popped = queue::pop(state);
    *state = popped.answer.state;
    if popped.answer.refusal != 0 {
        return println!("no {}", popped.answer.refusal);
    }
    let way: Vec<String> = popped
        .way
        .taken()
        .iter()
        .map(|taken| {
            format!(
                "node {} child {} rank {}",
                taken.node, taken.child, taken.rank
            )
        })
        .collect();
    println!("out {:X}, by {}", popped.answer.value, way.join(", "));
}
