//! The paper's own examples as scripts, and some worked by hand from its
//! words, each with its whole output.

use crate::commands::{
    limit, opening, push, source_node, step, target_node, wide_push, wide_step, OPEN, POP,
};

/// Each script prints what it should.
pub fn check(run: impl Fn(&[u8]) -> Vec<u8>) {
    for (script, printed) in scripts() {
        assert_eq!(text(run(&script)), printed, "{script:02X?}");
    }
    println!("the paper's scripts: as it has them");
}

/// What was printed, which is plain text.
pub fn text(printed: Vec<u8>) -> String {
    String::from_utf8(printed).expect("plain text")
}

pub fn scripts() -> Vec<(Vec<u8>, String)> {
    let mut scripts = vec![
        (Vec::new(), String::new()),
        (EXAMPLE.to_vec(), EXAMPLE_OUTPUT.to_string()),
        later_first(),
    ];
    scripts.extend(pairs());
    scripts.extend(topologies());
    scripts.extend(worked_by_hand());
    scripts.extend(wide_ranks());
    scripts
}

/// The script of 86 bytes.
pub const EXAMPLE: [u8; 86] = [
    0x01, 0x03, 0x01, 0x00, 0x01, 0x00, 0x01, 0x00, 0x02, 0x02, 0x02, 0x02, 0x02, 0x00, 0x02, 0x00,
    0x02, 0x00, 0x03, 0x00, 0x02, 0x04, 0x05, 0x03, 0x00, 0x00, 0x00, 0x05, 0x06, 0x00, 0x00, 0x00,
    0x0A, 0x00, 0x00, 0x00, 0x00, 0x05, 0x01, 0x00, 0x00, 0x00, 0x05, 0x06, 0x00, 0x00, 0x00, 0x0B,
    0x00, 0x00, 0x00, 0x00, 0x05, 0x02, 0x00, 0x00, 0x00, 0x03, 0x06, 0x00, 0x00, 0x00, 0x0C, 0x00,
    0x00, 0x00, 0x00, 0x07, 0x05, 0x02, 0x00, 0x00, 0x00, 0x03, 0x06, 0x00, 0x00, 0x00, 0x0C, 0x00,
    0x00, 0x00, 0x00, 0x07, 0x07, 0x07,
];

pub const EXAMPLE_OUTPUT: &str = "\
map 0 2 3 4
in 1
in 2
no 15 58
out 0000000A
in 2
out 0000000C
out 0000000B
no 16 85
";

/// Two packets down child 1 of 1 0: the later leaves first.
fn later_first() -> (Vec<u8>, String) {
    let mut script = opening(&[1, 0], &[1, 0], 2);
    script.extend([step(1, 1), push(100, 9), step(1, 4), push(200, 2)]);
    script.extend([vec![POP], vec![POP]]);
    let printed = "map 255 1\nin 1\nin 2\nout 000000C8\nout 00000064\n";
    (script.concat(), printed.to_string())
}

/// The pairs, as openings; 04 stands after 2 bytes for each node and 3 more.
fn pairs() -> Vec<(Vec<u8>, String)> {
    let pair = |source: &[u8], target: &[u8], map: &str| {
        let offset = 2 * (source.len() + target.len()) + 3;
        let printed = match map {
            "12" => format!("no 12 {offset}\n"),
            _ => format!("map {map}\n"),
        };
        (opening(source, target, 1).concat(), printed)
    };
    vec![
        pair(&[3, 0, 0, 0], &[2, 2, 0, 0, 0], "0 2 3 4"),
        pair(&[2, 2, 0, 0, 0], &[3, 0, 0, 0], "12"),
        pair(&[2, 0, 2, 0, 0], &[2, 2, 0, 0, 2, 0, 0], "0 2 4 5 6"),
        pair(&[2, 3, 0, 0, 0, 0], &[2, 2, 0, 0, 2, 0, 0], "12"),
        pair(&[0], &[0], "0"),
        pair(&[0], &[1, 0], "1"),
        pair(&[1, 0], &[1, 1, 0], "255 2"),
        pair(&[1, 1, 0], &[1, 0], "255 255 1"),
        pair(&[1, 0], &[0], "255 0"),
        pair(&[1, 2, 0, 0], &[1, 2, 0, 0], "255 0 2 3"),
        pair(&lanes(), &[4, 0, 0, 0, 0], &lanes_map()),
    ]
}

/// Four leaves and 27 nodes that are passed over: there can be no more of them
/// among 32.
pub fn lanes() -> Vec<u8> {
    let lane = |nodes: usize| [vec![1; nodes], vec![0]].concat();
    [vec![4], lane(7).repeat(3), lane(6)].concat()
}

fn lanes_map() -> String {
    let lane = |nodes: usize| " 255".repeat(nodes);
    let (long, short) = (lane(7), lane(6));
    format!("0{long} 1{long} 2{long} 3{short} 4")
}

/// The topologies, as sources and as targets.
fn topologies() -> Vec<(Vec<u8>, String)> {
    let nine = [vec![1; 8], vec![0]].concat();
    let ten = [vec![1; 9], vec![0]].concat();
    let faults: [(&[u8], u8); 5] = [(&[], 1), (&[2, 0], 1), (&[0, 0], 2), (&[9], 4), (&ten, 5)];
    let mut scripts = vec![(
        opening(&nine, &nine, 1).concat(),
        format!("map {}8\n", "255 ".repeat(8)),
    )];
    for (bytes, refusal) in faults {
        let printed = format!("no {refusal} {}\n", 2 * (bytes.len() + 1) + 3);
        scripts.push((opening(bytes, &[0], 1).concat(), printed.clone()));
        scripts.push((opening(&[0], bytes, 1).concat(), printed));
    }
    scripts
}

/// What is tested first where two things are wrong, and what a refusal or a
/// pop leaves.
fn worked_by_hand() -> Vec<(Vec<u8>, String)> {
    let cut = |command: &[u8]| command[..command.len() - 1].to_vec();
    let opened = opening(&[0], &[0], 1).concat();
    let after = |command: &[u8]| [&opened[..], command].concat();
    let script = |script: Vec<u8>, printed: &str| (script, printed.to_string());
    vec![
        // The source before the target, and both before 12, that before 17.
        script(opening(&[2, 0], &[0, 0], 0).concat(), "no 1 11\n"),
        script(opening(&[0], &[0, 0], 0).concat(), "no 2 9\n"),
        script(opening(&[2, 0, 0], &[1, 0], 0).concat(), "no 12 13\n"),
        script(opening(&[0], &[0], 0).concat(), "no 17 7\n"),
        script(opening(&[0], &[0], 257).concat(), "no 17 7\n"),
        // 21 before 22.
        script(cut(&push(1, 1)), "no 21 0\n"),
        script(cut(&step(1, 1)), "no 21 0\n"),
        script([limit(1), cut(&limit(1))].concat(), "no 21 3\n"),
        script(after(&cut(&source_node(0))), "map 0\nno 21 8\n"),
        script(after(&cut(&target_node(0))), "map 0\nno 21 8\n"),
        script(
            after(&[step(1, 1).repeat(8), cut(&step(1, 1))].concat()),
            "map 0\nno 21 56\n",
        ),
        // 13 and 14 before 15, and each leaves the tree as it was.
        script(
            after(
                &[
                    push(7, 0),
                    step(1, 0),
                    push(8, 0),
                    push(9, 0),
                    vec![POP, POP],
                ]
                .concat(),
            ),
            "map 0\nin 1\nno 13 23\nno 15 32\nout 00000007\nno 16 42\n",
        ),
        script(
            [
                opening(&[1, 0], &[1, 0], 1),
                vec![step(1, 0), push(7, 0), push(8, 0)],
            ]
            .concat()
            .concat(),
            "map 255 1\nin 1\nno 14 27\n",
        ),
        // A pop leaves the steps that were gathered.
        script(
            [
                opening(&[1, 0], &[1, 0], 1),
                vec![step(1, 0), vec![POP], push(7, 0), vec![POP]],
            ]
            .concat()
            .concat(),
            "map 255 1\nno 16 18\nin 1\nout 00000007\n",
        ),
        // A step at a node that is passed over is tested as drawn, though the
        // chip gets none; and its rank decides nothing.
        script(
            [
                opening(&[1, 2, 0, 0], &[2, 0, 0], 2),
                vec![step(2, 0), push(5, 0)],
                vec![step(1, 9), step(1, 1), push(6, 0)],
                vec![step(1, 2), step(2, 0), push(7, 0)],
                vec![vec![POP], vec![POP]],
            ]
            .concat()
            .concat(),
            "map 255 0 1 2\nno 13 24\nin 1\nin 2\nout 00000007\nout 00000006\n",
        ),
        // Nothing is read behind a refusal that stops.
        script(vec![OPEN, 0x01, 0x00], "no 22 0\n"),
        script(vec![0x00, 0x06], "no 20 0\n"),
        script(vec![0x08], "no 20 0\n"),
        script(vec![0x0B], "no 20 0\n"),
    ]
}

/// The commands for ranks of 64 bits.
fn wide_ranks() -> Vec<(Vec<u8>, String)> {
    const TWO_32: u64 = 1 << 32;
    let cut = |command: &[u8]| command[..command.len() - 1].to_vec();
    let leaf = opening(&[0], &[0], 9);
    let fan = opening(&[2, 0, 0], &[2, 0, 0], 9);
    let script = |opening: &[Vec<u8>], commands: &[Vec<u8>], printed: &str| {
        let script = [opening, commands].concat().concat();
        (script, printed.to_string())
    };
    vec![
        // 21 before 22, and 22 before 04.
        script(&[], &[cut(&wide_step(1, 1))], "no 21 0\n"),
        script(&[], &[cut(&wide_push(1, 1))], "no 21 0\n"),
        script(&[], &[wide_step(1, 1)], "no 22 0\n"),
        script(&[], &[wide_push(1, 1)], "no 22 0\n"),
        script(&leaf, &[vec![0x09]], "map 0\nno 21 8\n"),
        script(&leaf, &[vec![0x0A]], "map 0\nno 21 8\n"),
        script(&leaf, &[cut(&wide_push(1, 1))], "map 0\nno 21 8\n"),
        // Steps of both kinds count toward the ninth.
        script(
            &leaf,
            &[step(1, 1).repeat(7), wide_step(1, 1), step(1, 1)],
            "map 0\nno 22 60\n",
        ),
        script(
            &leaf,
            &[wide_step(1, 1).repeat(7), step(1, 1), wide_step(1, 1)],
            "map 0\nno 22 84\n",
        ),
        script(
            &leaf,
            &[wide_step(1, 1).repeat(8), cut(&wide_step(1, 1))],
            "map 0\nno 21 88\n",
        ),
        // The greatest rank and those around 2^32, at a leaf.
        script(
            &leaf,
            &[
                wide_push(1, u64::MAX),
                wide_push(2, TWO_32 + 1),
                push(3, u32::MAX),
                wide_push(4, TWO_32),
                wide_push(5, TWO_32 - 1),
                push(6, 0),
                vec![POP; 6],
            ],
            "map 0\nin 1\nin 2\nin 3\nin 4\nin 5\nin 6\nout 00000006\nout 00000003\n\
             out 00000005\nout 00000004\nout 00000002\nout 00000001\n",
        ),
        // Both pushes go along steps of both kinds, whose ranks are compared in full.
        script(
            &fan,
            &[
                wide_step(1, TWO_32 + 1),
                push(1, 0),
                wide_step(2, TWO_32),
                push(2, 0),
                step(1, 2),
                wide_push(3, 0),
                wide_step(1, 2 * TWO_32),
                wide_push(4, TWO_32),
                vec![POP; 4],
            ],
            "map 0 1 2\nin 1\nin 2\nin 3\nin 4\nout 00000001\nout 00000002\n\
             out 00000003\nout 00000004\n",
        ),
        // 0A clears the steps, refused or not.
        script(
            &fan,
            &[
                wide_step(3, 0),
                wide_push(1, 0),
                step(1, 0),
                wide_push(2, 0),
                wide_push(3, 0),
                wide_step(2, 0),
                push(4, 0),
            ],
            "map 0 1 2\nno 13 26\nin 1\nno 14 58\nin 2\n",
        ),
    ]
}
