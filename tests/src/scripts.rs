//! Random scripts for gatewalk, of many kinds.
//!
//! A script is made as a list of commands, each with its operands, so that
//! commands can be put in or cut at a chosen place.

use crate::commands::{
    limit, opening, push, push_along, source_node, step, target_node, wide_push, wide_step,
    Command, OPEN, POP,
};
use crate::generate;
use crate::pairs::{self, Drawn};
use crate::queue_tree::MOST_PACKETS;
use crate::random::Random;
use crate::script::SCRIPT_BYTES;
use crate::states::{any_path, Habits};
use crate::topology::{MOST_STEPS_DOWN, SOURCE_NODES, TARGET_NODES};

/// Both drawings, the limit and 04, in any order that comes to the same.
fn shuffled_opening(
    source: &[u8],
    target: &[u8],
    packets: usize,
    random: &mut Random,
) -> Vec<Command> {
    let mut commands = Vec::new();
    let (mut source, mut target) = (source.iter(), target.iter());
    while source.len() + target.len() > 0 {
        let next = if random.below(source.len() + target.len()) < source.len() {
            source.next().copied().map(source_node)
        } else {
            target.next().copied().map(target_node)
        };
        commands.extend(next);
    }
    commands.insert(random.within(0..=commands.len()), limit(packets));
    commands.push(vec![OPEN]);
    commands
}

/// What the pushes of a script are like.
struct Pushes {
    habits: Habits,
    /// Whether there are wide commands.
    wide: bool,
}

impl Pushes {
    /// Every other script has no wide commands.
    fn any(random: &mut Random) -> Pushes {
        let wide = random.one_in(2);
        let habits = match wide {
            true => Habits::any(random),
            false => Habits::narrow(random),
        };
        Pushes { habits, wide }
    }

    /// A push for a source, along a path that is mostly right. Now and then a pop
    /// comes while the steps are gathered, and leaves them.
    fn push(&self, source: &[u8], random: &mut Random) -> Vec<Command> {
        let (path, _, _) = any_path(source, &self.habits, random);
        let mut steps = path.steps().to_vec();
        // A ninth step would end the script.
        steps.truncate(MOST_STEPS_DOWN);
        let packet = self.habits.packet(random);
        let mut commands = push_along(&steps, packet, path.leaf_rank, || {
            self.wide && random.one_in(2)
        });
        if random.one_in(12) {
            commands.insert(random.below(commands.len()), vec![POP]);
        }
        commands
    }

    /// Pushes and pops for a source, as many calls as are asked for.
    fn calls(&self, source: &[u8], count: usize, random: &mut Random) -> Vec<Command> {
        let mut commands = Vec::new();
        let mut pushes_in_ten = 7;
        for _ in 0..count {
            if random.one_in(20) {
                pushes_in_ten = random.pick(&[1, 3, 5, 7, 9, 10]);
            }
            if random.below(10) < pushes_in_ten {
                commands.extend(self.push(source, random));
            } else {
                commands.push(vec![POP]);
            }
        }
        commands
    }

    /// Pushes enough to fill a tree, though some are refused.
    fn fill(&self, source: &[u8], packets: usize, random: &mut Random) -> Vec<Command> {
        (0..2 * packets + 10)
            .flat_map(|_| self.push(source, random))
            .collect()
    }
}

/// A large pair opened with that limit, filled, and calls after that.
pub fn at_limit(packets: usize, random: &mut Random) -> Vec<u8> {
    let drawn = pairs::embedded(random, SOURCE_NODES, TARGET_NODES);
    let pushes = Pushes::any(random);
    let mut script = opening(&drawn.source, &drawn.target, packets);
    script.extend(pushes.fill(&drawn.source, packets, random));
    script.extend(pushes.calls(&drawn.source, packets + 20, random));
    script.concat()
}

/// The kinds of random scripts, and how many of a hundred are of each.
pub const KINDS: [(&str, usize); 10] = [
    ("whole", 20),
    ("any pair", 8),
    ("damaged drawing", 20),
    ("limit out of range", 7),
    ("out of turn", 14),
    ("out of turn, then cut", 5),
    ("unknown command", 6),
    ("cut", 11),
    ("one byte damaged", 6),
    ("noise", 3),
];

/// A random script, most of them far shorter than the longest.
pub fn any(random: &mut Random) -> (&'static str, Vec<u8>) {
    let mut lot = random.below(100);
    for (kind, share) in KINDS {
        if lot < share {
            return (kind, of_kind(kind, random));
        }
        lot -= share;
    }
    unreachable!("the shares add up to a hundred")
}

fn of_kind(kind: &str, random: &mut Random) -> Vec<u8> {
    let mut commands = match kind {
        "any pair" => whole(&pairs::any(random, SOURCE_NODES, TARGET_NODES), random),
        "damaged drawing" => damaged_drawing(random),
        "limit out of range" => limit_out_of_range(random),
        "noise" => vec![noise(random)],
        _ => whole(&small_or_large(random), random),
    };
    match kind {
        "out of turn" => _ = put_out_of_turn(&mut commands, random),
        "out of turn, then cut" => {
            let at = put_out_of_turn(&mut commands, random);
            commands.truncate(at + 1);
            cut_operands(&mut commands, random);
        }
        "unknown command" => put_unknown(&mut commands, random),
        "cut" => cut(&mut commands, random),
        "one byte damaged" => damage_a_byte(&mut commands, random),
        _ => {}
    }
    commands.concat()
}

/// A pair with a map, the small ones more frequent.
fn small_or_large(random: &mut Random) -> Drawn {
    let (source, target) = random.pick(&[(4, 7), (8, 12), (8, 12), (SOURCE_NODES, TARGET_NODES)]);
    pairs::embedded(random, source, target)
}

/// An opening over the pair, and calls.
fn whole(drawn: &Drawn, random: &mut Random) -> Vec<Command> {
    let any = random.within(1..=MOST_PACKETS);
    let packets = random.pick(&[1, 2, 3, 10, 255, MOST_PACKETS, any]);
    let mut commands = shuffled_opening(&drawn.source, &drawn.target, packets, random);
    let pushes = Pushes::any(random);
    if random.one_in(12) {
        commands.extend(pushes.fill(&drawn.source, packets, random));
    }
    let count = random.pick(&[0, 4, 12, 40, 100]);
    commands.extend(pushes.calls(&drawn.source, count, random));
    commands
}

/// An opening where one of the drawings may be none.
fn damaged_drawing(random: &mut Random) -> Vec<Command> {
    let mut drawn = small_or_large(random);
    let damaged = generate::any(random);
    if random.one_in(2) {
        drawn.source = damaged;
    } else {
        drawn.target = damaged;
    }
    let mut commands = shuffled_opening(&drawn.source, &drawn.target, 1, random);
    commands.push(vec![POP]);
    commands
}

/// An opening over a pair that has a map or not.
fn limit_out_of_range(random: &mut Random) -> Vec<Command> {
    let drawn = pairs::any(random, 8, 12);
    let packets = random.pick(&[0, 0, 257, 258, 512, 768, 65_535]);
    shuffled_opening(&drawn.source, &drawn.target, packets, random)
}

fn put_unknown(commands: &mut Vec<Command>, random: &mut Random) {
    let any = random.within(11..=255) as u8;
    let byte = random.pick(&[0, 8, 11, 12, 255, any]);
    commands.insert(random.within(0..=commands.len()), vec![byte]);
}

fn damage_a_byte(commands: &mut [Command], random: &mut Random) {
    let command = &mut commands[random.below(commands.len())];
    let at = random.below(command.len());
    let any = random.below(256) as u8;
    command[at] = random.pick(&[any, any, 0, 1, 4, 7, 9, 10, command[at] ^ 1]);
}

/// Puts one command out of turn into a script that has none. Where it is.
fn put_out_of_turn(commands: &mut Vec<Command>, random: &mut Random) -> usize {
    let place = |command: u8| commands.iter().position(|of| of[0] == command);
    let opened = place(OPEN).expect("an opening");
    let limited = place(0x03).expect("a limit");
    let end = commands.len();
    let (before, after) = (0..=opened, opened + 1..=end);
    let any = random.below(256) as u8;
    let (at, command) = match random.below(15) {
        0 => (random.within(after), source_node(any)),
        1 => (random.within(after), target_node(any)),
        2 => (random.within(after), limit(1)),
        3 => (random.within(limited + 1..=opened), limit(1)),
        4 => (random.within(0..=limited), vec![OPEN]),
        5 => (random.within(after), vec![OPEN]),
        6 => (random.within(before), step(any, 1)),
        7 => (random.within(before), push(u32::from(any), 1)),
        8 => (random.within(before), vec![POP]),
        9 => (random.within(before), wide_step(any, 1)),
        10 => (random.within(before), wide_push(u32::from(any), 1)),
        _ => {
            let at = random.within(after);
            let (one, other) = (any_step(1, random), any_step(1, random));
            for _ in 0..8 {
                commands.insert(at, random.pick(&[&one, &other]).clone());
            }
            // The steps that were gathered before are cleared.
            commands.insert(at, push(1, 1));
            (at + 9, any_step(any, random))
        }
    };
    commands.insert(at, command);
    at
}

/// A step by 05 or by 09.
fn any_step(child: u8, random: &mut Random) -> Command {
    match random.one_in(2) {
        true => step(child, 1),
        false => wide_step(child, 1),
    }
}

/// Cuts a script anywhere, or within a command of some sort that it has.
fn cut(commands: &mut Vec<Command>, random: &mut Random) {
    if random.one_in(3) {
        let mut script = commands.concat();
        script.truncate(random.below(script.len()));
        *commands = vec![script];
        return;
    }
    let sort = random.pick(&[0x01, 0x02, 0x03, 0x05, 0x06, 0x09, 0x0A]);
    let of_sort: Vec<usize> = (0..commands.len())
        .filter(|&at| commands[at][0] == sort)
        .collect();
    if !of_sort.is_empty() {
        commands.truncate(random.pick(&of_sort) + 1);
        cut_operands(commands, random);
    }
}

/// Cuts the last command's operands short, if it has any.
fn cut_operands(commands: &mut [Command], random: &mut Random) {
    if let Some(last) = commands.last_mut() {
        last.truncate(random.within(1..=last.len().max(2) - 1));
    }
}

/// Bytes with no plan behind them, mostly known commands.
fn noise(random: &mut Random) -> Vec<u8> {
    let highest = random.pick(&[4, 7, 8, 10, 255]);
    (0..random.within(0..=60))
        .map(|_| random.within(0..=highest) as u8)
        .collect()
}

/// Drawings of very many nodes, by which a count that is too small would show.
pub fn crowded() -> Vec<Vec<u8>> {
    let mut scripts = Vec::new();
    for nodes in [
        32, 33, 64, 65, 66, 255, 256, 257, 288, 289, 320, 321, 32_000,
    ] {
        for many in [vec![0; nodes], [vec![8; 7], vec![0; nodes - 7]].concat()] {
            scripts.push(opening(&many, &[0], 1).concat());
            scripts.push(opening(&[0], &many, 1).concat());
        }
    }
    scripts
}

/// The kinds of scripts that go on past the longest.
pub const LONG_KINDS: [&str; 3] = [
    "over-long, cut within a command",
    "over-long, a command ends there",
    "over-long, a command begins there",
];

/// A script that goes on past the longest, with a command at that place.
pub fn over_long(kind: &str, random: &mut Random) -> Vec<u8> {
    let drawn = small_or_large(random);
    let packets = random.pick(&[1, 10, MOST_PACKETS]);
    let mut script = shuffled_opening(&drawn.source, &drawn.target, packets, random).concat();
    // Steps take much room and little work.
    let idle = [step(1, 1).repeat(8), push(1, 1)].concat();
    let pushes = Pushes::any(random);
    while script.len() + 300 < SCRIPT_BYTES {
        if random.one_in(20) {
            script.extend(pushes.calls(&drawn.source, 3, random).concat());
        } else {
            script.extend(&idle);
        }
    }
    let both = [step(1, 1), push(1, 1), wide_step(1, 1), wide_push(1, 1)];
    let long = [limit(1), source_node(0)];
    let short = [vec![POP], vec![OPEN], vec![0x08]];
    let last = match kind {
        "over-long, cut within a command" => [&both[..], &long].concat(),
        _ => [&both[..], &short].concat(),
    };
    let last = &last[random.below(last.len())];
    let before = match kind {
        "over-long, cut within a command" => random.within(1..=last.len() - 1),
        "over-long, a command ends there" => last.len(),
        _ => 0,
    };
    while script.len() + before < SCRIPT_BYTES {
        script.push(POP);
    }
    script.extend(last);
    // More that would be printed if it were read.
    script.extend((0..random.within(1..=20)).map(|_| random.within(0..=11) as u8));
    script
}
