//! Random rules of disciplines, right and at fault, and numbers for what
//! weighted nodes keep.

use crate::random::Random;
use crate::scheduler::{Disciplines, Rule, Rules, ARRIVAL, STRICT, WEIGHTED};
use crate::topology::{Topology, TARGET_NODES};

/// Rules without a fault: noise where they mean nothing, and often the least
/// and the greatest weight.
pub fn right_rules(topology: &Topology, random: &mut Random) -> Rules {
    let habit = random.pick(&[WEIGHTED, WEIGHTED, STRICT, ARRIVAL]);
    let mut rules = [(); TARGET_NODES].map(|()| noise(random));
    for (node, rule) in rules.iter_mut().enumerate().take(topology.node_count()) {
        let plain = random.pick(&[ARRIVAL, STRICT]);
        let any = random.pick(&[ARRIVAL, STRICT, WEIGHTED, habit, habit]);
        let inner = topology.child_count(node) > 0;
        rule.discipline = if inner { any } else { plain };
    }
    for child in children_with_weight(topology, &rules) {
        rules[child].weight = weight(random);
    }
    rules
}

/// Rules for bytes that may be a topology, and their fault if they were given
/// one.
pub fn any_rules(bytes: &[u8], random: &mut Random) -> (Rules, Option<&'static str>) {
    let Ok(topology) = Topology::read(bytes, TARGET_NODES) else {
        return ([(); TARGET_NODES].map(|()| noise(random)), None);
    };
    let mut rules = right_rules(&topology, random);
    let fault = random.pick(&RULE_FAULTS);
    let broken = random.one_in(2) && break_rules(&mut rules, &topology, fault, random).is_some();
    (rules, broken.then_some(fault))
}

fn noise(random: &mut Random) -> Rule {
    let discipline = random.below(256) as u8;
    let weight = random.below(256) as u8;
    Rule {
        discipline: random.pick(&[0, discipline]),
        weight: random.pick(&[0, weight]),
    }
}

fn weight(random: &mut Random) -> u8 {
    let any = random.within(1..=255) as u8;
    random.pick(&[1, 255, 2, 3, any])
}

/// The children of weighted nodes.
fn children_with_weight(topology: &Topology, rules: &Rules) -> Vec<usize> {
    let weighted = |&node: &usize| rules[node].discipline == WEIGHTED;
    let nodes = (0..topology.node_count()).filter(weighted);
    nodes
        .flat_map(|node| topology.children(node))
        .copied()
        .collect()
}

/// The faults of rules.
pub const RULE_FAULTS: [&str; 4] = [
    "weighted leaf",
    "weight 0 under a weighted node",
    "unknown discipline of an inner node",
    "unknown discipline of a leaf",
];

/// Breaks right rules; None where they give no occasion for it.
pub fn break_rules(
    rules: &mut Rules,
    topology: &Topology,
    kind: &str,
    random: &mut Random,
) -> Option<()> {
    let (leaves, inner): (Vec<usize>, Vec<usize>) =
        (0..topology.node_count()).partition(|&node| topology.is_leaf(node));
    let weights = children_with_weight(topology, rules);
    let any = random.within(3..=255) as u8;
    let unknown = random.pick(&[3, 4, 128, 255, any]);
    let mut some = |places: &[usize]| (!places.is_empty()).then(|| random.pick(places));
    match kind {
        "weighted leaf" => rules[some(&leaves)?].discipline = WEIGHTED,
        "weight 0 under a weighted node" => rules[some(&weights)?].weight = 0,
        "unknown discipline of an inner node" => rules[some(&inner)?].discipline = unknown,
        "unknown discipline of a leaf" => rules[some(&leaves)?].discipline = unknown,
        _ => unreachable!("a fault of rules without a name"),
    }
    Some(())
}

/// Puts any numbers in place of those kept, many of them near the largest, and
/// some near the largest of 32 bits.
pub fn keep_anything(disciplines: &mut Disciplines, random: &mut Random) {
    let Disciplines {
        virtual_time,
        finish,
        ..
    } = disciplines;
    for number in virtual_time.iter_mut().chain(finish) {
        let (any, near) = (random.number(), random.below(17_000_000) as u64);
        let end = random.pick(&[u64::MAX, u64::MAX, u64::from(u32::MAX)]);
        *number = random.pick(&[0, 1, any, end - near, end - near % 256, end]);
    }
}
