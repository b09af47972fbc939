//! The second implementation of the drawing of a pair: it walks the trees and
//! writes their elements.

use crate::diagnosis::why;
use crate::embedding::{read_pair, Pair};
use crate::reduced::PASSED_OVER;
use crate::script::{outcomes, Done};
use crate::topology::{Topology, MOST_CHILDREN, MOST_STEPS_DOWN, SOURCE_NODES, TARGET_NODES};
use linduvar::{Diagnosis, LACKS_DEPTH, LACKS_LEAVES};

const STYLE: [&str; 6] = [
    "text{font:10px sans-serif;text-anchor:middle}path{fill:none;stroke:black}ellipse{fill:white;stroke:black}",
    ".label,.note{font-size:12px}.label,.note,.joins text,.legend text{text-anchor:start}",
    ".joins g{color:midnightblue}.joins g:nth-child(3n){color:maroon}.joins g:nth-child(3n+1){color:darkgreen}",
    ".joins path{stroke:currentColor}.joins text{fill:currentColor}.fault{fill:firebrick;stroke:none}.fault+text{fill:white}",
    ".passed{stroke-dasharray:1 2}.image{fill:lightcyan;stroke-width:2}.between{stroke-dasharray:4 2}.unused{fill:lightgrey;stroke:none}",
    ".legend text{fill:black}",
];

/// The classes with their words, and where each begins in the legend.
const LEGEND: [(usize, &str, &str); 6] = [
    (24, "plain", "node"),
    (94, "passed", "passed over"),
    (198, "image", "image"),
    (273, "between", "above an image"),
    (394, "unused", "unused"),
    (474, "fault", "see note"),
];

#[derive(Clone, Copy)]
struct Side {
    left: usize,
    label: &'static str,
}

const SOURCE: Side = Side {
    left: 24,
    label: "source",
};
const CHIP: Side = Side {
    left: 446,
    label: "chip",
};

/// What drawtrees prints for a script.
pub fn draw(script: &[u8]) -> String {
    let (mut source, mut target) = (Vec::new(), Vec::new());
    for outcome in outcomes(script) {
        let no = |number| format!("no {number} {}", outcome.offset);
        match (outcome.command, outcome.answer) {
            (0x01, Ok(_)) => source.push(script[outcome.offset + 1]),
            (0x02, Ok(_)) => target.push(script[outcome.offset + 1]),
            (_, Ok(Done::Map(images))) => return sheet(&pair(&source, &target, &images, None)),
            (_, Err((12, _))) => {
                let (trees, words) = misfit(&source, &target);
                return sheet(&(trees + &note(&(no(12) + &words))));
            }
            (_, Err((number @ 1..=5, _))) => {
                let (part, words) = if Topology::read(&source, SOURCE_NODES).is_err() {
                    at_fault(SOURCE, &source, SOURCE_NODES, number)
                } else {
                    at_fault(CHIP, &target, TARGET_NODES, number)
                };
                return sheet(&(part + &note(&(no(number) + &words))));
            }
            (_, Err((number, _))) => return sheet(&(head(0) + &note(&no(number)))),
            _ => {}
        }
    }
    sheet(&(head(0) + &note("nothing to draw")))
}

fn sheet(text: &str) -> String {
    format!("{text}</svg>\n")
}

fn note(words: &str) -> String {
    format!("<text class='note' x='24' y='14'>{words}</text>\n")
}

/// One unit is a quarter of a millimetre.
fn head(rows: usize) -> String {
    let height = row(rows) + 32;
    let (millimetres, style) = (height / 4, STYLE.join("\n"));
    format!(
        "<svg xmlns='http://www.w3.org/2000/svg' width='190mm' height='{millimetres}mm' viewBox='0 0 760 {height}'><style>\n\
         {style}</style><rect width='100%' height='100%' fill='white'/>\n"
    )
}

fn legend(rows: usize) -> String {
    let entries = LEGEND.map(|(x, class, word)| {
        let right = x + 13;
        format!("<ellipse class='{class}' cx='{x}' rx='9' ry='7'/><text x='{right}' dy='4'>{word}</text>")
    });
    let (y, entries) = (row(rows) + 8, entries.join("\n"));
    format!("<g class='legend' transform='translate(0,{y})'>\n{entries}</g>\n")
}

/// A tree at fault as far as it was read, with the byte at fault, and what is
/// wrong in words.
fn at_fault(side: Side, bytes: &[u8], limit: usize, number: u8) -> (String, String) {
    let mut part = Topology::default();
    if read_as_far(&mut part, bytes, limit, None, 0) && part.node_count() < bytes.len() {
        part.add(None);
    }
    let rows = part.node_count();
    let last = rows.saturating_sub(1);
    let name = side.label;
    let words = match number {
        1 => format!("the {name} ends before it is complete"),
        2 => format!("the {name} is complete before node {last}"),
        3 => format!("node {last} of the {name} is one too many"),
        4 => format!("node {last} of the {name} has more than 8 children"),
        _ => format!("node {last} of the {name} lies 9 steps down"),
    };
    let text = tree(side, &part, |node| {
        if number > 1 && node == last {
            "fault"
        } else if side.label == SOURCE.label && bytes[node] == 1 {
            "passed"
        } else {
            "plain"
        }
    });
    (head(rows) + &text + &legend(rows), format!(": {words}"))
}

/// Reads a branch as long as its bytes are fine; the byte at fault has its node
/// too. Whether the branch is complete.
fn read_as_far(
    part: &mut Topology,
    bytes: &[u8],
    limit: usize,
    parent: Option<usize>,
    depth: usize,
) -> bool {
    let Some(&children) = bytes.get(part.node_count()) else {
        return false;
    };
    let node = part.add(parent);
    let fine = node < limit && usize::from(children) <= MOST_CHILDREN && depth <= MOST_STEPS_DOWN;
    fine && (0..children).all(|_| read_as_far(part, bytes, limit, Some(node), depth + 1))
}

/// Both trees of a pair without a map, the branch that fits nowhere marked, and
/// what it lacks in words.
fn misfit(source: &[u8], target: &[u8]) -> (String, String) {
    let Diagnosis {
        lack,
        node,
        needed,
        there,
        ..
    } = why(source, target);
    let words = match lack {
        LACKS_DEPTH => format!("node {node} needs {needed} levels above it, the chip has {there}"),
        LACKS_LEAVES => format!(
            "the branch of node {node} has {needed} leaves, a chip branch where it may go at most {there}"
        ),
        _ => format!("the branches below node {node} do not fit side by side"),
    };
    let trees = pair(source, target, &[], Some(node.into()));
    (trees, format!(": {words}"))
}

/// Both trees and the lines between them; the branch of the source under a node
/// may be marked.
fn pair(source: &[u8], target: &[u8], images: &[u8], marked: Option<usize>) -> String {
    let Ok(Pair { source, target }) = read_pair(source, target) else {
        panic!("the search reads both trees first");
    };
    let joined: Vec<(usize, usize)> = images
        .iter()
        .enumerate()
        .filter(|(_, &image)| image != PASSED_OVER)
        .map(|(node, &image)| (node, image.into()))
        .collect();
    let images: Vec<usize> = joined.iter().map(|&(_, image)| image).collect();
    let rows = source.node_count().max(target.node_count());
    let joins: String = joined
        .iter()
        .map(|&(node, image)| join(&source, &target, node, image))
        .collect();
    head(rows)
        + &format!("<g class='joins'>\n{joins}</g>\n")
        + &tree(SOURCE, &source, |node| match marked {
            Some(top) if source.is_above(top, node) => "fault",
            _ => source_class(&source, node),
        })
        + &tree(CHIP, &target, |node| chip_class(&target, &images, node))
        + &legend(rows)
}

/// The line from a source node to its image, and the number of each beside the
/// other.
fn join(source: &Topology, target: &Topology, node: usize, image: usize) -> String {
    let (x, y) = (column(SOURCE, source, node), row(node));
    let (over, down) = (column(CHIP, target, image), row(image));
    let line = format!("<path d='M{x},{y}m40,0H304L430,{down}H{over}'/>");
    let beside_node = format!("<text x='{x}' y='{y}' dx='12' dy='4'>at {image}</text>");
    let beside_image = format!("<text x='{over}' y='{down}' dx='12' dy='4'>for {node}</text>");
    format!("<g>{line}{beside_node}{beside_image}</g>\n")
}

fn column(side: Side, tree: &Topology, node: usize) -> usize {
    side.left + 30 * tree.depth(node)
}

fn row(node: usize) -> usize {
    48 + 16 * node
}

/// A tree with its label; `class` gives each node its look.
fn tree(side: Side, tree: &Topology, class: impl Fn(usize) -> &'static str) -> String {
    let Side { left, label } = side;
    let mut edges = Vec::new();
    if tree.node_count() > 0 {
        edges_below(side, tree, 0, &mut edges);
    }
    edges.sort();
    let edges: String = edges.into_iter().map(|(_, edge)| edge).collect();
    let nodes: String = (0..tree.node_count())
        .map(|node| mark(class(node), column(side, tree, node), node))
        .collect();
    format!("<g><text class='label' x='{left}' y='32'>{label}</text>\n{edges}{nodes}</g>\n")
}

/// The edges to all nodes below a node, each with the number of its lower end:
/// one trunk for the children of a node, in pieces from each to the next.
fn edges_below(side: Side, tree: &Topology, node: usize, edges: &mut Vec<(usize, String)>) {
    let x = column(side, tree, node);
    let mut from = node;
    for (index, &child) in tree.children(node).iter().enumerate() {
        let (top, y, number) = (row(from), row(child), index + 1);
        let line = format!("<path d='M{x},{top}V{y}h30'/>");
        let text = format!("<text x='{x}' y='{y}' dx='12' dy='-2'>{number}</text>");
        edges.push((child, format!("{line}{text}\n")));
        edges_below(side, tree, child, edges);
        from = child;
    }
}

fn mark(class: &str, x: usize, node: usize) -> String {
    let y = row(node);
    let ellipse = format!("<ellipse class='{class}' cx='{x}' cy='{y}' rx='9' ry='7'/>");
    format!("{ellipse}<text x='{x}' y='{y}' dy='4'>{node}</text>\n")
}

/// An inner source node with one child is passed over.
fn source_class(tree: &Topology, node: usize) -> &'static str {
    if tree.child_count(node) == 1 {
        "passed"
    } else {
        "plain"
    }
}

fn chip_class(tree: &Topology, images: &[usize], node: usize) -> &'static str {
    if images.is_empty() {
        "plain"
    } else if images.contains(&node) {
        "image"
    } else if images.iter().any(|&image| tree.is_above(node, image)) {
        "between"
    } else {
        "unused"
    }
}
