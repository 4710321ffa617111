//! The tree of worlds of an example, and the lines that come of it.

use lukhveri::{Answer, Line, Persons};

use crate::example::Example;
use crate::svg::{AREAS, Frame, Picture};

const LEAF: i32 = 150;
const GAP: i32 = 18;
const LEFT: i32 = 214;
const TOP: i32 = 62;
const LEVEL: i32 = 62;
const KINDS: [&str; 7] = [
    "decided",
    "membership open",
    "role open",
    "overlap",
    "discretion",
    "roster not complete",
    "inconsistent",
];

/// The variables have two values each and no constraint leaves out a world, so that leaves and worlds are the same.
pub fn draw(example: &Example) -> Result<String, String> {
    let (plan, case) = (example.plan.bytes(), example.case.bytes());
    let answer = lukhveri::answer(plan, case).map_err(|refusal| refusal.to_string())?;
    let questions = questions(example, &answer.lines);
    if answer.worlds != 1 << questions.len() {
        return Err("not every leaf is a world".to_string());
    }
    let leaves = TOP + LEVEL * questions.len() as i32;
    let rows = leaves + 150;
    let width = LEFT + answer.worlds as i32 * (LEAF + GAP) + 6;
    let mut picture = Picture::new(width, rows + 52 + 24 * answer.lines.len() as i32);
    picture.text("strong", (24, 32), &format!("The worlds of examples/{}", example.folder));
    draw_branches(&mut picture, &questions);
    for world in 0..answer.worlds {
        let shown = lukhveri::show(plan, case, world).map_err(|refusal| refusal.to_string())?;
        draw_leaf(&mut picture, example, world, leaves, &shown);
    }
    picture.text("strong", (24, rows), "The lines, all worlds together");
    for (line, at) in answer.lines.iter().zip(1..) {
        draw_line(&mut picture, example, line, rows + 6 + 24 * at);
    }
    Ok(picture.finish("A tree of worlds and the lines that come of it"))
}

/// The variables that are open in some line, each as a question in two rows: boolean facts, decisions, relation facts.
fn questions(example: &Example, lines: &[Line]) -> Vec<[String; 2]> {
    let mut facts: Vec<u8> = lines.iter().flat_map(Line::open_facts).collect();
    let mut decisions: Vec<u8> = lines.iter().flat_map(Line::open_decisions).collect();
    for list in [&mut facts, &mut decisions] {
        list.sort_unstable();
        list.dedup();
    }
    let is_boolean = |fact: &u8| example.plan.boolean(*fact).is_some();
    let (booleans, relations): (Vec<u8>, Vec<u8>) = facts.into_iter().partition(is_boolean);
    let fact = |number| [format!("fact {number}:"), example.words.fact(number).to_string()];
    let decision = |number| [format!("decision {number}:"), "the cut wins".to_string()];
    let mut questions: Vec<[String; 2]> = booleans.into_iter().map(fact).collect();
    questions.extend(decisions.into_iter().map(decision));
    questions.extend(relations.into_iter().map(fact));
    questions
}

/// The middle of a node: of its leaves, that is.
fn middle(depth: usize, node: i32, levels: usize) -> i32 {
    let leaves = 1 << (levels - depth);
    LEFT + (LEAF + GAP) * leaves * node + ((LEAF + GAP) * leaves - GAP) / 2
}

fn draw_branches(picture: &mut Picture, questions: &[[String; 2]]) {
    let levels = questions.len();
    for (depth, question) in questions.iter().enumerate() {
        let top = TOP + LEVEL * depth as i32;
        for (row, at) in question.iter().zip(0..) {
            picture.text("soft", (24, top + 28 + 17 * at), row);
        }
        for node in 0..1 << depth {
            let from = (middle(depth, node, levels), top);
            for (value, word) in [(0, "no"), (1, "yes")] {
                let to = (middle(depth + 1, 2 * node + value, levels), top + LEVEL);
                picture.line("branch", from, to);
                let side = if value == 0 { -20 } else { 20 };
                let half = i32::midpoint(from.0, to.0) + side;
                picture.centred("soft", (half, top + LEVEL / 2 - 2), word);
            }
        }
    }
}

fn names(example: &Example, block: Persons) -> String {
    let names: Vec<&str> = block.iter().map(|person| example.words.person(person)).collect();
    names.join(", ")
}

fn draw_leaf(picture: &mut Picture, example: &Example, world: u64, top: i32, shown: &Answer) {
    let x = LEFT + world as i32 * (LEAF + GAP);
    picture.frame("leaf", Frame { x, y: top, width: LEAF, height: 118 }, 8);
    picture.centred("strong", (x + LEAF / 2, top + 20), &format!("world {world}"));
    for (block, at) in shown.units().into_iter().zip(0..) {
        let y = top + 30 + 28 * at;
        let class = format!("area{}", area(block));
        picture.frame(&class, Frame { x: x + 8, y, width: LEAF - 16, height: 24 }, 8);
        picture.centred("", (x + LEAF / 2, y + 17), &names(example, block));
    }
}

/// A colour that goes by the lowest person.
fn area(block: Persons) -> usize {
    usize::from(block.iter().next().unwrap_or(0)) % AREAS
}

fn draw_line(picture: &mut Picture, example: &Example, line: &Line, y: i32) {
    let kind = line.kind.number();
    let name = example.words.person(line.person);
    picture.text("", (24, y), &format!("{} {name}", line.person));
    let words = KINDS[usize::from(kind)];
    picture.text("", (LEFT - 94, y), &format!("kind {kind}, {words}"));
    if !line.block.is_empty() {
        let class = format!("area{}", area(line.block));
        picture.frame(&class, Frame { x: LEFT + 104, y: y - 17, width: 134, height: 23 }, 8);
        picture.centred("", (LEFT + 171, y), &names(example, line.block));
    }
    picture.text("soft", (LEFT + 256, y), &open(line));
}

/// The open fields in words.
fn open(line: &Line) -> String {
    let facts = line.open_facts().map(|fact| format!("open fact {fact}"));
    let decisions = line.open_decisions().map(|decision| format!("open decision {decision}"));
    facts.chain(decisions).collect::<Vec<_>>().join(", ")
}
