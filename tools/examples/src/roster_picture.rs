//! A roster in one world: the edges that hold, the cut that is applied, the blocks.

use lukhveri::{Answer, Event, Persons};

use crate::example::Example;
use crate::svg::{AREAS, Frame, Picture};

const WORLD: u64 = 3;
/// Where the persons of the kitchen stand, by number.
const PLACES: [i32; 5] = [250, 100, 400, 560, 690];
const ROW: i32 = 118;
const RADIUS: i32 = 22;

pub fn draw(example: &Example) -> Result<String, String> {
    let (plan, case) = (example.plan.bytes(), example.case.bytes());
    let shown = lukhveri::show(plan, case, WORLD).map_err(|refusal| refusal.to_string())?;
    let mut picture = Picture::new(780, 290);
    picture.text(
        "strong",
        (24, 32),
        &format!("World {WORLD} of examples/kitchen: they eat from one pot, and the cut wins"),
    );
    draw_blocks(&mut picture, &shown);
    draw_edges(&mut picture, example, &shown);
    draw_cuts(&mut picture, example, &shown);
    for line in &shown.lines {
        draw_person(&mut picture, line.person, example.words.person(line.person));
    }
    draw_legend(&mut picture);
    Ok(picture.finish("A roster of five persons with edges, a cut and blocks"))
}

fn place(person: u8) -> (i32, i32) {
    (PLACES[usize::from(person)], ROW)
}

/// A frame around these persons, who stand side by side.
fn around(persons: Persons, gap: i32) -> Frame {
    let places = || persons.iter().map(|person| PLACES[usize::from(person)]);
    let (first, last) = (places().min().unwrap_or(0), places().max().unwrap_or(0));
    let side = RADIUS + gap;
    Frame { x: first - side, y: ROW - side, width: last - first + 2 * side, height: 2 * side + 22 }
}

fn draw_blocks(picture: &mut Picture, shown: &Answer) {
    for (block, number) in shown.units().into_iter().zip(0..) {
        let frame = around(block, 26);
        picture.frame(&format!("area{}", number % AREAS), frame, 16);
        let below = (frame.x + frame.width / 2, frame.y + frame.height + 18);
        picture.centred("soft", below, &format!("block {block}"));
    }
}

fn draw_edges(picture: &mut Picture, example: &Example, shown: &Answer) {
    let edges = &example.plan.records().edges;
    for event in &shown.events {
        let Event::Frozen { edge: number, .. } = *event else {
            continue;
        };
        let edge = &edges[usize::from(number)];
        let class = if edge.combination { "combination" } else { "base" };
        let (left, right) = (place(edge.left), place(edge.right));
        picture.line(class, left, right);
        let above = (i32::midpoint(left.0, right.0), ROW - RADIUS - 36);
        picture.centred("soft", above, &format!("edge {number}, paragraph {}", edge.citation));
    }
}

fn draw_cuts(picture: &mut Picture, example: &Example, shown: &Answer) {
    let cuts = &example.plan.records().cuts;
    for event in &shown.events {
        if let Event::Applied { cut, .. } = *event {
            picture.frame("cut", around(cuts[usize::from(cut)].members, 14), 14);
        }
    }
}

fn draw_person(picture: &mut Picture, person: u8, name: &str) {
    let (x, y) = place(person);
    picture.circle("person", (x, y), RADIUS);
    picture.centred("strong", (x, y + 5), &person.to_string());
    picture.centred("", (x, y + RADIUS + 20), name);
}

fn draw_legend(picture: &mut Picture) {
    let row = 262;
    picture.line("base", (24, row - 4), (64, row - 4));
    picture.text("soft", (72, row), "Base edge");
    picture.line("combination", (172, row - 4), (212, row - 4));
    picture.text("soft", (220, row), "Combination edge");
    picture.frame("cut", Frame { x: 370, y: row - 14, width: 34, height: 18 }, 5);
    picture.text("soft", (412, row), "cut");
    picture.frame("area0", Frame { x: 466, y: row - 14, width: 34, height: 18 }, 5);
    picture.text("soft", (508, row), "block");
}
