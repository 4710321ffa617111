//! told N SEED: what the paragraphs of N random cases say, held to the answers to the whole case: which blocks and roles are possible, which open
//! facts and decisions change nothing, which answer settles a line, which rules act and which do not.

use std::collections::BTreeSet;
use std::time::Instant;

use inputs::random::Random;
use inputs::wire::Plan;
use lukhveri::near::{Near, View, values};
use lukhveri::{Answer, CaseRecords, Event, Line, LineKind, words};
use wrapped::waiting::{Whole, shown};
use wrapped::{claims, strangers};

/// No more worlds than these are gone through.
const MOST: u64 = 64;

fn view(line: &Line) -> View {
    View { kind: line.kind, role: line.role, block: line.block }
}

fn possible(worlds: &[Answer], person: u8) -> BTreeSet<View> {
    worlds.iter().filter_map(|world| world.line(person)).map(view).collect()
}

/// The number behind a word, such as the 3 of "edge 3".
fn number(sentence: &str, word: &str) -> Option<u8> {
    let (_, rest) = sentence.split_once(word)?;
    rest.split(|letter: char| !letter.is_ascii_digit()).next()?.parse().ok()
}

fn acts(event: &Event, word: &str, number: u8) -> bool {
    match *event {
        Event::Frozen { edge, .. } => word == "edge " && edge == number,
        Event::Applied { cut, .. } => word == "cut " && cut == number,
        Event::Attached { attachment, .. } => word == "attachment " && attachment == number,
        Event::Barred { bar } => word == "bar " && bar == number,
        Event::Excluded { status, .. } => word == "status " && status == number,
        _ => false,
    }
}

/// A rule that is said not to hold, or not to act, does so in no world; one that sets somebody apart does so in some.
fn sentence(text: &str, answer: &Answer) -> Result<(), String> {
    let first = text.to_lowercase();
    let denied = first.split_once(" does not ").map(|(rule, _)| rule.to_string());
    for word in ["edge ", "cut ", "attachment ", "bar ", "status "] {
        let happens = |number: u8| answer.events.iter().any(|event| acts(event, word, number));
        if let Some(rule) = denied.as_ref().filter(|rule| rule.starts_with(word))
            && let Some(number) = number(rule, word)
            && happens(number)
        {
            return Err(format!("untrue: {text}"));
        }
    }
    if let Some((_, cut)) = first.split_once(" is set apart by ")
        && let Some(number) = number(cut, "cut ")
        && !answer.events.iter().any(|event| acts(event, "cut ", number))
    {
        return Err(format!("untrue: {text}"));
    }
    Ok(())
}

/// A cut that gives way is preceded, through others perhaps, by one that it overlaps; a blocked one is blocked by that edge in some world.
fn stopped(text: &str, plan: &Plan, answer: &Answer) -> Result<(), String> {
    let Some((cut, why)) = text.split_once(" does not act: ") else {
        return Ok(());
    };
    let cut = number(&cut.to_lowercase(), "cut ").map(usize::from);
    if let Some(cut) = cut.filter(|_| why.contains("gives way"))
        && !(0..plan.cuts.len()).any(|other| {
            let overlap = plan.cuts[cut].members & plan.cuts[other].members != 0;
            other != cut && overlap && preceded(plan, other) >> cut & 1 == 1
        })
    {
        return Err(format!("untrue: {text}"));
    }
    let edge = why.split_once("is blocked by ").and_then(|(_, edge)| number(edge, "edge "));
    let blocks = |edge: u8| {
        let is =
            |event: &Event| matches!(event, Event::Blocked { edge: other, .. } if *other == edge);
        answer.events.iter().any(is)
    };
    match edge {
        Some(edge) if !blocks(edge) => Err(format!("untrue: {text}")),
        _ => Ok(()),
    }
}

/// The cuts that a cut precedes, through others too.
fn preceded(plan: &Plan, cut: usize) -> u64 {
    let direct = |cut: usize| {
        plan.cuts[cut].precedes.iter().flatten().fold(0u64, |all, other| all | 1 << other)
    };
    let mut all = direct(cut);
    loop {
        let next = (0..plan.cuts.len())
            .filter(|cut| all >> cut & 1 == 1)
            .fold(all, |all, cut| all | direct(cut));
        if next == all {
            return all;
        }
        all = next;
    }
}

type Values = Vec<Vec<(lukhveri::near::Variable, bool)>>;

fn all_values(plan: &[u8], case: &[u8], answer: &Answer) -> Result<Values, String> {
    let plan = lukhveri::Plan::read(plan).map_err(|refusal| refusal.to_string())?;
    let case = CaseRecords::read(case).ok_or("a case that is answered can be read")?;
    Ok((0..answer.worlds).filter_map(|world| values(&plan, &case, world)).collect())
}

fn case(random: &mut Random, done: &mut u64) -> Result<(), String> {
    let input = strangers::input(random);
    let (plan, case) = (input.plan.encode(), input.case.encode());
    let Ok(answer) = lukhveri::answer(&plan, &case) else {
        return Ok(());
    };
    if answer.worlds > MOST {
        return Ok(());
    }
    *done += 1;
    let worlds = shown(&plan, &case, answer.worlds);
    let whole =
        Whole { input: &input, worlds: &worlds, values: all_values(&plan, &case, &answer)? };
    for near in Near::all(&plan, &case).map_err(|error| error.to_string())? {
        near.lines().iter().try_for_each(|line| person(&whole, &answer, &near, line))?;
    }
    Ok(())
}

/// All that is said of a person.
fn person(whole: &Whole, answer: &Answer, near: &Near, line: &Line) -> Result<(), String> {
    let found = near.outcome(line.person).ok_or("no outcome")?;
    let possible = possible(whole.worlds, line.person);
    if found.possible.iter().copied().collect::<BTreeSet<View>>() != possible {
        return Err(format!("person {}: other things are possible", line.person));
    }
    whole.outcome(line, &found)?;
    if matches!(line.kind, LineKind::Overlap | LineKind::Discretion) {
        let marks = near.marks(line.person, line.kind);
        whole.marks(line.person, line.kind, &marks)?;
        if marks.is_empty() {
            return Err(format!("person {}: nothing marks the person", line.person));
        }
    }
    let names = Default::default();
    let paragraph = words::paragraph(near, &names, line.person).ok_or("no paragraph")?;
    for text in &paragraph.sentences {
        sentence(text, answer)?;
        stopped(text, &whole.input.plan, answer)?;
        claims::sentence(whole.input, whole.worlds, line.person, text)?;
        if text.contains("but nothing") {
            return Err(format!("without a reason: {text}"));
        }
    }
    Ok(())
}

fn main() {
    let (count, seed) = wrapped::count_and_seed("told N SEED");
    let (start, mut done) = (Instant::now(), 0);
    for number in 0.. {
        if done >= count {
            break;
        }
        if let Err(what) = case(&mut Random::stream(seed, number), &mut done) {
            let input = strangers::input(&mut Random::stream(seed, number));
            let hex =
                |bytes: &[u8]| bytes.iter().map(|byte| format!("{byte:02x}")).collect::<String>();
            println!(
                "{what}\nplan {}\ncase {}",
                hex(&input.plan.encode()),
                hex(&input.case.encode())
            );
            std::process::exit(1);
        }
    }
    println!("{done} cases told as they are, in {:.1} s", start.elapsed().as_secs_f64());
}
