//! private N SEED [--spoiled]: N random pairs of cases that say the same of the facts that touch a person's circle and whatever else of the others; the
//! paragraph of each roster person of the circle is the same in both, byte for byte, and so is all that it is made of; nobody outside the circle is
//! named. With --spoiled a paragraph ends with a sentence on all worlds, and the pairs must tell it.

use std::sync::atomic::{AtomicU64, Ordering};
use std::time::Instant;

use inputs::random::Random;
use lukhveri::names::Names;
use lukhveri::near::{Near, NearError};
use lukhveri::words;
use wrapped::strangers;

const USAGE: &str = "private N SEED [--spoiled]";

/// Whether every "person 3" of a text is somebody of the circle.
fn names_nobody_else(text: &str, near: &Near) -> bool {
    let words: Vec<&str> = text.split(|letter: char| !letter.is_ascii_alphanumeric()).collect();
    let mut named = words.windows(2).filter(|pair| pair[0].eq_ignore_ascii_case("person"));
    named.all(|pair| pair[1].parse().map_or(true, |person| near.circle().holds(person)))
}

/// What the paragraphs are made of.
fn made_of(near: &Near) -> String {
    let said: Vec<_> = near.touching().map(|fact| (fact, near.said(fact.fact))).collect();
    let (plan, case) = (hex(near.plan().bytes()), hex(&near.case().bytes()));
    format!("{plan} {case} {said:?} {:?} {:?}", near.variables(), near.lines())
}

/// The paragraphs of a circle's roster persons, with all that they hold, and what they are made of.
fn paragraphs(
    plan: &[u8],
    case: &[u8],
    person: u8,
    spoiled: bool,
) -> Result<Vec<String>, NearError> {
    let near = Near::of(plan, case, person)?;
    let names = Names::default();
    let own = near.lines().iter().filter_map(|line| words::paragraph(&near, &names, line.person));
    let worlds = || lukhveri::answer(plan, case).map_or(0, |answer| answer.worlds);
    let end = if spoiled { format!("\nThere are {} worlds.", worlds()) } else { String::new() };
    let told = own.map(|paragraph| format!("{paragraph:?}{end}"));
    let told = told.map(|text| match names_nobody_else(&text, &near) {
        true => text,
        false => format!("in the case {}, somebody else is named: {text}", hex(case)),
    });
    Ok(std::iter::once(made_of(&near)).chain(told).collect())
}

fn hex(bytes: &[u8]) -> String {
    bytes.iter().map(|byte| format!("{byte:02x}")).collect()
}

/// What became of a pair.
#[derive(Default)]
struct Tally {
    pairs: u64,
    paragraphs: u64,
    /// Pairs whose answers differ outside the circle, or in count or events.
    telling: u64,
}

fn pair(random: &mut Random, spoiled: bool, tally: &mut Tally) -> Result<(), String> {
    let input = strangers::input(random);
    let (plan, first) = (input.plan.encode(), input.case.encode());
    let Ok(answer) = lukhveri::answer(&plan, &first) else {
        return Ok(());
    };
    let persons: Vec<u8> = answer.lines.iter().map(|line| line.person).collect();
    let person = random.pick(&persons);
    let Some(circle) = lukhveri::circle(&plan, &first, person) else {
        return Err(format!("no circle: {} {}", hex(&plan), hex(&first)));
    };
    let kept = strangers::touching(&input.plan, &input.case, circle.mask());
    let second = strangers::other(random, &input.plan, &input.case, &kept).encode();
    let after = match paragraphs(&plan, &second, person, spoiled) {
        Err(NearError::Refused(_)) => return Ok(()),
        after => after,
    };
    let before = paragraphs(&plan, &first, person, spoiled);
    tally.pairs += 1;
    tally.paragraphs += before.as_ref().map_or(0, |told| told.len() as u64 - 1);
    tally.telling += u64::from(lukhveri::answer(&plan, &second) != Ok(answer));
    if before.is_ok() && before == after {
        return Ok(());
    }
    let (first, second) = (hex(&first), hex(&second));
    Err(format!("differ: plan {} cases {first} and {second}\n{before:#?}\n{after:#?}", hex(&plan)))
}

/// Pairs by streams of random numbers, one stream after another among the workers, until there are enough.
fn work(
    count: u64,
    seed: u64,
    spoiled: bool,
    next: &AtomicU64,
    done: &AtomicU64,
) -> Result<Tally, String> {
    let mut tally = Tally::default();
    while done.load(Ordering::Relaxed) < count {
        let before = tally.pairs;
        let stream = next.fetch_add(1, Ordering::Relaxed);
        pair(&mut Random::stream(seed, stream), spoiled, &mut tally)?;
        done.fetch_add(tally.pairs - before, Ordering::Relaxed);
    }
    Ok(tally)
}

fn main() {
    let mut words: Vec<String> = std::env::args().skip(1).collect();
    let spoiled = words.iter().any(|word| word == "--spoiled");
    words.retain(|word| word != "--spoiled");
    let (count, seed) = wrapped::numbers(&words, USAGE);
    let start = Instant::now();
    let (next, done) = (AtomicU64::new(0), AtomicU64::new(0));
    let workers = std::thread::available_parallelism().map_or(1, |number| number.get());
    let tallies: Result<Vec<Tally>, String> = std::thread::scope(|scope| {
        let one = || scope.spawn(|| work(count, seed, spoiled, &next, &done));
        let all: Vec<_> = (0..workers).map(|_| one()).collect();
        all.into_iter().map(|worker| worker.join().expect("a worker ends")).collect()
    });
    let tallies = tallies.unwrap_or_else(|what| {
        println!("{what}");
        std::process::exit(1)
    });
    let sum = |of: fn(&Tally) -> u64| tallies.iter().map(of).sum::<u64>();
    let (pairs, paragraphs, telling) =
        (sum(|t| t.pairs), sum(|t| t.paragraphs), sum(|t| t.telling));
    let seconds = start.elapsed().as_secs_f64();
    println!(
        "{pairs} pairs, {paragraphs} paragraphs alike, in {seconds:.1} s; {telling} pairs differ in something else"
    );
}
