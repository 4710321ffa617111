//! pooled N SEED: N random inputs, damaged ones among them, pooled by the proved code and by the model: the same nine numbers, the same lines and
//! events, and the same units in the three arrays, zero past them. Buffers and arrays are dirty beforehand; buffers are empty, one byte short,
//! just enough or long; lists of amounts are as long as the roster, one short, one over, empty, of 64, of 65 or of any length. What is promised of
//! pools is looked up in the bytes of each answer.

use std::fmt;

use inputs::amounts;
use inputs::random::Random;
use inputs::samples::{self, Sample};
use inputs::smallest::smallest;
use inputs::vectors::to_hex;
use judge::trial::count_and_seed;
use model::PoolOutcome;
use model::report::{EVENT, LINE};
use port::alike::{Lent, any_length, lengths};
use port::pools::{Arrays, Pooled, pool};
use port::promised;

/// All lines that there can be, and many events.
const MOST: (usize, usize) = (64, 4096);

/// What the model answers with room for everything.
struct Known {
    answered: bool,
    persons: usize,
    events: usize,
    /// Of the first line; 0 where there is none.
    kind: u8,
}

impl Known {
    /// Where it is refused, as many persons as there can be, so that not every buffer is too short for them.
    fn of(plan: &[u8], case: &[u8]) -> Known {
        let (mut lines, mut events) = (vec![0; MOST.0 * LINE], vec![0; MOST.1 * EVENT]);
        let found = model::answer(plan, case, &mut lines, &mut events);
        let answered = found.refusal == 0;
        let persons = if answered {
            found.lines as usize
        } else {
            MOST.0
        };
        Known {
            answered,
            persons,
            events: found.events as usize,
            kind: lines[1],
        }
    }

    fn lines_length(&self) -> usize {
        self.persons * LINE
    }

    fn events_length(&self) -> usize {
        self.events * EVENT
    }
}

/// What both are asked, in buffers of these lengths.
struct Asked<'a> {
    plan: &'a [u8],
    case: &'a [u8],
    amounts: Vec<u32>,
    lines: usize,
    events: usize,
}

impl fmt::Display for Asked<'_> {
    fn fmt(&self, to: &mut fmt::Formatter) -> fmt::Result {
        let (plan, case) = (to_hex(self.plan), to_hex(self.case));
        write!(
            to,
            "with {} bytes for lines and {} for events, amounts {:?}: plan {plan} case {case}",
            self.lines, self.events, self.amounts
        )
    }
}

impl Asked<'_> {
    /// What both answer; else where they differ, or what is promised and does not hold.
    fn compare(&self, random: &mut Random) -> Result<PoolOutcome, &'static str> {
        let (plan, case, amounts) = (self.plan, self.case, &self.amounts[..]);
        let (mut lines_wanted, mut events_wanted) = (vec![0; self.lines], vec![0; self.events]);
        let wanted = model::pool(plan, case, amounts, &mut lines_wanted, &mut events_wanted);
        let mut lines = Lent::new(self.lines, random);
        let mut events = Lent::new(self.events, random);
        let mut arrays = Arrays::new(random);
        let (room, event_room) = (lines.middle(), events.middle());
        let told = pool(plan, case, amounts, room, event_room, &mut arrays);
        let checks = [
            (told == Pooled::from(&wanted), "the numbers differ"),
            (lines.holds(&lines_wanted), "the lines differ"),
            (events.holds(&events_wanted), "the events differ"),
            (arrays.hold(&wanted.units), "the units differ"),
        ];
        if let Some((_, what)) = checks.into_iter().find(|(alike, _)| !alike) {
            return Err(what);
        }
        if wanted.answer.refusal == 0 {
            promised::check(lines.middle(), amounts, &wanted.units, told.unplaced)?;
        }
        Ok(wanted)
    }
}

/// What was compared. Rosters come in three sorts: with worlds, not complete, without worlds.
#[derive(Default)]
struct Tally {
    /// By sort of roster.
    answered: [u64; 3],
    with_units: u64,
    with_open: u64,
    /// Refused by 15, by sort of roster.
    wrong: [u64; 3],
    /// Refused otherwise, by number, 1 to 13.
    refusals: [u64; 14],
    /// Of these, by 12 and by 13 where the list's length is wrong too.
    before: [u64; 2],
}

impl Tally {
    fn add(&mut self, asked: &Asked, known: &Known, found: &PoolOutcome) {
        let sort = match known.kind {
            5 => 1,
            6 => 2,
            _ => 0,
        };
        let wrong = known.answered && asked.amounts.len() != known.persons;
        match found.answer.refusal {
            0 => self.answered[sort] += 1,
            15 => self.wrong[sort] += 1,
            number => self.refusals[number as usize] += 1,
        }
        if let (12 | 13, true) = (found.answer.refusal, wrong) {
            self.before[found.answer.refusal as usize - 12] += 1;
        }
        self.with_units += u64::from(!found.units.is_empty());
        self.with_open += u64::from(found.units.iter().any(|unit| unit.open));
    }
}

impl fmt::Display for Tally {
    fn fmt(&self, to: &mut fmt::Formatter) -> fmt::Result {
        let sorts = |[worlds, incomplete, none]: [u64; 3]| {
            let all = worlds + incomplete + none;
            format!("{all} ({incomplete} not complete, {none} without worlds)")
        };
        let (others, [lines, events]) = (&self.refusals[1..], self.before);
        write!(to, "{} answered, ", sorts(self.answered))?;
        write!(
            to,
            "{} with units, {} with open ones; ",
            self.with_units, self.with_open
        )?;
        write!(to, "{} refused by 15, ", sorts(self.wrong))?;
        write!(
            to,
            "{} otherwise, by number {others:?}; ",
            others.iter().sum::<u64>()
        )?;
        write!(
            to,
            "lists of a wrong length refused by 12 before, {lines}, and by 13, {events}"
        )
    }
}

/// Enough in two of three calls; else any length around what is needed.
fn room(needed: usize, random: &mut Random) -> usize {
    match random.below(3) {
        0 => any_length(needed, random),
        _ => needed,
    }
}

/// Now and then of a roster that is not complete, with a family twice.
fn sample(random: &mut Random) -> Sample {
    let sample = samples::answerable(random);
    match sample.source {
        Some(mut input) if random.percent(8) => {
            input.case.complete = None;
            input
                .case
                .families
                .extend(input.case.families.first().cloned());
            Sample::of(input)
        }
        source => Sample { source, ..sample },
    }
}

/// Amounts that tell persons apart, the largest ones, and lists of the wrong length.
fn lists(persons: usize) -> [Vec<u32>; 4] {
    let apart = (0..persons).map(|at| 1 << (at % 32)).collect();
    let [largest, short, long] =
        [persons, persons.saturating_sub(1), persons + 1].map(|length| vec![u32::MAX; length]);
    [apart, largest, short, long]
}

/// Buffers of all lengths that matter, for lines and for events.
fn rooms(known: &Known, random: &mut Random) -> Vec<(usize, usize)> {
    let lines = lengths(known.lines_length(), random);
    let events = lengths(known.events_length(), random);
    let with = |lines: usize| events.map(|events| (lines, events));
    lines.into_iter().flat_map(with).collect()
}

/// The first call on these bytes, of all that matter, that shows something wrong, and what.
fn difference<'a>(plan: &'a [u8], case: &'a [u8]) -> Option<(Asked<'a>, &'static str)> {
    let (random, known) = (&mut Random::new(1), Known::of(plan, case));
    let lists = lists(known.persons);
    let asked = |(lines, events): (usize, usize)| {
        let of = move |amounts: Vec<u32>| Asked {
            plan,
            case,
            amounts,
            lines,
            events,
        };
        lists.clone().map(of)
    };
    let all = rooms(&known, random).into_iter().flat_map(asked);
    let differs = |asked: Asked<'a>| {
        let what = asked.compare(random).err()?;
        Some((asked, what))
    };
    all.into_iter().find_map(differs)
}

/// The smallest input found that differs, or the one given if only its own buffers and amounts show it.
fn report(sample: Sample, first: String) {
    let (plan, case) = smallest(sample, |plan, case| difference(plan, case).is_some());
    match difference(&plan, &case) {
        Some((asked, what)) => println!("{what} {asked}"),
        None => println!("{first}"),
    }
}

fn main() {
    let (count, seed) = count_and_seed("pooled");
    let mut tally = Tally::default();
    for number in 0..count {
        let random = &mut Random::stream(seed, number);
        let sample = sample(random);
        let known = Known::of(&sample.plan, &sample.case);
        let length = amounts::length(random, known.persons);
        let asked = Asked {
            plan: &sample.plan,
            case: &sample.case,
            amounts: amounts::list(random, length),
            lines: room(known.lines_length(), random),
            events: room(known.events_length(), random),
        };
        match asked.compare(random) {
            Ok(found) => tally.add(&asked, &known, &found),
            Err(what) => {
                let first = format!("{what} {asked}");
                report(sample, first);
                std::process::exit(1);
            }
        }
    }
    println!("{count} inputs alike: {tally}");
}
