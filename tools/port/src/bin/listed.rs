//! listed N SEED: the lister's text of N random inputs, damaged ones among them and many with excluded and barred persons, by the proved code and by
//! the model. The library's, in dirty buffers that are empty, one byte short, just enough or long: the same bytes and the same length; lines and
//! events are the model's, and no byte past a text is touched. The program's, in a temporary folder, of files that are now and then longer than its
//! buffers: the same bytes on the standard output, and nothing on the standard error.

use std::fmt;
use std::process::ExitCode;

use inputs::households;
use inputs::random::Random;
use inputs::samples::{self, Sample};
use inputs::smallest::smallest;
use inputs::vectors::to_hex;
use judge::trial::count_and_seed;
use model::Outcome;
use model::fields::{Fields, ROLE_OPEN};
use model::lister::{blocks, draws_no_service, text};
use model::report::{EVENT, LINE};
use model::world::{BARRED, EXCLUDED};
use port::alike::{Lent, any_length, lengths};
use port::lister::{BUFFER, Lister, MOST};

/// The two files.
#[derive(Clone, Copy)]
struct Files<'a> {
    plan: &'a [u8],
    case: &'a [u8],
}

/// What the model makes of them in buffers of some lengths.
struct Wanted {
    outcome: Outcome,
    lines: Vec<u8>,
    events: Vec<u8>,
    text: String,
}

impl Files<'_> {
    fn wanted(self, lines: usize, events: usize) -> Wanted {
        let (mut lines, mut events) = (vec![0; lines], vec![0; events]);
        let outcome = model::answer(self.plan, self.case, &mut lines, &mut events);
        let text = text(&outcome, &lines);
        Wanted {
            outcome,
            lines,
            events,
            text,
        }
    }

    /// In buffers as the program has them.
    fn wanted_whole(self) -> Wanted {
        self.wanted(MOST.0 * LINE, MOST.1 * EVENT)
    }

    /// The library's text beside the model's, in a buffer that `room` chooses by the text's length. Whether it is cut, or what differs.
    fn library(
        self,
        (lines, events): (usize, usize),
        room: impl FnOnce(usize, &mut Random) -> usize,
        random: &mut Random,
    ) -> Result<bool, String> {
        let wanted = self.wanted(lines, events);
        let (mut lines_lent, mut events_lent) =
            (Lent::new(lines, random), Lent::new(events, random));
        let room = room(wanted.text.len(), random);
        let mut text_lent = Lent::new(room, random);
        let mut text_wanted = text_lent.dirt().to_vec();
        let length = wanted.text.len().min(room);
        text_wanted[..length].copy_from_slice(&wanted.text.as_bytes()[..length]);
        let (lent, events_room) = (lines_lent.middle(), events_lent.middle());
        let told = port::list(self.plan, self.case, lent, events_room, text_lent.middle());
        let checks = [
            (told == length, "length"),
            (text_lent.holds(&text_wanted), "text"),
            (lines_lent.holds(&wanted.lines), "lines"),
            (events_lent.holds(&wanted.events), "events"),
        ];
        match checks.into_iter().find(|(alike, _)| !alike) {
            None => Ok(length < wanted.text.len()),
            Some((_, what)) => Err(format!(
                "the library's {what} with {lines} bytes for lines, {events} for events and {room} for the text"
            )),
        }
    }

    /// The program's text beside the model's.
    fn program(self, wanted: &Wanted, lister: &Lister) -> Result<(), String> {
        let printed = lister.run(self.plan, self.case).expect("the lister runs");
        let checks = [
            (printed.stdout == wanted.text.as_bytes(), "standard output"),
            (printed.stderr.is_empty(), "standard error"),
            (printed.status.success(), "end"),
        ];
        match checks.into_iter().find(|(alike, _)| !alike) {
            None => Ok(()),
            Some((_, what)) => Err(format!("the program's {what}")),
        }
    }

    /// The first that differs in buffers of all lengths that matter, the library's before the program's.
    fn difference(self, lister: &Lister) -> Option<String> {
        let (random, wanted) = (&mut Random::new(1), self.wanted_whole());
        let (lines, events) = needed(&wanted.outcome);
        let (lines, events) = (lengths(lines, random), lengths(events, random));
        let rooms = lines
            .into_iter()
            .flat_map(|lines| events.map(|events| (lines, events)));
        let mut texts = rooms.flat_map(|rooms| (0..4).map(move |at| (rooms, at)));
        texts
            .find_map(|(rooms, at)| {
                let room = |length: usize, random: &mut Random| lengths(length, random)[at];
                self.library(rooms, room, random).err()
            })
            .or_else(|| self.program(&wanted, lister).err())
    }
}

impl fmt::Display for Files<'_> {
    fn fmt(&self, to: &mut fmt::Formatter) -> fmt::Result {
        write!(to, "plan {} case {}", to_hex(self.plan), to_hex(self.case))
    }
}

/// The bytes of its lines and events.
fn needed(outcome: &Outcome) -> (usize, usize) {
    (
        outcome.lines as usize * LINE,
        outcome.events as usize * EVENT,
    )
}

/// What was compared.
#[derive(Default)]
struct Tally {
    answers: u64,
    refusals: u64,
    /// Of the library's texts, and the longest of the program's.
    cut: u64,
    longest: usize,
    /// Inputs with a file that is longer than its buffer.
    beyond: u64,
    /// Inputs with fewer households than units, and with none of these.
    fewer: u64,
    none: u64,
    /// Inputs with a block that is a household by barred persons alone, and by persons of kind 2 beside excluded ones.
    by_barred: u64,
    by_open: u64,
}

impl Tally {
    fn add(&mut self, files: Files, wanted: &Wanted, cut: bool) {
        let answered = wanted.outcome.refusal == 0;
        self.answers += u64::from(answered);
        self.refusals += u64::from(!answered);
        self.cut += u64::from(cut);
        self.longest = self.longest.max(wanted.text.len());
        self.beyond += u64::from(files.plan.len() > BUFFER || files.case.len() > BUFFER);
        let lines = Fields::each(&wanted.lines).take(wanted.outcome.lines as usize);
        self.add_blocks(&lines.collect::<Vec<_>>());
    }

    fn add_blocks(&mut self, lines: &[Fields]) {
        let blocks: Vec<Vec<Fields>> = blocks(lines).into_values().collect();
        let struck = blocks
            .iter()
            .filter(|persons| draws_no_service(persons))
            .count();
        self.fewer += u64::from(struck > 0);
        self.none += u64::from(struck > 0 && struck == blocks.len());
        self.by_barred += u64::from(blocks.iter().any(|persons| barred_alone(persons)));
        self.by_open += u64::from(blocks.iter().any(|persons| open_beside_excluded(persons)));
    }
}

/// Somebody is barred, and all others are excluded.
fn barred_alone(persons: &[Fields]) -> bool {
    let roles = || persons.iter().map(|line| line.role);
    roles().any(|role| role == BARRED) && roles().all(|role| role == BARRED || role == EXCLUDED)
}

/// Somebody is of kind 2, and all others, of whom there are some, are excluded.
fn open_beside_excluded(persons: &[Fields]) -> bool {
    let open = persons.iter().filter(|line| line.kind == ROLE_OPEN).count();
    let excluded = persons.iter().filter(|line| line.role == EXCLUDED).count();
    open > 0 && excluded > 0 && open + excluded == persons.len()
}

impl fmt::Display for Tally {
    fn fmt(&self, to: &mut fmt::Formatter) -> fmt::Result {
        write!(
            to,
            "{} of answers and {} of refusals, the library's and the program's, the longest of {} bytes; ",
            self.answers, self.refusals, self.longest
        )?;
        write!(
            to,
            "{} cut by the library's buffers, {} of files longer than the program's; ",
            self.cut, self.beyond
        )?;
        write!(
            to,
            "{} with fewer households than units ({} with none), {} with a block kept by barred persons alone, {} by kind 2 beside excluded ones",
            self.fewer, self.none, self.by_barred, self.by_open
        )
    }
}

/// One in three with many excluded and barred persons.
fn sample(random: &mut Random) -> Sample {
    match random.below(3) {
        0 => Sample::of(households::input(random)),
        _ => samples::answerable(random),
    }
}

/// Longer than the program's buffer: anything, zeros, the file's end or all of it again and again.
fn lengthen(bytes: &mut Vec<u8>, random: &mut Random) {
    let length = BUFFER + random.between(1, 4_000);
    let back = match random.below(4) {
        0 => return bytes.resize_with(length, || random.byte(256)),
        1 => return bytes.resize(length, 0),
        2 => random.between(1, 8),
        _ => bytes.len(),
    };
    let again = bytes[bytes.len().saturating_sub(back)..].to_vec();
    let rest = length.saturating_sub(bytes.len());
    bytes.extend(again.iter().cycle().take(rest));
}

/// Lines and events: the lengths around the program's in two of three inputs, around what is needed in the others.
fn rooms(wanted: &Wanted, random: &mut Random) -> (usize, usize) {
    let (lines, events) = match random.below(3) {
        0 => needed(&wanted.outcome),
        _ => (MOST.0 * LINE, MOST.1 * EVENT),
    };
    (any_length(lines, random), any_length(events, random))
}

/// The smallest input found that differs, or the one given if only its own lengths show it.
fn smallest_text(sample: Sample, first: String, lister: &Lister) -> String {
    let differs = |plan: &[u8], case: &[u8]| Files { plan, case }.difference(lister).is_some();
    let (plan, case) = smallest(sample, differs);
    let files = Files {
        plan: &plan,
        case: &case,
    };
    match files.difference(lister) {
        Some(what) => format!("{what} differs: {files}"),
        None => first,
    }
}

/// All that was compared, or what differs.
fn compare(count: u64, seed: u64, lister: &Lister) -> Result<Tally, String> {
    let mut tally = Tally::default();
    for number in 0..count {
        let random = &mut Random::stream(seed, number);
        let sample = sample(random);
        let (mut plan, mut case) = (sample.plan.clone(), sample.case.clone());
        match random.below(40) {
            0 => lengthen(&mut plan, random),
            1 => lengthen(&mut case, random),
            _ => {}
        }
        let files = Files {
            plan: &plan,
            case: &case,
        };
        let wanted = files.wanted_whole();
        let rooms = rooms(&wanted, random);
        let alike = files.library(rooms, any_length, random);
        match alike.and_then(|cut| files.program(&wanted, lister).map(|()| cut)) {
            Ok(cut) => tally.add(files, &wanted, cut),
            Err(what) => {
                let first = format!("{what} differs: {files}");
                let smallest = smallest_text(sample, first, lister);
                return Err(format!("{number} alike, then {smallest}"));
            }
        }
    }
    Ok(tally)
}

fn main() -> ExitCode {
    let (count, seed) = count_and_seed("listed");
    let lister = Lister::new().expect("a temporary folder");
    match compare(count, seed, &lister) {
        Ok(tally) => {
            println!("{count} texts alike: {tally}");
            ExitCode::SUCCESS
        }
        Err(difference) => {
            println!("{difference}");
            ExitCode::FAILURE
        }
    }
}
