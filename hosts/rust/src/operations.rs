//! Check a plan, answer a case, show a world; the circle of a person.

use crate::event::{EVENT, Event};
use crate::foreign::{self, Told};
use crate::limits;
use crate::line::{LINE, Line};
use crate::persons::Persons;
use crate::refusal::{Reason, Refusal};

/// Bytes that hold the lines of every roster.
pub const LINES_LENGTH: usize = limits::PERSONS * LINE;

/// Bytes that hold the events of most cases: 4,096 events, as many as the lister takes.
pub const EVENTS_LENGTH: usize = 4096 * EVENT;

/// Bytes that hold the events of every case. Kinds 1 to 8 have at most 64 + 16 + 1,024 + 120 + 32 + 32 + 32 + 48 events; kind 9 at most 21
/// in a world, since a component that is left to discretion has three persons or more, and there are at most 4,096 worlds.
/// So many take little time: an answer with 4,096 events of kind 9 took 2 ms, one with 16,384 took 21 ms.
pub const MOST_EVENTS_LENGTH: usize = (1368 + 21 * 4096) * EVENT;

/// Bytes of stack that are enough for a call, whatever is lent.
pub const STACK: usize = 256 * 1024;

/// Checks a plan.
pub fn check(plan: &[u8]) -> Result<(), Refusal> {
    Refusal::told(&foreign::check(plan), plan, None).map_or(Ok(()), Err)
}

/// Answers a case into lent buffers of any length and content. Nothing is allocated.
pub fn answer_into<'a>(
    plan: &[u8],
    case: &[u8],
    lines: &'a mut [u8],
    events: &'a mut [u8],
) -> Result<Answered<'a>, Refusal> {
    let told = foreign::answer(plan, case, lines, events);
    answered(&told, plan, case, lines, events)
}

/// Shows the world of that number, counted from 0 among the admissible ones, in lent buffers of any length and content.
pub fn show_into<'a>(
    plan: &[u8],
    case: &[u8],
    world: u64,
    lines: &'a mut [u8],
    events: &'a mut [u8],
) -> Result<Answered<'a>, Refusal> {
    let told = foreign::show(plan, case, world, lines, events);
    let shown = answered(&told, plan, case, lines, events);
    shown.map_err(|refusal| Refusal { world: Some(world), ..refusal })
}

pub(crate) fn answered<'a>(
    told: &Told,
    plan: &[u8],
    case: &[u8],
    lines: &'a [u8],
    events: &'a [u8],
) -> Result<Answered<'a>, Refusal> {
    match Refusal::told(told, plan, Some(case)) {
        Some(refusal) => Err(refusal),
        None => {
            let [.., line_count, event_count, worlds] = *told;
            let lines = first(lines, line_count, LINE);
            let events = first(events, event_count, EVENT);
            Ok(Answered { lines, events, worlds })
        }
    }
}

/// The bytes of the first so many things of a size, as far as there are any.
fn first(bytes: &[u8], count: u64, size: usize) -> &[u8] {
    let length = usize::try_from(count).unwrap_or(usize::MAX).saturating_mul(size);
    bytes.get(..length).unwrap_or(bytes)
}

/// A result that stands in lent buffers.
#[derive(Clone, Copy, Debug)]
pub struct Answered<'a> {
    lines: &'a [u8],
    events: &'a [u8],
    worlds: u64,
}

impl<'a> Answered<'a> {
    /// One line for each person of the roster, rising.
    pub fn lines(&self) -> impl Iterator<Item = Line> + 'a {
        self.lines.chunks_exact(LINE).filter_map(|bytes| Line::of(bytes.first_chunk()?))
    }

    /// Rising by their bytes, no repeats.
    pub fn events(&self) -> impl Iterator<Item = Event> + 'a {
        self.events.chunks_exact(EVENT).filter_map(|bytes| Event::of(bytes.first_chunk()?))
    }

    /// How many worlds are admissible.
    pub fn worlds(&self) -> u64 {
        self.worlds
    }

    /// A copy that stands by itself.
    pub fn to_answer(&self) -> Answer {
        let (lines, events) = (self.lines().collect(), self.events().collect());
        Answer { lines, events, worlds: self.worlds }
    }
}

/// A result that stands by itself.
#[derive(Clone, Debug, PartialEq, Eq)]
pub struct Answer {
    /// One line for each person of the roster, rising.
    pub lines: Vec<Line>,
    /// Rising by their bytes, no repeats.
    pub events: Vec<Event>,
    /// How many worlds are admissible.
    pub worlds: u64,
}

impl Answer {
    /// What is said of a person; none for one off the roster.
    pub fn line(&self, person: u8) -> Option<&Line> {
        self.lines.iter().find(|line| line.person == person)
    }
}

/// Buffers to be used again and again, which always suffice: for the few cases with more than 4,096 events they lend more.
#[derive(Clone, Debug)]
pub struct Buffers {
    pub(crate) lines: Vec<u8>,
    pub(crate) events: Vec<u8>,
}

impl Default for Buffers {
    fn default() -> Buffers {
        Buffers { lines: vec![0; LINES_LENGTH], events: vec![0; EVENTS_LENGTH] }
    }
}

impl Buffers {
    pub fn new() -> Buffers {
        Buffers::default()
    }

    /// Answers a case.
    pub fn answer(&mut self, plan: &[u8], case: &[u8]) -> Result<Answered<'_>, Refusal> {
        let told = self.ask(|lines, events| foreign::answer(plan, case, lines, events));
        answered(&told, plan, case, &self.lines, &self.events)
    }

    /// Shows the world of that number, counted from 0 among the admissible ones.
    pub fn show(&mut self, plan: &[u8], case: &[u8], world: u64) -> Result<Answered<'_>, Refusal> {
        let told = self.ask(|lines, events| foreign::show(plan, case, world, lines, events));
        let shown = answered(&told, plan, case, &self.lines, &self.events);
        shown.map_err(|refusal| Refusal { world: Some(world), ..refusal })
    }

    /// Lends room for 4,096 events; if that is too short, for all that there can be.
    pub(crate) fn ask(&mut self, mut call: impl FnMut(&mut [u8], &mut [u8]) -> Told) -> Told {
        let length = EVENTS_LENGTH.min(self.events.len());
        let (first, _) = self.events.split_at_mut(length);
        let told = call(&mut self.lines, first);
        if told[0] != u64::from(Reason::EventsDoNotFit.number()) {
            return told;
        }
        self.events.resize(MOST_EVENTS_LENGTH, 0);
        call(&mut self.lines, &mut self.events)
    }
}

/// Answers a case. There is always room: no refusal 12 and no 13.
pub fn answer(plan: &[u8], case: &[u8]) -> Result<Answer, Refusal> {
    Buffers::new().answer(plan, case).map(|answered| answered.to_answer())
}

/// Shows the world of that number, counted from 0 among the admissible ones. There is room as for an answer.
pub fn show(plan: &[u8], case: &[u8], world: u64) -> Result<Answer, Refusal> {
    Buffers::new().show(plan, case, world).map(|answered| answered.to_answer())
}

/// The circle of a person: that person and all who are reached by rules, unresolved decisions and facts that join persons, on the roster or
/// off it. What a case says of a fact that touches nobody of the circle does not show in the person's line. Plan, heading and constraints
/// alone make a circle. None for a number above 63, for a plan that is refused, and for a case that is refused by 1 to 4; a case that a later
/// number refuses has circles.
pub fn circle(plan: &[u8], case: &[u8], person: u8) -> Option<Persons> {
    let circle = Persons::from_mask(foreign::circle(plan, case, person));
    (!circle.is_empty()).then_some(circle)
}
