//! Answer and show, by the proved code and by the model: the same numbers and the same bytes, whatever buffers are lent.

use std::fmt;

use inputs::random::Random;
use model::Outcome;
use model::report::{EVENT, LINE};

/// Room to ask the model what is needed: all lines that there can be, and many events.
const MOST: (usize, usize) = (64, 4096);

/// Bytes on both sides of a lent buffer, which no call may touch.
const MARGIN: usize = 16;

/// What is asked of both: an answer, or the world of a number.
#[derive(Clone, Copy)]
pub struct Asked<'a> {
    plan: &'a [u8],
    case: &'a [u8],
    world: Option<u64>,
}

/// Where they differ.
pub struct Difference {
    what: &'static str,
    world: Option<u64>,
    lines: usize,
    events: usize,
}

impl fmt::Display for Difference {
    fn fmt(&self, to: &mut fmt::Formatter) -> fmt::Result {
        match self.world {
            None => write!(to, "{} of the answer", self.what)?,
            Some(world) => write!(to, "{} of world {world}", self.what)?,
        }
        write!(
            to,
            " with {} bytes for lines and {} for events",
            self.lines, self.events
        )
    }
}

/// A lent buffer, full of dirt.
pub struct Lent {
    bytes: Vec<u8>,
    before: Vec<u8>,
}

impl Lent {
    pub fn new(length: usize, random: &mut Random) -> Lent {
        let before: Vec<u8> = (0..length + 2 * MARGIN).map(|_| random.byte(256)).collect();
        let bytes = before.clone();
        Lent { bytes, before }
    }

    pub fn middle(&mut self) -> &mut [u8] {
        let end = self.bytes.len() - MARGIN;
        &mut self.bytes[MARGIN..end]
    }

    /// The dirt that it was lent with.
    pub fn dirt(&self) -> &[u8] {
        &self.before[MARGIN..self.before.len() - MARGIN]
    }

    /// Whether it holds just these bytes, and the margins what they held.
    pub fn holds(&mut self, expected: &[u8]) -> bool {
        let margin = |bytes: &[u8]| [&bytes[..MARGIN], &bytes[bytes.len() - MARGIN..]].concat();
        margin(&self.bytes) == margin(&self.before) && self.middle() == expected
    }
}

impl<'a> Asked<'a> {
    pub fn answer(plan: &'a [u8], case: &'a [u8]) -> Asked<'a> {
        let world = None;
        Asked { plan, case, world }
    }

    /// A world of the same plan and case.
    pub fn show(self, number: u64) -> Asked<'a> {
        let world = Some(number);
        Asked { world, ..self }
    }

    /// An answer; all its worlds, or one of many; one past the last.
    pub fn and_worlds(self, random: &mut Random) -> Vec<Asked<'a>> {
        let worlds = self.expected().worlds;
        let mut all = vec![self];
        match worlds {
            0..=64 => all.extend((0..worlds).map(|number| self.show(number))),
            _ => all.push(self.show(random.below(worlds as usize) as u64)),
        }
        all.push(self.show(worlds));
        all
    }

    fn model(self, lines: &mut [u8], events: &mut [u8]) -> Outcome {
        match self.world {
            None => model::answer(self.plan, self.case, lines, events),
            Some(world) => model::show(self.plan, self.case, world, lines, events),
        }
    }

    fn port(self, lines: &mut [u8], events: &mut [u8]) -> Outcome {
        match self.world {
            None => crate::answer(self.plan, self.case, lines, events),
            Some(world) => crate::show(self.plan, self.case, world, lines, events),
        }
    }

    /// What the model says with room for everything.
    pub fn expected(self) -> Outcome {
        self.model(&mut vec![0; MOST.0 * LINE], &mut vec![0; MOST.1 * EVENT])
    }

    /// The bytes that its lines and events take. All lines that there can be where it is refused, so that not every buffer is too short for them.
    fn needed(self) -> (usize, usize) {
        let expected = self.expected();
        let lines = match expected.refusal {
            0 => expected.lines as usize,
            _ => MOST.0,
        };
        (LINE * lines, EVENT * expected.events as usize)
    }

    /// Compares both in buffers of these lengths.
    fn within(
        self,
        lines: usize,
        events: usize,
        random: &mut Random,
        tally: &mut Tally,
    ) -> Result<(), Difference> {
        let (mut lines_wanted, mut events_wanted) = (vec![0; lines], vec![0; events]);
        let wanted = self.model(&mut lines_wanted, &mut events_wanted);
        let mut lines_lent = Lent::new(lines, random);
        let mut events_lent = Lent::new(events, random);
        let told = self.port(lines_lent.middle(), events_lent.middle());
        let what = if told != wanted {
            "the numbers"
        } else if !lines_lent.holds(&lines_wanted) {
            "the lines"
        } else if !events_lent.holds(&events_wanted) {
            "the events"
        } else {
            tally.add(self.world, wanted, &lines_wanted, &events_wanted);
            return Ok(());
        };
        let world = self.world;
        Err(Difference {
            what,
            world,
            lines,
            events,
        })
    }

    /// Compares both in buffers of random lengths, most of which suffice.
    pub fn compare(self, random: &mut Random, tally: &mut Tally) -> Result<(), Difference> {
        let (lines, events) = self.needed();
        let (lines, events) = (any_length(lines, random), any_length(events, random));
        self.within(lines, events, random, tally)
    }

    /// Compares both in buffers that just suffice.
    pub fn compare_fitting(self, random: &mut Random, tally: &mut Tally) -> Result<(), Difference> {
        let (lines, events) = self.needed();
        self.within(lines, events, random, tally)
    }

    /// Compares both in buffers of all lengths that matter.
    pub fn compare_all(self, random: &mut Random) -> Result<(), Difference> {
        let needed = self.needed();
        for lines in lengths(needed.0, random) {
            for events in lengths(needed.1, random) {
                self.within(lines, events, random, &mut Tally::default())?;
            }
        }
        Ok(())
    }
}

/// The answer and its worlds in buffers of all lengths, so that a smaller input shows what a larger one did.
pub fn compare_all(plan: &[u8], case: &[u8]) -> Result<(), Difference> {
    let random = &mut Random::new(1);
    let asked = Asked::answer(plan, case).and_worlds(random);
    asked
        .into_iter()
        .try_for_each(|asked| asked.compare_all(random))
}

/// No byte, one too few, just enough, more.
pub fn lengths(needed: usize, random: &mut Random) -> [usize; 4] {
    let more = needed + random.between(1, 100);
    [0, needed.saturating_sub(1), needed, more]
}

/// One of them; three in four suffice.
pub fn any_length(needed: usize, random: &mut Random) -> usize {
    lengths(needed, random)[random.pick(&[0, 1, 2, 2, 2, 3, 3, 3])]
}

/// What was compared.
pub struct Tally {
    answers: u64,
    shown: u64,
    refusals: [u64; 15],
    /// By person, then kind, 0 to 6.
    lines: [[u64; 7]; 64],
    /// By kind, 1 to 9: there is no kind 0.
    events: [u64; 10],
}

impl Default for Tally {
    fn default() -> Tally {
        Tally {
            answers: 0,
            shown: 0,
            refusals: [0; 15],
            lines: [[0; 7]; 64],
            events: [0; 10],
        }
    }
}

impl Tally {
    pub fn calls(&self) -> u64 {
        self.answers + self.shown
    }

    pub fn refused(&self) -> u64 {
        self.refusals[1..].iter().sum()
    }

    /// A person's lines, by kind.
    pub fn lines_of(&self, person: u8) -> [u64; 7] {
        self.lines[person as usize]
    }

    /// Everybody's lines, by kind.
    fn lines(&self) -> [u64; 7] {
        std::array::from_fn(|kind| self.lines.iter().map(|kinds| kinds[kind]).sum())
    }

    fn add(&mut self, world: Option<u64>, outcome: Outcome, lines: &[u8], events: &[u8]) {
        match world {
            None => self.answers += 1,
            Some(_) => self.shown += 1,
        }
        self.refusals[outcome.refusal as usize] += 1;
        for line in lines.chunks(LINE).take(outcome.lines as usize) {
            self.lines[line[0] as usize][line[1] as usize] += 1;
        }
        for event in events.chunks(EVENT).take(outcome.events as usize) {
            self.events[event[0] as usize] += 1;
        }
    }
}

impl fmt::Display for Tally {
    fn fmt(&self, to: &mut fmt::Formatter) -> fmt::Result {
        write!(
            to,
            "{} calls alike, {} answers and {} worlds shown; by refusal number {:?}, lines by kind {:?}, events by kind {:?}",
            self.calls(),
            self.answers,
            self.shown,
            self.refusals,
            self.lines(),
            self.events
        )
    }
}
