//! One plan and case on the Rust and on those held to it: the answer, and all
//! worlds of small cases.

use std::collections::BTreeMap;

use inputs::vectors::{Call, Expected, Op};
use model::Citing;
use reference::unit_derivation::evaluate::reach::World;
use reference::unit_derivation::types::UnitDerivationError;

use crate::rust::{Answer, NoAnswer, Oracle};
use crate::sides::{Model, Side, run};

const LINE: usize = model::report::LINE;
const EVENT: usize = model::report::EVENT;
/// Cases with so many worlds at most are shown world by world.
pub const MOST_SHOWN: u64 = 64;

/// An implementation that is held to the Rust, and the rule by which it cites
/// bars and statuses.
pub struct Voice<'a> {
    pub name: &'a str,
    pub citing: Citing,
    pub side: &'a dyn Side,
}

/// The model, under either rule.
pub const MODEL: [Voice<'static>; 2] = [
    Voice { name: "model", citing: Citing::ByPerson, side: &Model(Citing::ByPerson) },
    Voice { name: "model", citing: Citing::ByBlock, side: &Model(Citing::ByBlock) },
];

#[derive(Clone, Copy, Debug, PartialEq, Eq)]
pub enum Verdict {
    /// All answered, with equal bytes under either citing rule.
    Answered {
        worlds: u64,
        /// The two citing rules give different lines.
        citing_differs: bool,
    },
    /// All refused the case for the same reason.
    Refused(u8),
}

/// Lines and events of the Rust's answers, by kind.
#[derive(Clone, Copy, Debug, Default)]
pub struct Covered {
    pub lines: [u64; 7],
    pub events: [u64; 10],
}

impl Covered {
    fn take(&mut self, answer: &Answer) {
        answer.lines.chunks_exact(LINE).for_each(|line| self.lines[line[1] as usize] += 1);
        answer.events.chunks_exact(EVENT).for_each(|event| self.events[event[0] as usize] += 1);
    }
}

#[derive(Clone, Debug)]
pub struct Difference {
    pub what: String,
    /// The Rust has no answer, so that nothing was compared.
    pub unanswered: bool,
    pub rust: String,
    pub other: String,
}

fn difference(what: &str, rust: impl std::fmt::Debug, other: impl std::fmt::Debug) -> Difference {
    let (rust, other) = (format!("{rust:?}"), format!("{other:?}"));
    Difference { what: what.to_string(), unanswered: false, rust, other }
}

/// Refusals that the Rust, too, gives a case.
pub fn refusal_of(error: &UnitDerivationError) -> Expected {
    let plain = |refusal| Expected { refusal, ..Expected::default() };
    match error {
        UnitDerivationError::RequiresSegmentation => plain(8),
        UnitDerivationError::DuplicateNamespace { .. } => plain(5),
        UnitDerivationError::UncheckableWorldSpace { worlds, maximum } => {
            Expected { count: *worlds as u64, maximum: *maximum as u64, ..plain(11) }
        }
        UnitDerivationError::InvalidPlan(text) if text.contains("both explicit Unknown") => {
            plain(10)
        }
        UnitDerivationError::InvalidPlan(_) => plain(9),
        _ => plain(0),
    }
}

fn as_expected(answer: &Answer) -> Expected {
    Expected {
        lines: (answer.lines.len() / LINE) as u64,
        events: (answer.events.len() / EVENT) as u64,
        worlds: answer.worlds,
        line_bytes: answer.lines.clone(),
        event_bytes: answer.events.clone(),
        ..Expected::default()
    }
}

/// Buffers of just the length that the Rust's answer needs.
fn call(op: Op, plan: &[u8], case: &[u8], world: u64, answer: &Answer) -> Call {
    Call {
        op,
        plan: plan.to_vec(),
        case: case.to_vec(),
        world,
        lines_len: answer.lines.len(),
        events_len: answer.events.len(),
    }
}

/// A call with room for any answer.
pub fn roomy(op: Op, plan: &[u8], case: &[u8], world: u64) -> Call {
    Call {
        op,
        plan: plan.to_vec(),
        case: case.to_vec(),
        world,
        lines_len: 64 * LINE,
        events_len: 4096 * EVENT,
    }
}

/// Adds document 01's citations to lines that have a block.
fn cite_by_block(answer: &Answer, added: &BTreeMap<u8, u64>) -> Answer {
    let mut answer = answer.clone();
    for line in answer.lines.chunks_exact_mut(LINE) {
        if line[3..11].iter().any(|&byte| byte != 0) {
            let bytes = added[&line[0]].to_le_bytes();
            line[21..29].iter_mut().zip(bytes).for_each(|(byte, more)| *byte |= more);
        }
    }
    answer
}

/// The Rust's answer, or one world of it, with document 01's citations.
pub fn by_block(oracle: &Oracle, shown: Option<u64>) -> Result<Expected, NoAnswer> {
    let answer = oracle.answer()?;
    let worlds = oracle.worlds()?;
    let answer = match shown {
        None => cite_by_block(&answer, &added_by_blocks(oracle, &worlds)),
        Some(number) => {
            let world = worlds.get(number as usize).ok_or(NoAnswer::NoWorld)?;
            cite_by_block(&oracle.shown(world, worlds.len()), &oracle.block_citations(world))
        }
    };
    Ok(as_expected(&answer))
}

fn added_by_blocks(oracle: &Oracle, worlds: &[World]) -> BTreeMap<u8, u64> {
    let mut added = BTreeMap::new();
    for world in worlds {
        for (person, citations) in oracle.block_citations(world) {
            *added.entry(person).or_insert(0) |= citations;
        }
    }
    added
}

struct Sides<'a> {
    plan: &'a [u8],
    case: &'a [u8],
    voices: &'a [Voice<'a>],
}

impl Sides<'_> {
    /// Every voice of that citing rule against the Rust.
    fn check(&self, op: Op, world: u64, citing: Citing, rust: &Answer) -> Result<(), Difference> {
        let call = call(op, self.plan, self.case, world, rust);
        let rust = as_expected(rust);
        for voice in self.voices.iter().filter(|voice| voice.citing == citing) {
            let found = run(voice.side, &call);
            if rust != found {
                let what = format!("{op:?} {world} of the {}, {citing:?}", voice.name);
                return Err(difference(&what, rust, found));
            }
        }
        Ok(())
    }

    /// Both citing rules against the Rust; true if they differ.
    fn check_both(
        &self,
        op: Op,
        world: u64,
        rust: &Answer,
        added: &BTreeMap<u8, u64>,
    ) -> Result<bool, Difference> {
        let by_block = cite_by_block(rust, added);
        self.check(op, world, Citing::ByPerson, rust)?;
        self.check(op, world, Citing::ByBlock, &by_block)?;
        Ok(by_block != *rust)
    }

    fn check_worlds(&self, oracle: &Oracle, answer: &Answer) -> Result<bool, Difference> {
        let worlds = oracle.worlds().map_err(|error| difference("worlds", error, answer))?;
        if worlds.len() as u64 != answer.worlds {
            return Err(difference("worlds", worlds.len(), answer.worlds));
        }
        let added = added_by_blocks(oracle, &worlds);
        let differs = self.check_both(Op::Answer, 0, answer, &added)?;
        if answer.worlds <= MOST_SHOWN {
            for (number, world) in worlds.iter().enumerate() {
                let shown = oracle.shown(world, worlds.len());
                self.check_both(Op::Show, number as u64, &shown, &oracle.block_citations(world))?;
            }
        }
        self.check_beyond(answer.worlds)?;
        Ok(differs)
    }

    /// Every voice on a call with room for any answer.
    fn all(&self, op: Op, world: u64) -> impl Iterator<Item = (&str, Expected)> {
        let call = roomy(op, self.plan, self.case, world);
        self.voices.iter().map(move |voice| (voice.name, run(voice.side, &call)))
    }

    /// One world past the last is refused.
    fn check_beyond(&self, worlds: u64) -> Result<(), Difference> {
        let wanted = Expected { refusal: 14, ..Expected::default() };
        match self.all(Op::Show, worlds).find(|(_, found)| *found != wanted) {
            None => Ok(()),
            Some((name, found)) => {
                Err(difference(&format!("show past the last of the {name}"), wanted, found))
            }
        }
    }

    /// The Rust names no record: all name the one that the first names.
    fn check_refusal(&self, error: &UnitDerivationError) -> Result<Verdict, Difference> {
        let mut wanted = refusal_of(error);
        for (number, (name, found)) in self.all(Op::Answer, 0).enumerate() {
            if number == 0 {
                wanted.record = found.record;
            }
            if found != wanted {
                return Err(difference(&format!("refusal of the {name}"), error, found));
            }
        }
        Ok(Verdict::Refused(wanted.refusal))
    }
}

/// Compares the Rust and the model on one input that both accept, or refuse
/// as a case for a reason that both know.
pub fn compare(plan: &[u8], case: &[u8], covered: &mut Covered) -> Result<Verdict, Difference> {
    compare_voices(&MODEL, plan, case, covered)
}

/// The same for any that are held to the Rust.
pub fn compare_voices(
    voices: &[Voice],
    plan: &[u8],
    case: &[u8],
    covered: &mut Covered,
) -> Result<Verdict, Difference> {
    compare_with(Oracle::new(plan, case), Sides { plan, case, voices }, covered)
}

/// The Rust and the model on a plan that only document 01 accepts: evaluate.rs
/// is asked without the judgement of `compile`.
pub fn compare_unchecked(
    plan: &[u8],
    case: &[u8],
    covered: &mut Covered,
) -> Result<Verdict, Difference> {
    compare_with(Oracle::unchecked(plan, case), Sides { plan, case, voices: &MODEL }, covered)
}

fn compare_with(
    oracle: Result<Oracle, NoAnswer>,
    sides: Sides,
    covered: &mut Covered,
) -> Result<Verdict, Difference> {
    let none = |error| {
        let others: Vec<(&str, Expected)> = sides.all(Op::Answer, 0).collect();
        Difference { unanswered: true, ..difference("the Rust has no answer", error, others) }
    };
    let oracle = oracle.map_err(none)?;
    match oracle.answer() {
        Err(NoAnswer::Case(error)) => sides.check_refusal(&error),
        Err(error) => Err(none(error)),
        Ok(answer) => {
            covered.take(&answer);
            let citing_differs = sides.check_worlds(&oracle, &answer)?;
            Ok(Verdict::Answered { worlds: answer.worlds, citing_differs })
        }
    }
}
