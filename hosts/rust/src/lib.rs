//! Finds the units of a roster: the people whom a fee scheme counts together, and nobody else.
//!
//! A plan holds the scheme's rules, a case holds what is known of a roster's people; the answer is one line for each person. Five operations
//! do the work, each by the proved code of the static library: [`check`] a plan, [`answer`] a case, [`show`] one world, [`pool`] amounts by
//! units, [`import`](Plan::from_table) a plan out of a table. They take plain bytes, whatever these are, and give typed results or a
//! [`Refusal`] that says in words what is wrong and where. Nothing panics.
//!
//! [`PlanBuilder`] and [`CaseBuilder`] make the bytes from named things. They turn away what the operations would refuse, when it is
//! given, so that a rule editor can say it at once; facts may come in any order. [`Plan::read`] reads a plan's bytes back, and
//! [`PlanBuilder::reopen`] and [`CaseBuilder::reopen`] open a plan and a case again, to change what they say. [`Plan::warnings`] tells what
//! is accepted and seldom meant.
//!
//! ```
//! use lukhveri::{
//!     CaseBuilder, Citation, Cut, Decision, Edge, Family, Frame, LineKind, Paper, Persons, PlanBuilder,
//! };
//!
//! # fn main() -> Result<(), Box<dyn std::error::Error>> {
//! // Persons 0 and 1 belong together if they live together. Person 1 is counted alone if he asks for it.
//! let mut plan = PlanBuilder::new(1);
//! let live_together = plan.relation(4, &[0, 1])?;
//! let asked = plan.boolean()?;
//! let together = plan.holds(live_together)?;
//! let apart = plan.holds(asked)?;
//! let edge = plan.edge(Edge::combination(0, 1, together, Citation(5)))?;
//! plan.cut(Cut::new(Persons::of(&[1])?, apart, Citation(6)).deciding(edge, Decision::Overrides))?;
//! let plan = plan.finish()?;
//! lukhveri::check(plan.bytes())?;
//!
//! // They do live together. Nobody knows yet whether person 1 asked.
//! let frame = Frame { scope: 1, segment: 1 };
//! let mut case = CaseBuilder::new(&plan, frame, Persons::of(&[0, 1, 2])?)?;
//! case.roster_complete(Paper(0))?;
//! case.family(Family::new(4))?;
//! case.relate(live_together, true, Paper(3))?;
//! let answer = lukhveri::answer(plan.bytes(), case.finish()?.bytes())?;
//! assert_eq!(answer.worlds, 2);
//! let line = answer.line(0).ok_or("person 0 is on the roster")?;
//! assert_eq!(line.kind, LineKind::Membership);
//! assert_eq!(line.open_facts().next(), plan.fact_number(asked));
//!
//! // He did not: one block of two, and person 2 alone.
//! case.observe(asked, false, Paper(7))?;
//! let answer = lukhveri::answer(plan.bytes(), case.finish()?.bytes())?;
//! assert_eq!(answer.units(), [Persons::of(&[0, 1])?, Persons::of(&[2])?]);
//! let line = answer.line(0).ok_or("person 0 is on the roster")?;
//! assert_eq!(line.others(), Persons::of(&[1])?);
//! assert_eq!(line.citations().collect::<Vec<_>>(), [5]);
//!
//! // The scheme changes: persons 0 and 2 belong together, too. The handles serve on, and the case follows its plan.
//! let mut changed = PlanBuilder::reopen(&plan);
//! let always = changed.literal(true)?;
//! changed.edge(Edge::base(0, 2, always, Citation(7)))?;
//! let changed = changed.finish()?;
//! assert!(changed.warnings().is_empty());
//! let mut case = case.over(&changed, Persons::of(&[0, 1, 2])?)?;
//! let answer = lukhveri::answer(changed.bytes(), case.finish()?.bytes())?;
//! assert_eq!(answer.units(), [Persons::of(&[0, 1, 2])?]);
//!
//! // He asks after all: what was said of it is forgotten, and said anew.
//! case.forget(asked)?;
//! case.observe(asked, true, Paper(8))?;
//! let answer = lukhveri::answer(changed.bytes(), case.finish()?.bytes())?;
//! assert_eq!(answer.units(), [Persons::of(&[0, 2])?, Persons::of(&[1])?]);
//!
//! // What is refused says where.
//! let refusal = lukhveri::check(&plan.bytes()[..4]).expect_err("a plan that is cut short");
//! assert_eq!((refusal.number(), refusal.record()), (1, 1));
//! # Ok(())
//! # }
//! ```
//!
//! [`Answer::units`] has every unit, [`Answer::households`] those that draw service: all but the units in which everybody is excluded.
//!
//! [`list`] gives the lister's text, [`circle`] the persons with whom somebody is joined, directly or through others. [`words`] says in sentences what
//! a person's line says and why, from what belongs to the person's circle alone ([`near`]).
//!
//! A refusal says in words what is wrong ([`Refusal::in_words`], [`Refusal::finding`]) and what would mend it ([`Refusal::remedy`]), with the
//! names that [`names`] reads from a file of names; [`files`] reads plans and cases no further than they can be long.
//!
//! [`pool`] gives each unit the sum of its persons' amounts, and says what is unplaced; [`amounts`] reads the list from amounts.bin, or from a
//! table with a person a row.
//!
//! [`Plan::from_table`] makes a plan of the table that a spreadsheet exports; [`draft`] says what is wrong with a row that is refused.
//!
//! [`answer_into`], [`show_into`], [`pool_into`] and [`import_into`] work in buffers that the caller lends and allocate nothing; [`Buffers`] keeps such
//! buffers for many calls.
//! Calls from several threads are independent. A call takes less than 256 KB of its thread's stack ([`STACK`]).

#![deny(unsafe_code)]
#![cfg_attr(
    not(test),
    deny(clippy::unwrap_used, clippy::expect_used, clippy::panic, clippy::indexing_slicing)
)]

pub mod amounts;
mod build_error;
mod case;
mod case_builder;
mod case_change;
mod case_records;
mod conditions;
mod diagnosis;
pub mod draft;
mod event;
pub mod files;
#[allow(unsafe_code)]
mod foreign;
mod handles;
mod importing;
pub mod limits;
mod line;
mod listing;
pub mod names;
pub mod near;
mod numbers;
mod operations;
mod person_masks;
mod persons;
mod plan;
mod plan_builder;
mod plan_change;
mod plan_reader;
mod plan_removal;
mod pooling;
mod ranges;
mod read;
mod records;
mod refusal;
mod refused;
mod renumber;
mod rules;
mod shown;
mod units;
mod unnamed;
mod warning;
mod warnings;
pub mod words;
mod write;

pub use build_error::BuildError;
pub use case::Case;
pub use case_builder::{CaseBuilder, Family, Frame};
pub use case_change::ReopenError;
pub use case_records::{BooleanRecord, CaseRecords, FamilyRecord, RelationRecord};
pub use event::{EVENT, Event, Evidence};
pub use handles::{
    AttachmentId, BarId, BooleanId, CutId, EdgeId, FactId, NodeId, RelationId, RuleId, StatusId,
};
pub use importing::{IMPORTED_LENGTH, import_into};
pub use line::{LINE, Line, LineKind, Role};
pub use listing::{Listing, TEXT_LENGTH, list};
pub use numbers::{Actor, Citation, Paper};
pub use operations::{
    Answer, Answered, Buffers, EVENTS_LENGTH, LINES_LENGTH, MOST_EVENTS_LENGTH, STACK, answer,
    answer_into, check, circle, show, show_into,
};
pub use persons::{Numbers, Persons};
pub use plan::Plan;
pub use plan_builder::PlanBuilder;
pub use plan_removal::Departure;
pub use pooling::{Pooled, Pools, Unit, pool, pool_into};
pub use read::File;
pub use records::{
    Attachment, Bar, Cut, Decision, Edge, Election, Fact, Node, Policy, Precedence, Records, Status,
};
pub use refusal::{Place, Reason, Refusal};
pub use rules::Rule;
pub use warning::Warning;
