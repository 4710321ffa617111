//! The lists of vectors: which calls, in which order, and who vouches for
//! each expected value.

mod limits;
mod lists;
mod pools;
mod random;
mod spaces;
mod starred;
mod tables;

use std::collections::HashSet;

use inputs::list_vectors::ListVector;
use inputs::pool_vectors::PoolVector;
use inputs::table_vectors::TableVector;
use inputs::vectors::{Call, Expected, Op, Vector};
use model::Citing;

use crate::compare::{by_block, refusal_of, roomy};
use crate::rust::{NoAnswer, Oracle};
use crate::sides::model_answers;

/// The seed of the committed lists.
pub const SEED: u64 = 20261115;

/// Who vouches for an expected value beside the model.
#[derive(Clone, Copy, Debug, PartialEq, Eq)]
pub enum Source {
    /// compile and derive_units (or evaluate_world) gave the same.
    Rust,
    /// evaluate.rs gave the same once the judgement of compile was stepped over.
    Evaluate,
    /// The Rust refuses the case for the same reason; the record is the model's.
    RustRefusal,
    /// Nobody: the Rust has no counterpart.
    Model,
}

/// What a line of a list holds.
pub trait Listed {
    fn print(&self) -> String;
    fn refusal(&self) -> u8;
}

impl Listed for Vector {
    fn print(&self) -> String {
        Vector::print(self)
    }

    fn refusal(&self) -> u8 {
        self.expected.refusal
    }
}

impl Listed for PoolVector {
    fn print(&self) -> String {
        PoolVector::print(self)
    }

    fn refusal(&self) -> u8 {
        self.expected.answer.refusal
    }
}

impl Listed for TableVector {
    fn print(&self) -> String {
        TableVector::print(self)
    }

    fn refusal(&self) -> u8 {
        self.expected.refusal
    }
}

impl Listed for ListVector {
    fn print(&self) -> String {
        ListVector::print(self)
    }

    fn refusal(&self) -> u8 {
        ListVector::refusal(self)
    }
}

/// Named parts of a list, and its lines.
pub struct List<V = Vector> {
    pub vectors: Vec<(V, Source)>,
    /// Title and number of the first line, counted from 1.
    pub sections: Vec<(&'static str, usize)>,
    seen: HashSet<String>,
}

impl<V> Default for List<V> {
    fn default() -> List<V> {
        List { vectors: Vec::new(), sections: Vec::new(), seen: HashSet::new() }
    }
}

impl<V: Listed> List<V> {
    fn section(&mut self, title: &'static str) {
        self.sections.push((title, self.vectors.len() + 1));
    }

    /// Adds a vector unless the list has it already.
    fn put(&mut self, vector: V, source: impl FnOnce(&V) -> Source) {
        if self.seen.insert(vector.print()) {
            let source = source(&vector);
            self.vectors.push((vector, source));
        }
    }

    pub fn text(&self) -> String {
        self.vectors.iter().map(|(vector, _)| vector.print() + "\n").collect()
    }
}

impl List {
    fn add(&mut self, call: Call) -> Expected {
        let expected = model_answers(Citing::ByBlock, &call);
        self.put(Vector { call, expected: expected.clone() }, source);
        expected
    }

    fn check(&mut self, plan: &[u8]) {
        self.add(Call {
            op: Op::Check,
            plan: plan.to_vec(),
            case: Vec::new(),
            world: 0,
            lines_len: 0,
            events_len: 0,
        });
    }

    /// An answer into buffers of just the length it needs.
    fn answer(&mut self, plan: &[u8], case: &[u8]) -> Expected {
        self.fitted(roomy(Op::Answer, plan, case, 0))
    }

    fn show(&mut self, plan: &[u8], case: &[u8], world: u64) -> Expected {
        self.fitted(roomy(Op::Show, plan, case, world))
    }

    fn fitted(&mut self, call: Call) -> Expected {
        self.add(fit(call))
    }

    /// The same call with buffers of no length, one short, exact and long.
    fn lengths(&mut self, call: Call) {
        let exact = fit(call);
        let (lines, events) = (exact.lines_len, exact.events_len);
        let shorter = |length: usize| length.saturating_sub(1);
        let pairs = [
            (lines, events),
            (0, events),
            (shorter(lines), events),
            (lines, 0),
            (lines, shorter(events)),
            (0, 0),
            (lines + 1, events + 1),
            (lines + 28, events + 11),
            (lines + 29, events + 12),
        ];
        for (lines_len, events_len) in pairs {
            self.add(Call { lines_len, events_len, ..exact.clone() });
        }
    }
}

/// Buffers of just the length that the answer needs; a refused call keeps a
/// short pair of buffers.
fn fit(call: Call) -> Call {
    let found = model_answers(Citing::ByBlock, &call);
    let (lines_len, events_len) = match found.refusal {
        0 => (found.line_bytes.len(), found.event_bytes.len()),
        5 | 10 | 11 | 14 => (call.lines_len, 24),
        _ => (64, 24),
    };
    Call { lines_len, events_len, ..call }
}

/// Who vouches; panics where the Rust says otherwise.
fn source(vector: &Vector) -> Source {
    let Vector { call, expected } = vector;
    match (call.op, expected.refusal) {
        (Op::Check, 0) => match Oracle::compile(&call.plan) {
            Ok(()) => Source::Rust,
            Err(_) => Source::Model,
        },
        (Op::Check, _) => Source::Model,
        (_, 0) => answered_source(vector),
        (_, 5 | 8..=11) => refused_source(vector),
        _ => Source::Model,
    }
}

fn answered_source(vector: &Vector) -> Source {
    let call = &vector.call;
    let (oracle, source) = match Oracle::new(&call.plan, &call.case) {
        Ok(oracle) => (oracle, Source::Rust),
        Err(NoAnswer::Plan(_)) => match Oracle::unchecked(&call.plan, &call.case) {
            Ok(oracle) => (oracle, Source::Evaluate),
            Err(error) => panic!("{error:?}: {}", vector.print()),
        },
        Err(NoAnswer::WouldNotEnd(_)) => return Source::Model,
        Err(error) => panic!("{error:?}: {}", vector.print()),
    };
    let shown = (call.op == Op::Show).then_some(call.world);
    let rust = by_block(&oracle, shown).expect("an answer of the Rust");
    assert_eq!(rust, vector.expected, "{}", vector.print());
    source
}

fn refused_source(vector: &Vector) -> Source {
    let (call, expected) = (&vector.call, &vector.expected);
    if model::check(&call.plan).refusal != 0 {
        return Source::Model;
    }
    let Ok(oracle) = Oracle::new(&call.plan, &call.case) else {
        return Source::Model;
    };
    let Err(NoAnswer::Case(error)) = oracle.answer() else {
        panic!("the Rust answers {}", vector.print());
    };
    let rust = Expected { record: expected.record, ..refusal_of(&error) };
    assert_eq!(rust, *expected, "{}", vector.print());
    Source::RustRefusal
}

pub use lists::{fixed as fixed_lists, sample as sample_lists};
pub use pools::{fixed as fixed_pools, sample as sample_pools};
pub use tables::{fixed as fixed_tables, sample as sample_tables};

/// The list for the repository's own tests.
pub fn fixed(seed: u64) -> List {
    let mut list = List::default();
    list.section("the cases of document 01's last sections, by hand");
    starred::add(&mut list);
    list.section("numbers of worlds, large rosters, persons 0 and 63");
    spaces::add(&mut list);
    list.section("limits of records and lists: none, one short, full, one over");
    limits::add_counts(&mut list);
    list.section("limits of values");
    limits::add_values(&mut list);
    list.section("a whole plan and case, cut short at every byte");
    limits::add_prefixes(&mut list);
    list.section("a whole plan and case, every byte and every bit map changed");
    limits::add_changes(&mut list);
    list.section("the order of refusals");
    limits::add_orders(&mut list);
    list.section("random inputs of the compared domain");
    random::add_random(&mut list, seed);
    list.section("random inputs with buffers of no length, one short, exact and long");
    random::add_lengths(&mut list, seed);
    list.section("random plans that only document 01 accepts");
    random::add_outside(&mut list, seed);
    list.section("damaged random inputs");
    random::add_damaged(&mut list, seed);
    list
}

/// The list of tiny answers.
pub fn sample(seed: u64) -> List {
    let mut list = List::default();
    list.section("tiny inputs, eight worlds at most");
    random::add_tiny(&mut list, seed);
    list
}
