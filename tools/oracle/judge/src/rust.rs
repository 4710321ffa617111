//! The Rust on document 01's bytes, and its results back in them.

use std::collections::{BTreeMap, BTreeSet};

use inputs::wire::{self, Case, Plan};
use reference::unit_derivation::compile::{CompiledConstitution, compile};
use reference::unit_derivation::evaluate::derive_units;
use reference::unit_derivation::evaluate::reach::{self, World};
use reference::unit_derivation::types::*;
use reference::unit_derivation::unchecked::unchecked;

use crate::translate::{citation_mask, id, mask_of, number, steps, translate};

/// The Rust walks a shared node at each use. More steps than this and it
/// would not end in reasonable time: such inputs are not given to it.
pub const MOST_STEPS: u64 = 20_000_000;

/// Why there is no answer.
#[derive(Clone, Debug, PartialEq, Eq)]
pub enum NoAnswer {
    /// The bytes are no plan or case, or a number in them names nothing.
    NoRecords,
    /// `compile` refused the plan.
    Plan(UnitDerivationError),
    /// `derive_units` refused the case.
    Case(UnitDerivationError),
    /// The walk over shared nodes would take so many steps.
    WouldNotEnd(u64),
    /// There is no such world to show.
    NoWorld,
}

/// Lines, events and counts in document 01's encoding.
#[derive(Clone, Debug, Default, PartialEq, Eq)]
pub struct Answer {
    pub lines: Vec<u8>,
    pub events: Vec<u8>,
    pub worlds: u64,
}

/// A plan and a case as the Rust takes them.
pub struct Oracle {
    plan: Plan,
    compiled: CompiledConstitution,
    input: ConstitutionInput,
    config: UnitDerivationConfig,
    facts_by_key: BTreeMap<String, usize>,
    decisions: Vec<(u8, u8)>,
}

fn decode(plan: &[u8], case: &[u8]) -> Result<(Plan, Case), NoAnswer> {
    let plan = Plan::decode(plan).filter(Plan::is_closed).ok_or(NoAnswer::NoRecords)?;
    let case = Case::decode(case).filter(|case| case.is_closed(&plan));
    let case = case.ok_or(NoAnswer::NoRecords)?;
    match steps(&plan, &case) {
        steps if steps > MOST_STEPS => Err(NoAnswer::WouldNotEnd(steps)),
        _ => Ok((plan, case)),
    }
}

impl Oracle {
    pub fn new(plan: &[u8], case: &[u8]) -> Result<Oracle, NoAnswer> {
        Oracle::with(plan, case, |plan| compile(plan).map_err(NoAnswer::Plan))
    }

    /// Steps over the judgement of `compile`, for plans that only document 01
    /// accepts.
    pub fn unchecked(plan: &[u8], case: &[u8]) -> Result<Oracle, NoAnswer> {
        Oracle::with(plan, case, |plan| Ok(unchecked(plan)))
    }

    fn with(
        plan: &[u8],
        case: &[u8],
        compile: impl Fn(ConstitutionPlan) -> Result<CompiledConstitution, NoAnswer>,
    ) -> Result<Oracle, NoAnswer> {
        let (plan, case) = decode(plan, case)?;
        let translated = translate(&plan, &case);
        let compiled = compile(translated.plan)?;
        let keys = translated.keys.into_iter().enumerate();
        let facts_by_key = keys.map(|(number, key)| (key, number)).collect();
        let (input, config) = (translated.input, translated.config);
        let decisions = unresolved(&plan);
        Ok(Oracle { plan, compiled, input, config, facts_by_key, decisions })
    }

    /// The plan alone, as `compile` judges it.
    pub fn compile(plan: &[u8]) -> Result<(), NoAnswer> {
        let (plan, case) = decode(plan, &Case::default().encode())?;
        compile(translate(&plan, &case).plan).map(|_| ()).map_err(NoAnswer::Plan)
    }

    pub fn answer(&self) -> Result<Answer, NoAnswer> {
        let result =
            derive_units(&self.compiled, &self.input, &self.config).map_err(NoAnswer::Case)?;
        let mut lines = Vec::new();
        for person in &self.input.roster.persons {
            lines.extend_from_slice(&self.line(person, &result));
        }
        Ok(Answer {
            lines,
            events: encode_events(&result.trace.events),
            worlds: result.trace.worlds_evaluated as u64,
        })
    }

    /// All admissible worlds of a case that was answered; none for kinds 5 and 6.
    pub fn worlds(&self) -> Result<Vec<World>, NoAnswer> {
        if self.input.roster.completeness.is_none() {
            return Ok(Vec::new());
        }
        reach::worlds(&self.compiled, &self.input).map_err(NoAnswer::Case)
    }

    pub fn show(&self, world: u64) -> Result<Answer, NoAnswer> {
        self.answer()?;
        let worlds = self.worlds()?;
        let shown = worlds.get(world as usize).ok_or(NoAnswer::NoWorld)?;
        Ok(self.shown(shown, worlds.len()))
    }

    /// A world's lines and events, citations by the Rust's rule.
    pub fn shown(&self, world: &World, worlds: usize) -> Answer {
        let line = |(person, state): (&String, &reach::Person)| {
            let block = state.block.as_ref().map_or(0, mask_of);
            let role = if block == 0 { 0 } else { role_number(state.role.expect("a role")) };
            let kind = state.kind.as_ref().map_or(0, kind_number);
            Line {
                person: number(person),
                kind,
                role,
                block,
                citations: citation_mask(&state.citations),
                ..Line::default()
            }
        };
        let lines = world.persons.iter().flat_map(|entry| line(entry).bytes()).collect();
        Answer { lines, events: encode_events(&world.events), worlds: worlds as u64 }
    }

    /// Document 01's rule for bars and statuses, from the Rust's blocks and
    /// roles of one world: for each person, what the block adds.
    pub fn block_citations(&self, world: &World) -> BTreeMap<u8, u64> {
        let mut added = BTreeMap::new();
        for (person, state) in &world.persons {
            let block = state.block.iter().flatten();
            let cited = block.fold(0, |all, other| all | self.role_citations(world, other));
            added.insert(number(person), cited);
        }
        added
    }

    fn role_citations(&self, world: &World, person: &str) -> u64 {
        let role = world.persons[person].role;
        let person = number(person);
        let bars = self.plan.bars.iter().filter(|bar| {
            role == Some(ProjectionRole::BarredIndependent) && bar.members >> person & 1 == 1
        });
        let statuses = self
            .plan
            .statuses
            .iter()
            .filter(|status| role == Some(ProjectionRole::Excluded) && status.person == person);
        let cited = bars.map(|bar| bar.citation).chain(statuses.map(|status| status.citation));
        cited.fold(0, |all, citation| all | 1 << citation)
    }

    fn line(&self, person: &str, result: &UnitDerivationResult) -> [u8; 29] {
        let mut line = Line { person: number(person), ..Line::default() };
        for tuple in result.memberships.iter().filter(|tuple| tuple.person == person) {
            let unit = result.units.iter().find(|unit| unit.id == tuple.unit).expect("its unit");
            line.block = mask_of(&unit.members);
            line.citations = citation_mask(&tuple.citations);
            if tuple.projection == Projection::ParticipatingMember {
                line.role = role_number(tuple.role);
            }
        }
        for open in result.indeterminate.iter().filter(|open| open.person == person) {
            line.kind = kind_number(&open.kind);
            if line.kind < 5 {
                self.open_fields(&mut line, &open.unresolved_facts);
            }
        }
        line.bytes()
    }

    fn open_fields(&self, line: &mut Line, keys: &BTreeSet<String>) {
        for key in keys {
            match self.facts_by_key.get(key) {
                Some(fact) => line.open_facts |= 1 << fact,
                None => line.open_decisions |= 1 << self.decision_number(key),
            }
        }
    }

    fn decision_number(&self, key: &str) -> usize {
        let is = |&(cut, edge): &(u8, u8)| {
            key == format!("legal-precedence:{}:{}", id('c', cut), id('e', edge))
        };
        self.decisions.iter().position(is).expect("an unresolved decision")
    }
}

fn unresolved(plan: &Plan) -> Vec<(u8, u8)> {
    let mut all = Vec::new();
    for (number, cut) in plan.cuts.iter().enumerate() {
        let open = cut.decisions.iter().flatten().filter(|(_, said)| *said == wire::UNRESOLVED);
        all.extend(open.map(|&(edge, _)| (number as u8, edge)));
    }
    all.sort_unstable();
    all
}

#[derive(Default)]
struct Line {
    person: u8,
    kind: u8,
    role: u8,
    block: u64,
    open_facts: u64,
    open_decisions: u16,
    citations: u64,
}

impl Line {
    fn bytes(&self) -> [u8; 29] {
        let mut bytes = vec![self.person, self.kind, self.role];
        bytes.extend(self.block.to_le_bytes());
        bytes.extend(self.open_facts.to_le_bytes());
        bytes.extend(self.open_decisions.to_le_bytes());
        bytes.extend(self.citations.to_le_bytes());
        bytes.try_into().expect("29 bytes")
    }
}

fn role_number(role: ProjectionRole) -> u8 {
    match role {
        ProjectionRole::Member => 1,
        ProjectionRole::Excluded => 2,
        ProjectionRole::BarredIndependent => 3,
    }
}

fn kind_number(kind: &IndeterminateKind) -> u8 {
    match kind {
        IndeterminateKind::Membership => 1,
        IndeterminateKind::Role(_) => 2,
        IndeterminateKind::ConstitutionOverlapConflict => 3,
        IndeterminateKind::DiscretionNotEncoded => 4,
        IndeterminateKind::RosterNotAssertedComplete => 5,
        IndeterminateKind::InconsistentInputs => 6,
    }
}

fn encode_events(events: &BTreeSet<TraceEvent>) -> Vec<u8> {
    let mut encoded: Vec<[u8; 12]> = events.iter().map(encode_event).collect();
    encoded.sort_unstable();
    encoded.concat()
}

fn encode_event(event: &TraceEvent) -> [u8; 12] {
    let actor_of = |actor: &Option<String>| actor.as_deref().map_or(0, number);
    let (front, mask) = match event {
        TraceEvent::FrozenEdge { rule, left, right } => {
            ([1, number(rule), number(left), number(right)], 0)
        }
        TraceEvent::CutApplied { rule, actor, request_evidence } => {
            ([2, number(rule), actor_of(actor), 0], mask_of(request_evidence))
        }
        TraceEvent::CutBlocked { cut, edge_rule, actor, request_evidence } => {
            ([3, number(cut), number(edge_rule), actor_of(actor)], mask_of(request_evidence))
        }
        TraceEvent::CutOverlapConflict { left, right } => ([4, number(left), number(right), 0], 0),
        TraceEvent::Attachment { rule, target_anchor, actor, request_evidence } => {
            ([5, number(rule), number(target_anchor), number(actor)], mask_of(request_evidence))
        }
        TraceEvent::IndependentBar { rule } => ([6, number(rule), 0, 0], 0),
        TraceEvent::StatusExcluded { rule, person } => ([7, number(rule), number(person), 0], 0),
        TraceEvent::ElectionDefault { fact, actor, value, citation } => {
            let front = [8, number(fact), number(actor), u8::from(*value)];
            (front, u64::from(number(&citation.provision)))
        }
        TraceEvent::DiscretionNotEncoded { persons } => ([9, 0, 0, 0], mask_of(persons)),
    };
    let mut bytes = [0; 12];
    bytes[..4].copy_from_slice(&front);
    bytes[4..].copy_from_slice(&u64::to_le_bytes(mask));
    bytes
}
