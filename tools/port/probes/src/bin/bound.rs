//! bound N SEED: bindings, influence, variables, counts of worlds and refusals of N random inputs and of all ladders, by the proved code and
//! by the model, which must agree.

use inputs::random::Random;
use inputs::samples::{self, Sample};
use inputs::smallest::smallest;
use inputs::vectors::to_hex;
use judge::trial::count_and_seed;
use model::expressions::{Binding, Bound, Slot};
use model::records::Plan;
use probes::expected::{Expected, worlds};

/// What the entries answer of a case; nothing of one that is not read.
#[derive(Default)]
struct Answers {
    codes: Vec<u8>,
    /// Of each fact, then of each decision; nobody for what is no variable.
    influence: Vec<u64>,
    variables: Vec<u16>,
    worlds: (u64, u64),
}

impl Answers {
    fn of(bound: &Bound, most: u64) -> Answers {
        let facts = bound.bindings.len();
        let mut influence = vec![0; facts + bound.decisions.len()];
        let mut variables = Vec::new();
        for variable in &bound.variables {
            let (at, number) = match variable.slot {
                Slot::Fact(fact) => (fact, fact),
                Slot::Decision(decision) => (facts + decision, 64 + decision),
            };
            influence[at] = variable.influence;
            variables.push(number as u16 | u16::from(variable.choices) << 8);
        }
        Answers {
            codes: bound.bindings.iter().copied().map(code).collect(),
            influence,
            variables,
            worlds: worlds(bound, most),
        }
    }

    fn compare(&self, plan: &[u8], case: &[u8]) -> Result<(), &'static str> {
        same(&self.codes, |at| probes::binding(plan, case, at)).or(Err("a binding"))?;
        same(&self.influence, |at| probes::influence(plan, case, at)).or(Err("an influence"))?;
        same(&self.variables, |at| probes::variable(plan, case, at)).or(Err("a variable"))?;
        let count = probes::variables(plan, case);
        agree(count == self.variables.len()).or(Err("the number of variables"))?;
        agree(probes::worlds(plan, case) == self.worlds).or(Err("the count of worlds"))
    }
}

fn code(binding: Option<Binding>) -> u8 {
    match binding {
        None => 0,
        Some(Binding::Known(value)) => 1 + u8::from(value),
        Some(Binding::Unknown) => 3,
        Some(Binding::Conflict(seen)) => 3 + seen,
    }
}

fn agree(same: bool) -> Result<(), ()> {
    if same { Ok(()) } else { Err(()) }
}

/// Whether a list is answered entry by entry, and with zeros past its end.
fn same<T: Copy + Default + PartialEq>(
    expected: &[T],
    answer: impl Fn(usize) -> T,
) -> Result<(), ()> {
    let past = [expected.len(), expected.len() + 1, 80, usize::MAX];
    let ends = past.into_iter().all(|at| answer(at) == T::default());
    let mut entries = expected.iter().enumerate();
    agree(ends && entries.all(|(at, &entry)| answer(at) == entry))
}

/// What was compared.
#[derive(Default)]
struct Tally {
    inputs: u64,
    bound: u64,
    /// By candidates: false, true, both.
    conflicts: [u64; 3],
    unknowns: u64,
    decisions: u64,
    relations: u64,
    /// Inputs with 2^64 worlds and more.
    beyond: u64,
    refusals: [u64; 15],
}

impl Tally {
    fn add(&mut self, plan: &[u8], bound: &Bound) {
        self.bound += 1;
        self.beyond += u64::from(bound.world_count().is_none());
        let facts = Plan::read(plan).map_or(Vec::new(), |plan| plan.facts);
        for variable in &bound.variables {
            let Slot::Fact(fact) = variable.slot else {
                self.decisions += 1;
                continue;
            };
            self.relations += u64::from(facts[fact].relation.is_some());
            match bound.bindings[fact] {
                Some(Binding::Conflict(seen)) => self.conflicts[seen as usize - 1] += 1,
                _ => self.unknowns += 1,
            }
        }
    }

    fn print(&self) {
        let conflicts: u64 = self.conflicts.iter().sum();
        let variables = self.unknowns + conflicts + self.decisions;
        let refusals: Vec<String> = (1..15)
            .filter(|&number| self.refusals[number] > 0)
            .map(|number| format!("{number}: {}", self.refusals[number]))
            .collect();
        println!(
            "{} inputs alike, {} of them bound, with {variables} variables ({} Unknown facts, Conflicts of false, true, both {:?}, \
             {} decisions; {} relations), {} with 2^64 worlds and more; refused by number {}",
            self.inputs,
            self.bound,
            self.unknowns,
            self.conflicts,
            self.decisions,
            self.relations,
            self.beyond,
            refusals.join(", ")
        );
    }
}

/// Compares all entries on one input; says what differs.
fn compare(plan: &[u8], case: &[u8], tally: &mut Tally) -> Result<(), &'static str> {
    let expected = Expected::of(plan, case);
    let (number, record, count, maximum) = expected.refusal();
    tally.inputs += 1;
    tally.refusals[number as usize] += 1;
    agree(probes::bindable(plan, case) == (number, record)).or(Err("the refusal"))?;
    if number != 0 {
        let whole = model::answer(plan, case, &mut [0; 64 * 29], &mut []);
        let said = (whole.refusal, whole.record, whole.count, whole.maximum);
        let later = [0, 8, 9].contains(&whole.refusal);
        agree(later || said == (number, record, count, maximum)).or(Err("the model's refusal"))?;
    }
    match expected {
        Expected::Unread(_) => Answers::default().compare(plan, case),
        Expected::Unbound(_) => Ok(()),
        Expected::Bound(bound, most) => {
            tally.add(plan, &bound);
            Answers::of(&bound, most).compare(plan, case)
        }
    }
}

fn differ(plan: &[u8], case: &[u8]) -> bool {
    compare(plan, case, &mut Tally::default()).is_err()
}

fn main() {
    let (count, seed) = count_and_seed("bound");
    let mut tally = Tally::default();
    let ladders = samples::ladders().into_iter().map(Sample::of);
    let randoms = (0..count).map(|number| samples::random(&mut Random::stream(seed, number)));
    for sample in ladders.chain(randoms) {
        if let Err(what) = compare(&sample.plan, &sample.case, &mut tally) {
            let (plan, case) = smallest(sample, differ);
            println!(
                "{what} differs: plan {} case {}",
                to_hex(&plan),
                to_hex(&case)
            );
            std::process::exit(1);
        }
    }
    tally.print();
}
