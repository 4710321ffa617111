//! imported N SEED: N random tables of rules, broken ones among them, through the wrapper of hosts/rust and the model: the same plan, or the same
//! refusal and row. The words on a row that is refused name that row, and say what is wrong there and what would mend it. The chains that are
//! noted are those that an answer leaves to discretion.

use std::time::Instant;

use inputs::random::Random;
use inputs::{broken_tables, tables};
use lukhveri::draft::{Note, notes, with_returns};
use lukhveri::{
    CaseBuilder, Event, Frame, IMPORTED_LENGTH, Paper, Persons, Plan, Reason, Refusal, answer,
    import_into,
};

/// What became of the tables.
#[derive(Default)]
struct Tally {
    accepted: u64,
    odd: u64,
    refused: u64,
    /// Of these, those in which a field is named.
    fields: u64,
    /// Accepted tables with a chain.
    chained: u64,
}

/// Whether what is said of a refused row is about that row, and says something.
fn worded(table: &[u8], refusal: &Refusal, tally: &mut Tally) -> Result<(), &'static str> {
    let fault = refusal.row_fault(table).ok_or("there are no words for the row")?;
    let (said, row) = (fault.to_string(), format!("row {} of the table", refusal.record()));
    if refusal.reason != (Reason::BrokenRow { row: fault.row }) || !said.starts_with(&row) {
        return Err("the words name another row");
    }
    if fault.finding().is_none() || fault.line.is_none() || fault.remedy().is_empty() {
        return Err("nothing was found");
    }
    tally.refused += 1;
    tally.fields += u64::from(fault.field.is_some());
    Ok(())
}

/// The persons whom a complete case with everybody on the roster leaves to discretion, by their chains.
fn left_open(plan: &Plan) -> Option<Vec<Persons>> {
    let frame = Frame { scope: 1, segment: 1 };
    let mut case = CaseBuilder::new(plan, frame, Persons::from_mask(u64::MAX)).ok()?;
    case.roster_complete(Paper(1)).ok()?;
    case.most_worlds(1).ok()?;
    let answer = answer(plan.bytes(), case.finish().ok()?.bytes()).ok()?;
    let chains = answer.events.iter().filter_map(|event| match event {
        Event::Discretion { persons } => Some(*persons),
        _ => None,
    });
    Some(chains.collect())
}

/// Whether the notes on an accepted table tell its chains.
fn noted(table: &[u8], plan: &Plan, tally: &mut Tally) -> Result<(), &'static str> {
    let (notes, mut open) = (notes(table), left_open(plan).ok_or("a case is refused")?);
    let chains = notes.iter().filter_map(|note| match note {
        Note::Chain(chain) => Some(chain.persons),
        _ => None,
    });
    let mut chains: Vec<Persons> = chains.collect();
    chains.sort();
    open.sort();
    tally.accepted += 1;
    tally.odd += u64::from(!notes.is_empty());
    tally.chained += u64::from(!open.is_empty());
    match chains == open {
        true => Ok(()),
        false => Err("other chains are noted than are left to discretion"),
    }
}

fn try_one(table: &[u8], room: usize, tally: &mut Tally) -> Result<(), &'static str> {
    let (mut wanted, mut lent) = (vec![0; room], vec![0xa5; room]);
    let made = model::import(table, &mut wanted);
    let told = import_into(table, &mut lent);
    let length = told.as_ref().map_or(0, |plan| plan.len() as u64);
    let (number, row) = told.err().map_or((0, 0), |refusal| (refusal.number(), refusal.record()));
    if (number, row, length) != (made.refusal, made.row, made.length) {
        return Err("the numbers differ");
    }
    if lent != wanted {
        return Err("the bytes differ");
    }
    match Plan::from_table(table) {
        Err(refusal) => worded(table, &refusal, tally),
        Ok(_) if Plan::from_table(&with_returns(table)).is_err() => {
            Err("a table that is accepted is changed")
        }
        Ok(plan) => noted(table, &plan, tally),
    }
}

fn main() {
    let (count, seed) = wrapped::count_and_seed("imported N SEED");
    let (start, mut tally) = (Instant::now(), Tally::default());
    for number in 0..count {
        let random = &mut Random::stream(seed, number);
        let table = match number % 4 {
            0 => tables::good(random).bytes(),
            _ => broken_tables::broken(random),
        };
        let room = random.pick(&[0, 1, 6, 12, 40, IMPORTED_LENGTH - 1, IMPORTED_LENGTH, 600]);
        if let Err(what) = try_one(&table, room, &mut tally) {
            println!("{what}: \"{}\"", table.escape_ascii());
            std::process::exit(1);
        }
    }
    let Tally { accepted, odd, refused, fields, chained } = tally;
    let seconds = start.elapsed().as_secs_f64();
    println!(
        "{count} tables alike in {seconds:.1} s: {accepted} accepted, {odd} with a note, {chained} with a chain; {refused} refused in words, {fields} with a field"
    );
}
