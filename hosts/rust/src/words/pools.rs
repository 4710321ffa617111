//! Units with their pools, and who is unplaced, in sentences.

use crate::line::{Line, LineKind};
use crate::names::{Names, sentence};
use crate::operations::Answer;
use crate::persons::Persons;
use crate::pooling::{Pools, Unit};
use crate::words::{self, either};

/// A sum, with its unit.
fn cents(sum: u64) -> String {
    if sum == 1 { "1 cent".to_string() } else { format!("{sum} cents") }
}

/// Those of a unit whose lines are so.
fn those(lines: &[Line], unit: &Unit, so: impl Fn(&Line) -> bool) -> Persons {
    let within = lines.iter().filter(|line| unit.persons.holds(line.person) && so(line));
    within.fold(Persons::NOBODY, |all, line| all.union(Persons::alone(line.person)))
}

/// Why there is nothing in the pool, where nobody's amount is.
fn empty(unit: &Unit, answer: &Answer) -> &'static str {
    match (answer.is_household(unit.persons), those(&answer.lines, unit, Line::is_pooled)) {
        (false, _) => ", as everybody in it is excluded; no household",
        (true, Persons::NOBODY) => ", as nobody in it is pooled",
        (true, _) => "",
    }
}

/// A unit's persons, its pool, and what it means where it is open.
fn unit(unit: &Unit, answer: &Answer, names: &Names) -> String {
    let (lines, empty) = (&answer.lines, empty(unit, answer));
    let pool = format!("{}: {}{empty}.", names.persons(unit.persons), cents(unit.cents));
    let undecided = those(lines, unit, |line| line.kind == LineKind::Role);
    match unit.open {
        true => sentence(&format!("{pool} {}", open(undecided, names))),
        false => sentence(&pool),
    }
}

/// Who has no decided role, and where these amounts are.
fn open(undecided: Persons, names: &Names) -> String {
    let some = either(undecided.iter().map(|person| names.person(person)));
    let amounts = match undecided.count() {
        1 => format!("the amount of {some} is"),
        _ => format!("the amounts of {} are", names.persons(undecided)),
    };
    format!(
        "Open: this pool is not final as long as {some} has no decided role; {amounts} not in it, but unplaced."
    )
}

/// Why a person's amount is unplaced; none for one who is pooled.
pub fn unplaced(line: &Line) -> Option<&'static str> {
    if line.is_pooled() {
        return None;
    }
    let waits = line.open_facts().chain(line.open_decisions()).next().is_some();
    Some(match line.kind {
        LineKind::Decided => "excluded",
        LineKind::Membership => "it is open with whom this person is counted",
        LineKind::Role => "the unit is certain, but the role is not decided",
        LineKind::Overlap if waits => {
            "nothing is decided, as cuts overlap by some or all of the open answers"
        }
        LineKind::Overlap => "nothing is decided, as cuts overlap",
        LineKind::Discretion if waits => "left to discretion, by some or all of the open answers",
        LineKind::Discretion => "left to discretion",
        LineKind::RosterIncomplete => "nothing is decided, as the roster is not complete",
        LineKind::Inconsistent => {
            "nothing is decided, as the constraints of the case cannot all hold"
        }
    })
}

/// Three parts: each unit with its pool; everyone who is unplaced, with amount and reason; the sums. Amounts are those that were pooled.
pub fn pools(pools: &Pools, amounts: &[u32], names: &Names) -> [Vec<String>; 3] {
    [all_units(pools, names), all_unplaced(pools, amounts, names), sums(pools)]
}

fn sums(pools: &Pools) -> Vec<String> {
    let (pooled, sum) = (cents(pools.pooled()), cents(pools.sum()));
    vec![
        format!("All pools together: {pooled}."),
        format!("Pools and unplaced amounts together: {sum}, the sum of the whole list."),
    ]
}

fn all_units(pools: &Pools, names: &Names) -> Vec<String> {
    let rows = pools.units.iter().map(|one| unit(one, &pools.answer, names));
    let households = pools.answer.households().len() as u64;
    let units = words::units(rows.len() as u64, households);
    let heading = match rows.len() {
        0 => "There are no units.".to_string(),
        1 => format!("{units}, with its pool:"),
        _ => format!("{units}, each with its pool:"),
    };
    std::iter::once(heading).chain(rows.map(|row| format!("  {row}"))).collect()
}

fn all_unplaced(pools: &Pools, amounts: &[u32], names: &Names) -> Vec<String> {
    let amounts = pools.answer.lines.iter().zip(amounts);
    let persons = amounts.filter_map(|(line, amount)| Some((line, amount, unplaced(line)?)));
    let rows = persons.map(|(line, amount, why)| {
        let (person, amount) = (names.person(line.person), cents(u64::from(*amount)));
        format!("  {}", sentence(&format!("{person}: {amount}; {why}.")))
    });
    let rows: Vec<String> = rows.collect();
    let sum = cents(pools.unplaced);
    let heading = match rows.is_empty() {
        true => format!("Unplaced: {sum}; everybody is pooled."),
        false => format!("Unplaced: {sum}."),
    };
    [vec![heading], rows].concat()
}
