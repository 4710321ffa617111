//! Times of plans made from tables, by the model and by the proved code.

use std::hint::black_box;

use inputs::random::Random;
use inputs::tables::{self, EDGES, STATUSES};

use crate::clock::Clock;
use crate::tables::{Imported, MOST, import};

/// A table of so many edges and statuses, nothing in it quoted.
fn table(edges: usize, statuses: usize) -> Vec<u8> {
    let mut table = tables::with(&mut Random::new(1), edges, statuses);
    let fields = table.rows.iter_mut().flat_map(|row| &mut row.fields);
    fields.for_each(|field| field.quoted = false);
    table.bytes()
}

/// One row of the table of times, if both make the same plan.
fn row(edges: usize, statuses: usize, rounds: u32) -> Option<String> {
    let table = table(edges, statuses);
    let (mut plan, mut wanted) = ([1; MOST], [2; MOST]);
    let made = model::import(&table, &mut wanted);
    if import(&table, &mut plan) != Imported::from(made) || plan != wanted {
        return None;
    }
    let (mut model, mut port) = (Clock::new(), Clock::new());
    for _ in 0..rounds {
        model.sample(|| {
            black_box(model::import(black_box(&table), &mut wanted));
        });
        port.sample(|| {
            black_box(import(black_box(&table), &mut plan));
        });
    }
    Some(format!(
        "{:<10} {:>6} {:>13} {:>11} {:>11.0} {:>11.0} {:>20.2}",
        "import",
        edges + statuses,
        table.len(),
        made.length,
        model.best,
        port.best,
        port.best / model.best
    ))
}

/// A small table, and the largest; false if the plans differ.
pub fn print(rounds: u32) -> bool {
    println!(
        "{:<10} {:>6} {:>13} {:>11} {:>11} {:>11} {:>20}",
        "table", "rows", "bytes", "plan", "model", "port", "port/model"
    );
    let rows = [(8, 2), (EDGES, STATUSES)].map(|(edges, statuses)| row(edges, statuses, rounds));
    rows.iter().flatten().for_each(|row| println!("{row}"));
    rows.iter().all(Option::is_some)
}
