//! make-vectors DIRECTORY: writes fixed.txt and sample.txt, the same of pools, tables and lists (fixed-pools.txt and pools.txt, and so on), and
//! README.md there.

use std::collections::BTreeSet;
use std::path::Path;

use inputs::list_vectors::ListVector;
use inputs::pool_vectors::PoolVector;
use inputs::table_vectors::TableVector;
use judge::listing::{
    List, Listed, SEED, Source, fixed, fixed_lists, fixed_pools, fixed_tables, sample,
    sample_lists, sample_pools, sample_tables,
};

fn write(directory: &Path, name: &str, text: &str) {
    std::fs::write(directory.join(name), text).unwrap_or_else(|error| panic!("{name}: {error}"));
}

/// Line numbers as ranges.
fn ranges(numbers: &[usize]) -> String {
    let mut parts: Vec<(usize, usize)> = Vec::new();
    for &number in numbers {
        match parts.last_mut() {
            Some((_, last)) if *last + 1 == number => *last = number,
            _ => parts.push((number, number)),
        }
    }
    let print = |(first, last): &(usize, usize)| match first == last {
        true => first.to_string(),
        false => format!("{first}–{last}"),
    };
    parts.iter().map(print).collect::<Vec<_>>().join(", ")
}

fn lines_where<V: Listed>(list: &List<V>, holds: impl Fn(u8, Source) -> bool) -> Vec<usize> {
    let numbered = list.vectors.iter().enumerate();
    let wanted = numbered.filter(|(_, (vector, source))| holds(vector.refusal(), *source));
    wanted.map(|(at, _)| at + 1).collect()
}

fn sections<V>(list: &List<V>) -> String {
    let ends = list.sections[1..].iter().map(|(_, first)| first - 1);
    let ends = ends.chain([list.vectors.len()]);
    list.sections
        .iter()
        .zip(ends)
        .map(|((title, first), last)| format!("- {first}–{last}: {title}\n"))
        .collect()
}

fn readme(fixed: &List, sample: &List) -> String {
    let rust = lines_where(fixed, |refusal, source| refusal == 0 && source == Source::Rust);
    let evaluate = lines_where(fixed, |_, source| source == Source::Evaluate);
    let alone = lines_where(fixed, |refusal, source| refusal == 0 && source == Source::Model);
    let refused = lines_where(fixed, |_, source| source == Source::RustRefusal);
    let refusals = lines_where(fixed, |refusal, source| refusal != 0 && source == Source::Model);
    format!(
        include_str!("vectors-readme.txt"),
        seed = SEED,
        fixed = fixed.vectors.len(),
        sample = sample.vectors.len(),
        sections = sections(fixed),
        rust = rust.len(),
        evaluate = evaluate.len(),
        evaluate_lines = ranges(&evaluate),
        alone = alone.len(),
        alone_lines = ranges(&alone),
        refused = refused.len(),
        refused_lines = ranges(&refused),
        refusals = refusals.len(),
    )
}

fn pools_readme(fixed: &List<PoolVector>, sample: &List<PoolVector>) -> String {
    let count = |holds: fn(u8, Source) -> bool| lines_where(fixed, holds).len();
    let units = fixed.vectors.iter().flat_map(|(vector, _)| &vector.expected.units);
    format!(
        include_str!("pools-readme.txt"),
        count = fixed.vectors.len(),
        sample = sample.vectors.len(),
        sections = sections(fixed),
        answered = count(|refusal, _| refusal == 0),
        units = units.clone().count(),
        open = units.filter(|(_, _, open)| *open).count(),
        rust = count(|_, source| source == Source::Rust),
        evaluate = count(|_, source| source == Source::Evaluate),
        refused = count(|_, source| source == Source::RustRefusal),
        wrong = count(|refusal, _| refusal == 15),
        other =
            count(|refusal, source| { refusal != 0 && refusal != 15 && source == Source::Model }),
    )
}

fn tables_readme(fixed: &List<TableVector>, sample: &List<TableVector>) -> String {
    let count = |number: u8| lines_where(fixed, |refusal, _| refusal == number).len();
    format!(
        include_str!("tables-readme.txt"),
        count = fixed.vectors.len(),
        sample = sample.vectors.len(),
        sections = sections(fixed),
        accepted = count(0),
        broken = count(16),
        unfitting = count(17),
    )
}

/// The blocks of a table, and the number in its last row.
fn units_and_households(vector: &ListVector) -> (usize, usize) {
    let text = String::from_utf8_lossy(&vector.text);
    let last = text.lines().find_map(|row| row.strip_prefix("units "));
    let rows = text.lines().skip(1).filter_map(|row| row.split(' ').nth(3));
    let blocks: BTreeSet<&str> = rows.filter(|&block| block != "-").collect();
    (blocks.len(), last.map_or(0, |number| number.parse().expect("a number")))
}

fn lists_readme(fixed: &List<ListVector>, sample: &List<ListVector>) -> String {
    let count = |holds: fn(u8, Source) -> bool| lines_where(fixed, holds).len();
    let counts: Vec<(usize, usize)> =
        fixed.vectors.iter().map(|(vector, _)| units_and_households(vector)).collect();
    format!(
        include_str!("lists-readme.txt"),
        count = fixed.vectors.len(),
        sample = sample.vectors.len(),
        sections = sections(fixed),
        answered = count(|refusal, _| refusal == 0),
        units = counts.iter().map(|(units, _)| units).sum::<usize>(),
        households = counts.iter().map(|(_, households)| households).sum::<usize>(),
        fewer = counts.iter().filter(|(units, households)| households < units).count(),
        rust = count(|_, source| source == Source::Rust),
        evaluate = count(|_, source| source == Source::Evaluate),
        refused = count(|_, source| source == Source::RustRefusal),
        other = count(|refusal, source| refusal != 0 && source == Source::Model),
    )
}

fn main() {
    let directory = std::env::args().nth(1).expect("make-vectors DIRECTORY");
    let directory = Path::new(&directory);
    let (fixed, sample) = (fixed(SEED), sample(SEED));
    let (pools, tiny) = (fixed_pools(SEED), sample_pools(SEED));
    let (tables, short) = (fixed_tables(SEED), sample_tables(SEED));
    let (lists, little) = (fixed_lists(SEED), sample_lists(SEED));
    write(directory, "fixed.txt", &fixed.text());
    write(directory, "sample.txt", &sample.text());
    write(directory, "fixed-pools.txt", &pools.text());
    write(directory, "pools.txt", &tiny.text());
    write(directory, "fixed-tables.txt", &tables.text());
    write(directory, "tables.txt", &short.text());
    write(directory, "fixed-lists.txt", &lists.text());
    write(directory, "lists.txt", &little.text());
    let parts = [
        readme(&fixed, &sample),
        pools_readme(&pools, &tiny),
        tables_readme(&tables, &short),
        lists_readme(&lists, &little),
    ];
    write(directory, "README.md", &parts.concat());
}
