//! The committed lists agree with the model, and are what their maker makes.

use std::collections::BTreeSet;

use inputs::list_vectors::ListVector;
use inputs::pool_vectors::PoolVector;
use inputs::table_vectors::TableVector;
use inputs::vectors::Vector;
use judge::sides::{model_answers, model_imports, model_lists, model_pools};
use model::Citing;

const LISTS: [&str; 2] = [
    include_str!("../../../../crates/replay/data/vectors.txt"),
    include_str!("../../../../vectors/sample.txt"),
];

const POOLS: [&str; 2] = [
    include_str!("../../../../crates/replay/data/pools.txt"),
    include_str!("../../../../vectors/pools.txt"),
];

const TABLES: [&str; 2] = [
    include_str!("../../../../crates/replay/data/tables.txt"),
    include_str!("../../../../vectors/tables.txt"),
];

const TEXTS: [&str; 2] = [
    include_str!("../../../../crates/replay/data/lists.txt"),
    include_str!("../../../../vectors/lists.txt"),
];

#[test]
fn the_lists_agree_with_the_model() {
    for line in LISTS.iter().flat_map(|list| list.lines()) {
        let vector = Vector::parse(line).expect("a vector");
        assert_eq!(vector.print(), line);
        assert_eq!(model_answers(Citing::ByBlock, &vector.call), vector.expected, "{line}");
    }
    for line in POOLS.iter().flat_map(|list| list.lines()) {
        let vector = PoolVector::parse(line).expect("a vector");
        assert_eq!(vector.print(), line);
        assert_eq!(model_pools(&vector.call), vector.expected, "{line}");
    }
    for line in TABLES.iter().flat_map(|list| list.lines()) {
        let vector = TableVector::parse(line).expect("a vector");
        assert_eq!(vector.print(), line);
        assert_eq!(model_imports(&vector.call), vector.expected, "{line}");
    }
    for line in TEXTS.iter().flat_map(|list| list.lines()) {
        let vector = ListVector::parse(line).expect("a vector");
        assert_eq!(vector.print(), line);
        assert_eq!(model_lists(&vector.call), vector.text, "{line}");
    }
}

#[test]
fn the_lists_are_what_their_maker_makes() {
    let seed = judge::listing::SEED;
    assert!(judge::listing::fixed_pools(seed).text() == POOLS[0], "run tools/make-vectors");
    assert!(judge::listing::sample_pools(seed).text() == POOLS[1], "run tools/make-vectors");
    assert!(judge::listing::fixed_tables(seed).text() == TABLES[0], "run tools/make-vectors");
    assert!(judge::listing::sample_tables(seed).text() == TABLES[1], "run tools/make-vectors");
    assert!(judge::listing::fixed_lists(seed).text() == TEXTS[0], "run tools/make-vectors");
    assert!(judge::listing::sample_lists(seed).text() == TEXTS[1], "run tools/make-vectors");
    assert!(judge::listing::fixed(seed).text() == LISTS[0], "run tools/make-vectors");
    assert!(judge::listing::sample(seed).text() == LISTS[1], "run tools/make-vectors");
}

/// Every line kind, event kind, role and refusal number is there.
#[test]
fn the_fixed_list_covers_all_kinds() {
    let (mut lines, mut events, mut refusals, mut roles) = ([0; 7], [0; 10], [0; 15], [0; 4]);
    for vector in LISTS[0].lines().map(|line| Vector::parse(line).expect("a vector")) {
        refusals[vector.expected.refusal as usize] += 1;
        for line in vector.expected.line_bytes.chunks_exact(29) {
            lines[line[1] as usize] += 1;
            roles[line[2] as usize] += 1;
        }
        for event in vector.expected.event_bytes.chunks_exact(12) {
            events[event[0] as usize] += 1;
        }
    }
    assert!(lines.iter().chain(&refusals).chain(&roles).all(|&count| count > 0));
    assert!(events[1..].iter().all(|&count| count > 0));
}

/// Every line kind and role, units that are open and not, and each refusal that a case of an accepted plan meets.
#[test]
fn the_list_of_pools_covers_all_kinds() {
    let (mut lines, mut refusals, mut roles, mut open) = ([0; 7], [0; 16], [0; 4], [0; 2]);
    for vector in POOLS[0].lines().map(|line| PoolVector::parse(line).expect("a vector")) {
        refusals[vector.expected.answer.refusal as usize] += 1;
        for line in vector.expected.answer.line_bytes.chunks_exact(29) {
            lines[line[1] as usize] += 1;
            roles[line[2] as usize] += 1;
        }
        vector.expected.units.iter().for_each(|unit| open[usize::from(unit.2)] += 1);
    }
    assert!(lines.iter().chain(&roles).chain(&open).all(|&count| count > 0));
    assert!([0, 1, 3, 4, 5, 8, 9, 10, 11, 12, 13, 15].iter().all(|&number| refusals[number] > 0));
}

/// Both refusals, the largest plan, and each row that may be named at the limits.
#[test]
fn the_list_of_tables_covers_all_kinds() {
    let vectors = TABLES[0].lines().map(|line| TableVector::parse(line).expect("a vector"));
    let expected: Vec<_> = vectors.map(|vector| vector.expected).collect();
    for (refusal, row) in
        [(16, 0), (16, 1), (16, 2), (16, 3), (16, 33), (16, 65), (16, 97), (17, 0)]
    {
        assert!(expected.iter().any(|found| (found.refusal, found.row) == (refusal, row)));
    }
    assert!(expected.iter().any(|found| found.plan.len() == 550));
    assert!(expected.iter().filter(|found| found.refusal == 0).count() > 60);
}

/// Every line kind and role that can stand side by side, each refusal that an answer has, and as many units as there may be, households or not.
#[test]
fn the_list_of_texts_covers_all_kinds() {
    let vectors = TEXTS[0].lines().map(|line| ListVector::parse(line).expect("a vector"));
    let vectors: Vec<ListVector> = vectors.collect();
    let refusals: BTreeSet<u8> = vectors.iter().map(ListVector::refusal).collect();
    assert_eq!(refusals, (0..=13).collect());
    let texts = || vectors.iter().map(|vector| str::from_utf8(&vector.text).expect("a text"));
    let rows = || texts().flat_map(|text| text.lines().skip(1));
    let persons = rows().filter(|row| !row.starts_with("units "));
    let kinds: BTreeSet<&str> = persons.filter_map(|row| row.split(' ').nth(1)).collect();
    assert_eq!(kinds, ["0", "1", "2", "3", "4", "5", "6"].into());
    for units in [0, 1, 2, 16, 32, 64] {
        assert!(rows().any(|row| row == format!("units {units}")), "{units}");
    }
    let sorts = ["0 1", "0 2", "0 3", "2 0"];
    for (first, second) in sorts.iter().flat_map(|first| sorts.map(|second| (first, second))) {
        let rows = format!("\n0 {first} 0,1\n1 {second} 0,1\nunits ");
        assert!(texts().any(|text| text.contains(&rows)), "{rows}");
    }
}

/// A line of another form is no vector.
#[test]
fn lines_of_another_form_are_no_texts() {
    let line = TEXTS[0].lines().next().expect("a line");
    let fields: Vec<&str> = line.split(' ').collect();
    let with = |at: usize, text: &str| {
        let mut fields = fields.clone();
        fields[at] = text;
        ListVector::parse(&fields.join(" "))
    };
    assert!(with(0, "list").is_some() && with(1, "-").is_some() && with(2, "-").is_some());
    assert!(with(4, "0").is_some() && with(5, "99").is_some());
    for (at, text) in [(0, "answer"), (3, "1"), (6, "1"), (7, "1"), (8, "1"), (9, "1")] {
        assert_eq!(with(at, text), None);
    }
    for (at, text) in [(10, "0"), (11, "1"), (12, "1"), (13, "-"), (14, "00"), (4, "x")] {
        assert_eq!(with(at, text), None);
    }
    assert_eq!(ListVector::parse(&fields[..14].join(" ")), None);
    assert_eq!(Vector::parse(line), None);
}

/// A line of another form is no vector.
#[test]
fn lines_of_another_form_are_no_tables() {
    let line = TABLES[0].lines().find(|line| line.contains(" 010101030101 ")).expect("a line");
    let fields: Vec<&str> = line.split(' ').collect();
    let with = |at: usize, text: &str| {
        let mut fields = fields.clone();
        fields[at] = text;
        TableVector::parse(&fields.join(" "))
    };
    assert!(with(0, "import").is_some() && with(1, "-").is_some() && with(4, "99").is_some());
    for (at, text) in [(0, "answer"), (2, "00"), (3, "1"), (5, "1"), (8, "1"), (9, "1")] {
        assert_eq!(with(at, text), None);
    }
    for (at, text) in [(10, "5"), (11, "1"), (12, "1"), (13, "0101"), (14, "00"), (6, "x")] {
        assert_eq!(with(at, text), None);
    }
    assert_eq!(TableVector::parse(&fields[..14].join(" ")), None);
    assert_eq!(Vector::parse(line), None);
}

/// A line of another form is no vector.
#[test]
fn lines_of_another_form_are_no_pools() {
    let line = POOLS[0].lines().next().expect("a line");
    let fields: Vec<&str> = line.split(' ').collect();
    let with = |at: usize, text: &str| {
        let mut fields = fields.clone();
        fields[at] = text;
        PoolVector::parse(&fields.join(" "))
    };
    assert!(with(0, "pool").is_some() && with(15, "-").is_some() && with(16, "-").is_some());
    assert_eq!(with(0, "answer"), None);
    assert_eq!(with(15, "010203"), None);
    assert_eq!(with(16, "00"), None);
    assert_eq!(with(16, &"02".repeat(17)), None);
    assert_eq!(with(17, "-"), None);
    assert_eq!(PoolVector::parse(&fields[..17].join(" ")), None);
    assert_eq!(Vector::parse(line), None);
}
