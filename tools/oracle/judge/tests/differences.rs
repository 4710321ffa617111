//! Runs every input of docs/DIFFERENCES.md on both sides.

use std::collections::BTreeSet;

use inputs::vectors::{Expected, Op};
use inputs::wire::{Case, Plan};
use judge::compare::{Covered, Verdict, compare, compare_unchecked, roomy};
use judge::differences::{Claim, ENTRIES, Entry, PLAIN_CASE};
use judge::rust::{NoAnswer, Oracle};
use judge::sides::model_answers;
use judge::translate::translate;
use model::Citing;
use reference::unit_derivation::compile::compile;
use reference::unit_derivation::evaluate::derive_units;

const DOCUMENT: &str = include_str!("../../../../docs/DIFFERENCES.md");

fn model_on(entry: &Entry, op: Op) -> Expected {
    model_answers(Citing::ByBlock, &roomy(op, &entry.plan_bytes(), &entry.case_bytes(), 0))
}

/// Both answer, and apart from the citing rule alike.
fn cited_by_block(entry: &Entry) {
    let verdict = compare(&entry.plan_bytes(), &entry.case_bytes(), &mut Covered::default());
    let verdict = verdict.expect("alike but for the citing rule");
    assert!(matches!(verdict, Verdict::Answered { citing_differs: true, .. }), "{}", entry.id);
}

/// A1 and A2: the citations of the two lines, here and in the Rust.
#[test]
fn the_citing_rules_by_their_masks() {
    for entry in &ENTRIES[..2] {
        let (plan, case) = (entry.plan_bytes(), entry.case_bytes());
        let here = model_on(entry, Op::Answer).line_bytes;
        let rust = Oracle::new(&plan, &case).and_then(|oracle| oracle.answer());
        let rust = rust.expect("an answer").lines;
        assert_eq!((here[21], here[29 + 21]), (3, 3), "{}", entry.id);
        assert_eq!((rust[21], rust[29 + 21]), (3, 1), "{}", entry.id);
    }
}

/// A3 and A4: one line, alike but for what the Rust calls unresolved.
fn kind_alone(entry: &Entry, kind: u8, reason: &str) {
    alike(entry);
    let line = model_on(entry, Op::Answer).line_bytes;
    assert_eq!(line[..2], [0, kind], "{}", entry.id);
    assert!(line[2..].iter().all(|&byte| byte == 0), "{}", entry.id);
    let plan = Plan::decode(&entry.plan_bytes()).expect("a plan");
    let case = Case::decode(&entry.case_bytes()).expect("a case");
    let given = translate(&plan, &case);
    let compiled = compile(given.plan).expect("accepted");
    let result = derive_units(&compiled, &given.input, &given.config).expect("answered");
    let reasons = BTreeSet::from([reason.to_string()]);
    assert_eq!(result.indeterminate[0].unresolved_facts, reasons, "{}", entry.id);
}

fn alike(entry: &Entry) {
    let verdict = compare(&entry.plan_bytes(), &entry.case_bytes(), &mut Covered::default());
    let verdict = verdict.expect("alike");
    assert!(matches!(verdict, Verdict::Answered { citing_differs: false, .. }), "{}", entry.id);
}

/// Accepted here, refused there; evaluate.rs behind compile answers as here.
fn only_here(entry: &Entry, words: &str) {
    let (plan, case) = (entry.plan_bytes(), entry.case_bytes());
    assert_eq!(model::check(&plan).refusal, 0, "{}", entry.id);
    match Oracle::compile(&plan) {
        Err(NoAnswer::Plan(error)) => {
            assert!(error.to_string().contains(words), "{}: {error}", entry.id);
        }
        other => panic!("{}: {other:?}", entry.id),
    }
    let verdict = compare_unchecked(&plan, &case, &mut Covered::default());
    assert!(matches!(verdict, Ok(Verdict::Answered { .. })), "{}: {verdict:?}", entry.id);
}

fn only_rust_plan(entry: &Entry, number: u8, record: u64) {
    let found = model_on(entry, Op::Check);
    assert_eq!((found.refusal, found.record), (number, record), "{}", entry.id);
    assert_eq!(Oracle::compile(&entry.plan_bytes()), Ok(()), "{}", entry.id);
}

fn only_rust_case(entry: &Entry, number: u8, record: u64) {
    assert_eq!(model_on(entry, Op::Check).refusal, 0, "{}", entry.id);
    let found = model_on(entry, Op::Answer);
    assert_eq!((found.refusal, found.record), (number, record), "{}", entry.id);
    let oracle = Oracle::new(&entry.plan_bytes(), &entry.case_bytes());
    let answer = oracle.and_then(|oracle| oracle.answer());
    assert!(answer.is_ok(), "{}: {answer:?}", entry.id);
}

fn would_not_end(entry: &Entry) {
    assert_eq!(model_on(entry, Op::Answer).refusal, 0, "{}", entry.id);
    let oracle = Oracle::new(&entry.plan_bytes(), &entry.case_bytes());
    assert!(matches!(oracle, Err(NoAnswer::WouldNotEnd(_))), "{}", entry.id);
}

#[test]
fn every_claim_holds() {
    for entry in ENTRIES {
        match entry.claim {
            Claim::CitedByBlock => cited_by_block(entry),
            Claim::KindAlone(kind, reason) => kind_alone(entry, kind, reason),
            Claim::Alike => alike(entry),
            Claim::OnlyHere(words) => only_here(entry, words),
            Claim::OnlyRustPlan(number, record) => only_rust_plan(entry, number, record),
            Claim::OnlyRustCase(number, record) => only_rust_case(entry, number, record),
            Claim::WouldNotEnd => would_not_end(entry),
        }
    }
}

/// The document's row for an entry: id, words and bytes.
fn row(entry: &Entry) -> String {
    let bytes = match entry.case {
        "" => format!("`{}`", entry.plan),
        case => format!("`{}` and `{case}`", entry.plan),
    };
    format!("| {} | {} | {bytes} |", entry.id, entry.what)
}

#[test]
fn every_entry_stands_in_the_document() {
    assert!(DOCUMENT.contains(PLAIN_CASE));
    for entry in ENTRIES {
        assert!(DOCUMENT.contains(&row(entry)), "missing: {}", row(entry));
    }
}
