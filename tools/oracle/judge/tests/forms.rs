//! What docs/DIFFERENCES.md says of the Rust's own forms, which the bytes of
//! document 01 cannot express: run on the Rust's types.

use std::collections::BTreeSet;

use inputs::build;
use inputs::wire::{Case, Node, Plan};
use judge::translate::{Translated, translate};
use reference::unit_derivation::compile::compile;
use reference::unit_derivation::evaluate::derive_units;
use reference::unit_derivation::types::*;

fn run(given: &Translated) -> Result<UnitDerivationResult, UnitDerivationError> {
    derive_units(&compile(given.plan.clone())?, &given.input, &given.config)
}

/// One boolean fact on which an edge between 0 and 1 depends.
fn one_fact() -> Plan {
    Plan {
        facts: vec![None],
        nodes: vec![Node::Fact(0)],
        edges: vec![build::base(0, 1, 0)],
        ..Plan::default()
    }
}

fn whole() -> Translated {
    translate(&build::whole_plan(), &build::whole_case())
}

/// Memberships without their provenance, which carries the digest.
fn memberships(
    result: &UnitDerivationResult,
) -> Vec<(String, Projection, ProjectionRole, BTreeSet<Citation>)> {
    let tuples = result.memberships.iter().cloned();
    tuples.map(|tuple| (tuple.person, tuple.projection, tuple.role, tuple.citations)).collect()
}

#[test]
fn c24_records_for_facts_of_no_plan_are_ignored() {
    let mut given = translate(&build::plan(), &build::case(1));
    let observation = ObservedBool {
        value: true,
        evidence: Evidence { id: "v000".to_string(), citation: Citation::new("q000", "a") },
    };
    given.input.bool_facts.push(BoolFactInput {
        name: "f200".to_string(),
        observations: vec![observation.clone()],
        explicit_unknown: None,
    });
    given.input.relation_families.push(RelationFamilyInput {
        name: "a000".to_string(),
        scope: "z001".to_string(),
        completeness: None,
        facts: vec![RelationFact { tuple: vec!["p200".to_string()], observation }],
    });
    assert!(run(&given).is_ok());
    // Here a record must name a fact of the plan.
    let case = Case { booleans: vec![build::observe(200, &[])], ..build::case(1) };
    let found = model::answer(&build::plan().encode(), &case.encode(), &mut [0; 29], &mut []);
    assert_eq!((found.refusal, found.record), (4, 1));
}

#[test]
fn d1_evidence_is_an_id_and_a_citation() {
    let booleans = vec![build::observe(0, &[(1, 1), (1, 1)])];
    let mut given = translate(&one_fact(), &Case { booleans, ..build::case(3) });
    assert!(run(&given).unwrap().trace.input_conflicts.is_empty());
    given.input.bool_facts[0].observations[1].evidence.citation = Citation::new("other", "a");
    assert_eq!(run(&given).unwrap().trace.input_conflicts.len(), 1);
}

#[test]
fn d2_citations_without_a_place_change_digests_only() {
    let (given, mut other) = (whole(), whole());
    let named = Citation::new("other", "other");
    for edge in &mut other.plan.edges {
        edge.defeaters.iter_mut().for_each(|defeater| defeater.citation = named.clone());
    }
    for cut in &mut other.plan.cuts {
        cut.precedes.iter_mut().for_each(|order| order.citation = named.clone());
        for precedence in &mut cut.edge_precedence {
            precedence.decision = match precedence.decision.clone() {
                CutEdgeDecision::Blocked { .. } => {
                    CutEdgeDecision::Blocked { citation: named.clone() }
                }
                CutEdgeDecision::Overrides { .. } => {
                    CutEdgeDecision::Overrides { citation: named.clone() }
                }
                CutEdgeDecision::Unresolved { .. } => {
                    CutEdgeDecision::Unresolved { issue: "other".to_string() }
                }
            };
        }
    }
    for constraint in &mut other.input.integrity_constraints {
        constraint.citation = named.clone();
    }
    let digest = |given: &Translated| compile(given.plan.clone()).unwrap().semantics_digest();
    assert_ne!(digest(&given), digest(&other));
    let (left, right) = (run(&given).unwrap(), run(&other).unwrap());
    assert_ne!(left.trace.root, right.trace.root);
    assert_eq!(memberships(&left), memberships(&right));
    assert_eq!(left.indeterminate, right.indeterminate);
    assert_eq!(left.trace.events, right.trace.events);
}

/// "p10" sorts before "p2": numbers and names agree only at one width.
#[test]
fn d3_ids_of_several_widths_sort_otherwise() {
    let mut given = translate(&build::plan(), &Case { complete: None, ..build::case(3) });
    given.input.roster.persons = vec!["p2".to_string(), "p10".to_string()];
    let result = run(&given).unwrap();
    let persons: Vec<&str> = result.indeterminate.iter().map(|item| item.person.as_str()).collect();
    assert_eq!(persons, ["p10", "p2"]);
}

#[test]
fn d4_a_person_twice_on_the_roster_is_refused() {
    let mut given = translate(&build::plan(), &build::case(3));
    given.input.roster.persons = vec!["p000".to_string(), "p000".to_string()];
    let namespace = "roster person";
    let id = "p000".to_string();
    assert_eq!(run(&given), Err(UnitDerivationError::DuplicateNamespace { namespace, id }));
}

#[test]
fn e1_the_flag_and_the_version_are_the_hosts() {
    let mut given = whole();
    given.config.enabled = false;
    assert_eq!(run(&given), Err(UnitDerivationError::Disabled));
    given.config.enabled = true;
    given.config.semantics_version = "other".to_string();
    let refused = UnitDerivationError::UnsupportedExperimentalVersion("other".to_string());
    assert_eq!(run(&given), Err(refused));
}

#[test]
fn e2_strata_are_the_hosts() {
    let plan = Plan {
        nodes: vec![Node::Literal(1), Node::Not(0)],
        statuses: vec![build::status(0, 1)],
        ..Plan::default()
    };
    let mut given = translate(&plan, &build::case(1));
    assert!(run(&given).is_ok());
    given.plan.derived_bools[0].stratum = Stratum::Unit;
    assert!(matches!(run(&given), Err(UnitDerivationError::UnitStratumDependency(_))));
}

#[test]
fn e3_derived_names_can_be_cyclic() {
    let mut given = translate(&build::plan(), &build::case(1));
    given.plan.derived_bools.push(DerivedBool {
        id: "n000".to_string(),
        stratum: Stratum::Person,
        expr: BoolExpr::Derived("n000".to_string()),
    });
    assert!(matches!(run(&given), Err(UnitDerivationError::CyclicDependency(_))));
}

#[test]
fn e4_supplied_entities_change_no_answer() {
    let (given, mut other) = (whole(), whole());
    other.input.supplied_entities.push(SuppliedEntity {
        entity_type: "place".to_string(),
        id: "x000".to_string(),
        evidence: Evidence { id: "v000".to_string(), citation: Citation::new("q000", "a") },
    });
    let (left, right) = (run(&given).unwrap(), run(&other).unwrap());
    assert_eq!(memberships(&left), memberships(&right));
    assert_eq!(left.indeterminate, right.indeterminate);
}
