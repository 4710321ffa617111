//! The classes for measuring are what they say.

use inputs::classes::{ALL, Class};
use inputs::wire::{Case, Plan};
use judge::measured::inputs_of;
use judge::rust::Oracle;

fn class(name: &str) -> &'static Class {
    ALL.iter().find(|class| class.name == name).expect("a class")
}

#[test]
fn every_class_has_its_inputs_and_the_rust_accepts_their_plans() {
    for class in &ALL {
        let inputs: Vec<_> = inputs_of(class).collect();
        assert_eq!(inputs.len(), class.count);
        for input in inputs {
            assert_eq!(input.known.refusal, 0, "{}", class.name);
            assert!(Oracle::new(&input.plan, &input.case).is_ok(), "{}", class.name);
        }
    }
}

#[test]
fn the_worst_are_at_the_limits() {
    for input in inputs_of(class("worst")) {
        let plan = Plan::decode(&input.plan).expect("a plan");
        let rules = [plan.edges.len(), plan.cuts.len(), plan.attachments.len()];
        assert_eq!(rules, [64, 16, 32]);
        assert_eq!([plan.bars.len(), plan.statuses.len()], [32, 32]);
        assert_eq!([plan.facts.len(), plan.nodes.len()], [64, 256]);
        let case = Case::decode(&input.case).expect("a case");
        assert_eq!(case.roster, u64::MAX);
    }
}
