//! A compiled plan without the judgement of `compile`: document 01 accepts
//! plans that `compile` refuses, and evaluate.rs can still be asked about them.

use std::collections::BTreeMap;

use super::compile::CompiledConstitution;
use super::types::ConstitutionPlan;

fn by_id<T: Clone>(rules: &[T], id: impl Fn(&T) -> &String) -> BTreeMap<String, T> {
    rules.iter().map(|rule| (id(rule).clone(), rule.clone())).collect()
}

pub fn unchecked(plan: ConstitutionPlan) -> CompiledConstitution {
    CompiledConstitution {
        semantics_digest: [0; 32],
        derived_bools: by_id(&plan.derived_bools, |rule| &rule.id),
        edges: by_id(&plan.edges, |rule| &rule.id),
        cuts: by_id(&plan.cuts, |rule| &rule.id),
        attachments: by_id(&plan.attachments, |rule| &rule.id),
        bars: by_id(&plan.bars, |rule| &rule.id),
        statuses: by_id(&plan.statuses, |rule| &rule.id),
        plan,
    }
}
