//! The values that make a world of a whole case.

use crate::case_records::CaseRecords;
use crate::limits;
use crate::near::choices::Choices;
use crate::near::kept::Kept;
use crate::near::open::{Open, Variable};
use crate::plan::Plan;

/// What is open in a case, each with its value in the admissible world of that number, in document 01's order; none where there is no such world, and
/// for a case with more choices than a heading can allow.
pub fn values(plan: &Plan, case: &CaseRecords, world: u64) -> Option<Vec<(Variable, bool)>> {
    let kept = Kept::whole(plan, case);
    let open = Open::of(&kept);
    let choices = Choices { kept: &kept, open: &open };
    if choices.count() > usize::from(limits::WORLDS) {
        return None;
    }
    let all = (0..choices.count()).filter_map(|choice| choices.values(choice));
    let mut admissible = all.filter(|values| choices.admissible(values).is_some());
    let values = admissible.nth(usize::try_from(world).ok()?)?;
    Some(open.variables().iter().copied().zip(values).collect())
}
