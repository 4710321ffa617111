//! Running a call on a side, with every byte of both buffers taken into
//! account. A further implementation joins by implementing `Side`.

use inputs::pool_vectors::{PoolCall, PoolExpected};
use inputs::table_vectors::{TableCall, TableExpected};
use inputs::vectors::{Call, Expected, Op};
use model::{Citing, Outcome};

/// Bytes that an implementation must overwrite.
const DIRT: u8 = 0xa5;

/// An implementation of document 01's three operations.
pub trait Side {
    fn check(&self, plan: &[u8]) -> Outcome;

    fn answer(&self, plan: &[u8], case: &[u8], lines: &mut [u8], events: &mut [u8]) -> Outcome;

    fn show(
        &self,
        plan: &[u8],
        case: &[u8],
        world: u64,
        lines: &mut [u8],
        events: &mut [u8],
    ) -> Outcome;
}

/// The model under one of the two citing rules.
pub struct Model(pub Citing);

impl Side for Model {
    fn check(&self, plan: &[u8]) -> Outcome {
        model::check(plan)
    }

    fn answer(&self, plan: &[u8], case: &[u8], lines: &mut [u8], events: &mut [u8]) -> Outcome {
        model::answer_citing(self.0, plan, case, lines, events)
    }

    fn show(
        &self,
        plan: &[u8],
        case: &[u8],
        world: u64,
        lines: &mut [u8],
        events: &mut [u8],
    ) -> Outcome {
        model::show_citing(self.0, plan, case, world, lines, events)
    }
}

/// A side's answer to a call, its buffers dirty beforehand; panics if a byte
/// past the results is not zero.
pub fn run(side: &dyn Side, call: &Call) -> Expected {
    let mut lines = vec![DIRT; call.lines_len];
    let mut events = vec![DIRT; call.events_len];
    let outcome = match call.op {
        Op::Check => {
            lines.fill(0);
            events.fill(0);
            side.check(&call.plan)
        }
        Op::Answer => side.answer(&call.plan, &call.case, &mut lines, &mut events),
        Op::Show => side.show(&call.plan, &call.case, call.world, &mut lines, &mut events),
    };
    expected(outcome, lines, events)
}

pub fn model_answers(citing: Citing, call: &Call) -> Expected {
    run(&Model(citing), call)
}

/// The same of a call that pools.
pub fn model_pools(call: &PoolCall) -> PoolExpected {
    let Call { plan, case, lines_len, events_len, .. } = &call.answer;
    let (mut lines, mut events) = (vec![DIRT; *lines_len], vec![DIRT; *events_len]);
    let found = model::pool(plan, case, &call.amounts, &mut lines, &mut events);
    PoolExpected {
        answer: expected(found.answer, lines, events),
        units: found.units.iter().map(|unit| (unit.block, unit.cents, unit.open)).collect(),
        unplaced: found.unplaced,
    }
}

/// The same of a call that imports a table.
pub fn model_imports(call: &TableCall) -> TableExpected {
    let mut plan = vec![DIRT; call.room];
    let made = model::import(&call.table, &mut plan);
    let rest = plan.split_off(made.length as usize);
    assert!(rest.iter().all(|&byte| byte == 0), "plan buffer past the plan");
    TableExpected { refusal: made.refusal, row: made.row, plan }
}

/// The text of the model's answer to a call.
pub fn model_lists(call: &Call) -> Vec<u8> {
    let (mut lines, mut events) = (vec![DIRT; call.lines_len], vec![DIRT; call.events_len]);
    let outcome = model::answer(&call.plan, &call.case, &mut lines, &mut events);
    model::lister::text(&outcome, &lines).into_bytes()
}

/// What two sides answer, if it is not the same.
pub fn difference(left: &dyn Side, right: &dyn Side, call: &Call) -> Option<(Expected, Expected)> {
    let (left, right) = (run(left, call), run(right, call));
    (left != right).then_some((left, right))
}

/// Cuts the buffers to what was written and asserts that the rest is zero.
fn expected(outcome: Outcome, mut lines: Vec<u8>, mut events: Vec<u8>) -> Expected {
    let line_bytes = outcome.lines as usize * model::report::LINE;
    let event_bytes = outcome.events as usize * model::report::EVENT;
    assert!(lines[line_bytes..].iter().all(|&byte| byte == 0), "line buffer past the lines");
    assert!(events[event_bytes..].iter().all(|&byte| byte == 0), "event buffer past the events");
    lines.truncate(line_bytes);
    events.truncate(event_bytes);
    Expected {
        refusal: outcome.refusal,
        record: outcome.record,
        count: outcome.count,
        maximum: outcome.maximum,
        lines: outcome.lines,
        events: outcome.events,
        worlds: outcome.worlds,
        line_bytes: lines,
        event_bytes: events,
    }
}
