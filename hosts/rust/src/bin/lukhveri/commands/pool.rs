//! pool FOLDER: amounts pooled by unit, for billing.

use std::path::Path;

use lukhveri::amounts::{Amounts, AmountsError, TableFault};
use lukhveri::{Pools, words};

use crate::arguments::Arguments;
use crate::files::Inputs;
use crate::json::Json;
use crate::lines;
use crate::outcome::{Outcome, Trouble};
use crate::output::{print, print_sentences};
use crate::refused::Refused;

/// No more faults of a table than these are told.
const TOLD: usize = 20;

/// The pools of a case, and the amounts that were pooled.
struct Pooled<'a> {
    inputs: &'a Inputs,
    amounts: Vec<u32>,
    pools: Pools,
}

impl Pooled<'_> {
    /// Parts with an empty line between them.
    fn text(&self) -> String {
        let parts = words::pools(&self.pools, &self.amounts, &self.inputs.names);
        parts.map(|part| part.join("\n") + "\n").join("\n")
    }

    fn json(&self) -> String {
        let units = self.pools.units.iter().map(|unit| {
            Json::object([
                ("persons", Json::list(unit.persons)),
                ("cents", unit.cents.into()),
                ("open", unit.open.into()),
                ("household", self.pools.answer.is_household(unit.persons).into()),
            ])
        });
        let lines = self.pools.answer.lines.iter().zip(&self.amounts).map(|(line, amount)| {
            lines::json(line, &self.inputs.names)
                .with("cents", u64::from(*amount))
                .with("why_unplaced", words::unplaced(line))
        });
        Json::object([
            ("units", Json::list(units)),
            ("unplaced", self.pools.unplaced.into()),
            ("pooled", self.pools.pooled().into()),
            ("sum", self.pools.sum().into()),
            ("lines", Json::list(lines)),
        ])
        .line()
    }
}

/// A line for each fault of the table, with its file.
fn faulty(path: &Path, faults: &[TableFault]) -> Trouble {
    let said = faults.iter().take(TOLD).map(|fault| format!("{}: {fault}", path.display()));
    let more = faults.len().saturating_sub(TOLD);
    let faults = if more == 1 { "fault" } else { "faults" };
    let more = (more > 0).then(|| format!("{}: {more} more {faults}", path.display()));
    Trouble::Faults(said.chain(more).collect())
}

fn pooled<'a>(inputs: &'a Inputs, amounts: &Amounts) -> Result<Pooled<'a>, AmountsError> {
    let Inputs { plan, case, names, .. } = inputs;
    let amounts = amounts.list(plan, case, names)?;
    let pools = lukhveri::pool(plan, case, &amounts)?;
    Ok(Pooled { inputs, amounts, pools })
}

pub fn run(arguments: &Arguments) -> Result<Outcome, Trouble> {
    let inputs = Inputs::read(Path::new(arguments.one("a folder")?))?;
    let amounts = inputs.amounts()?;
    let as_json = arguments.has("--json");
    match pooled(&inputs, &amounts) {
        Err(AmountsError::Refused(refusal)) => {
            Refused::of(&refusal, &inputs).tell_in(&inputs, as_json)
        }
        Err(AmountsError::Table(faults)) => Err(faulty(&inputs.path("amounts.csv"), &faults)),
        Ok(pooled) => {
            match as_json {
                true => print(&pooled.json())?,
                false => print_sentences(&pooled.text())?,
            }
            Ok(Outcome::Done)
        }
    }
}
