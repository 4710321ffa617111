//! Units and households: how many there are, and which units are none.

use crate::names::Names;
use crate::operations::Answer;
use crate::words::counted;

/// How many units there are, and where fewer are households, how many: "4 units, 2 of them households".
pub fn units(units: u64, households: u64) -> String {
    match (units, households) {
        (1, 0) => "1 unit, which is no household".to_string(),
        (units, households) if units == households => counted(units, "unit"),
        (units, 0) => format!("{units} units, none of them a household"),
        (units, 1) => format!("{units} units, 1 of them a household"),
        (units, households) => format!("{units} units, {households} of them households"),
    }
}

/// A sentence for each unit that is no household, with why.
pub(crate) fn none(answer: &Answer, names: &Names) -> Vec<String> {
    let none = answer.units().into_iter().filter(|unit| !answer.is_household(*unit));
    let said = none.map(|unit| {
        let persons = names.persons(unit);
        format!("The unit of {persons} is no household, as everybody in it is excluded.")
    });
    said.collect()
}
