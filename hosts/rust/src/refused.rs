//! A refusal in one sentence, with the names of what it is about.

use crate::diagnosis::record_at;
use crate::names::Names;
use crate::read::{File, Reader, Record};
use crate::refusal::{Place, Reason, Refusal};

impl Place {
    /// File, record, which of its kind it is with its name, and where it begins.
    pub fn in_words(&self, plan: &[u8], case: &[u8], names: &Names) -> String {
        let (file, bytes) = match self.file {
            File::Plan => ("plan", plan),
            File::Case => ("case", case),
        };
        match self.thing(bytes, names) {
            None => self.to_string(),
            Some(thing) => {
                format!("{file}, record {} (at byte {}), {thing}", self.record, self.offset)
            }
        }
    }

    /// Fact, node or rule by its number; what a record of the case is about.
    fn thing(&self, bytes: &[u8], names: &Names) -> Option<String> {
        let kind = self.kind?;
        if self.file == File::Case {
            return about(kind, &record_at(*self, bytes)?, names);
        }
        let kinds = ["fact", "node", "edge", "cut", "attachment", "bar", "status"];
        let name = *kinds.get(usize::from(kind).checked_sub(2)?)?;
        let until = usize::try_from(self.record).ok()?;
        let before = Reader::new(self.file, bytes).take(until);
        let number = before.filter(|record| record.kind == kind).count();
        match u8::try_from(number) {
            Ok(number) => Some(names.numbered(name, number)),
            Err(_) => Some(format!("{name} {number}")),
        }
    }
}

fn about(kind: u8, record: &Record, names: &Names) -> Option<String> {
    let number = record.byte(0)?;
    match kind {
        2 => Some(names.numbered("family", number)),
        3 => Some(format!("a boolean of {}", names.numbered("fact", number))),
        4 => Some(format!("a relation of {}", names.numbered("fact", number))),
        5 => Some(format!("a constraint on node {number}")),
        _ => None,
    }
}

impl Refusal {
    /// Number, place, reason and what exactly is wrong, with names. [`remedy`](Refusal::remedy) says what would mend it.
    pub fn in_words(&self, plan: &[u8], case: &[u8], names: &Names) -> String {
        let mut said = format!("refused {}: ", self.number());
        if let Some(place) = self.place {
            said += &format!("{}: ", place.in_words(plan, case, names));
        }
        let reason = self.reason_in_words();
        match self.finding(plan, case, names) {
            None => said + &reason,
            Some(finding) if self.finding_says_all() => said + &finding,
            Some(finding) => format!("{said}{reason}: {finding}"),
        }
    }

    /// Where the reason lists what may be wrong, or says it without numbers, the finding alone says what is.
    fn finding_says_all(&self) -> bool {
        use Reason::{AmountsDoNotFit, Heading, Incomplete, Malformed, NamesNothing, PastLimit};
        matches!(
            self.reason,
            Malformed | PastLimit | Incomplete | NamesNothing | Heading | AmountsDoNotFit
        )
    }
}
