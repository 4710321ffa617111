//! Refusals, as a command's result: in sentences, as JSON, and in one line of the standard error.

use std::path::Path;

use lukhveri::names::{Names, sentence};
use lukhveri::{File, Reason, Refusal};

use crate::files::Inputs;
use crate::json::Json;
use crate::outcome::{Outcome, Trouble};
use crate::output::{complain, print, print_sentences};

/// A refusal, and the bytes and names that its words are made from.
pub struct Refused<'a> {
    pub refusal: &'a Refusal,
    pub plan: &'a [u8],
    pub case: &'a [u8],
    pub names: &'a Names,
}

impl<'a> Refused<'a> {
    pub fn of(refusal: &'a Refusal, inputs: &'a Inputs) -> Refused<'a> {
        Refused { refusal, plan: &inputs.plan, case: &inputs.case, names: &inputs.names }
    }

    fn finding(&self) -> Option<String> {
        self.refusal.finding(self.plan, self.case, self.names)
    }

    /// What is refused and what exactly is wrong, with the names of what it is about.
    fn words(&self) -> String {
        self.refusal.in_words(self.plan, self.case, self.names)
    }

    /// Which file is at fault.
    fn file(&self) -> &'static str {
        match (self.refusal.place.map(|place| place.file), self.refusal.reason) {
            (Some(File::Plan), _) => "plan",
            (_, Reason::AmountsDoNotFit) => "amounts",
            (Some(File::Case) | None, _) => "case",
        }
    }

    /// The reason without the refusal's number, and what exactly is wrong.
    pub fn reason(&self) -> String {
        let words = self.words();
        let number = format!("refused {}: ", self.refusal.number());
        words.strip_prefix(&number).unwrap_or(&words).to_string()
    }

    fn sentences(&self) -> String {
        let remedy = self.refusal.remedy();
        format!("{}.\nWhat would mend it: {remedy}.\n", sentence(&self.words()))
    }

    pub fn json(&self) -> Json {
        Json::object([
            ("number", self.refusal.number().into()),
            ("record", self.refusal.record().into()),
            ("file", self.file().into()),
            ("words", self.words().into()),
            ("finding", self.finding().into()),
            ("remedy", self.refusal.remedy().into()),
        ])
    }

    /// Prints it as the result of a command, and says on the standard error which file it is of.
    pub fn tell(&self, path: &Path, json: bool) -> Result<Outcome, Trouble> {
        match json {
            true => print(&Json::object([("refusal", self.json())]).line())?,
            false => print_sentences(&self.sentences())?,
        }
        let (number, record) = (self.refusal.number(), self.refusal.record());
        complain(&match self.refusal.place {
            Some(_) => format!("{}: refused {number}, record {record}", path.display()),
            None => format!("{}: refused {number}", path.display()),
        });
        Ok(Outcome::Refused)
    }

    /// The same for a folder: the plan, the case or the list of amounts is at fault.
    pub fn tell_in(&self, inputs: &Inputs, json: bool) -> Result<Outcome, Trouble> {
        self.tell(&inputs.path(&format!("{}.bin", self.file())), json)
    }

    /// One line of the standard error with all words, for a result that has none.
    pub fn complain_of(&self, path: &Path) {
        let number = self.refusal.number();
        complain(&format!("{}: refused {number}: {}", path.display(), self.reason()));
    }

    /// The same for a folder.
    pub fn complain_in(&self, inputs: &Inputs) {
        self.complain_of(&inputs.path(&format!("{}.bin", self.file())));
    }
}
