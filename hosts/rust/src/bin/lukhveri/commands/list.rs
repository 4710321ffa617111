//! list FOLDER: the lister's rows.

use std::path::Path;

use lukhveri::{EVENTS_LENGTH, LINES_LENGTH, Refusal};

use crate::arguments::Arguments;
use crate::files::Inputs;
use crate::listed::Listed;
use crate::outcome::{Outcome, Trouble};
use crate::output::{complain, print};
use crate::refused::Refused;

/// Why the lister refuses: it lends room for 64 lines and 4,096 events.
fn refusal(inputs: &Inputs) -> Option<Refusal> {
    let (mut lines, mut events) = (vec![0; LINES_LENGTH], vec![0; EVENTS_LENGTH]);
    lukhveri::answer_into(&inputs.plan, &inputs.case, &mut lines, &mut events).err()
}

/// The lister's row; the standard error says it in words.
fn refused(text: &str, inputs: &Inputs, as_json: bool) -> Result<Outcome, Trouble> {
    let refusal = refusal(inputs);
    match refusal.as_ref().map(|refusal| Refused::of(refusal, inputs)) {
        Some(refused) if as_json => refused.tell_in(inputs, true),
        refused => {
            print(text)?;
            refused.iter().for_each(|refused| refused.complain_in(inputs));
            Ok(Outcome::Refused)
        }
    }
}

pub fn run(arguments: &Arguments) -> Result<Outcome, Trouble> {
    let inputs = Inputs::read_without_names(Path::new(arguments.one("a folder")?))?;
    let (listing, as_json) = (lukhveri::list(&inputs.plan, &inputs.case), arguments.has("--json"));
    let Some(listed) = Listed::of(&listing) else {
        return refused(&listing.text, &inputs, as_json);
    };
    if as_json {
        print(&listed.json())?;
        return Ok(Outcome::Done);
    }
    print(&listing.text)?;
    if let Some(note) = listed.note() {
        complain(&format!("{}: {note}", inputs.folder().display()));
    }
    Ok(Outcome::Done)
}
