//! The blocks of docs/GUIDE.md that hold bytes, and whether the proved code agrees with them.

use std::fmt::Write;

use lukhveri::{Answer, Event, Line, Plan, Pools, Refusal};

use crate::example::Example;
use crate::printed::printed;

/// A fenced block: its mark, its text, and the row of the guide at which it starts.
struct Block<'a> {
    mark: &'a str,
    rows: Vec<&'a str>,
    at: usize,
}

/// Plan, case, amounts and table as the last blocks of that mark gave them.
#[derive(Default)]
struct Told {
    plan: Vec<u8>,
    case: Vec<u8>,
    amounts: Vec<u32>,
    table: Vec<u8>,
}

/// How many blocks agree, or where the first one does not.
pub fn agrees(guide: &str) -> Result<usize, String> {
    let mut told = Told::default();
    let mut agreed = 0;
    for block in blocks(guide) {
        let found = told.take(&block);
        let found = found.map_err(|what| format!("row {}: {what}", block.at))?;
        agreed += usize::from(found);
    }
    Ok(agreed)
}

impl Told {
    /// Whether something was compared.
    fn take(&mut self, block: &Block) -> Result<bool, String> {
        let answer = |told: &Told| lukhveri::answer(&told.plan, &told.case);
        let said = match block.mark.split_once(' ').unwrap_or((block.mark, "")) {
            ("plan", name) => {
                self.plan = block.bytes()?;
                return same(&self.plan, name, |example| example.plan.bytes());
            }
            ("case", name) => {
                self.case = block.bytes()?;
                return same(&self.case, name, |example| example.case.bytes());
            }
            ("amounts", _) => {
                self.amounts = block.numbers()?;
                return Ok(false);
            }
            ("pools", _) => {
                let pools = lukhveri::pool(&self.plan, &self.case, &self.amounts);
                pools.map(|pools| pooled(&pools)) == Ok(block.text())
            }
            ("table", name) => {
                self.table = block.table();
                return same(&self.table, name, Example::table);
            }
            ("made", name) => {
                self.plan = block.bytes()?;
                same(&self.plan, name, |example| example.plan.bytes())?;
                Plan::from_table(&self.table).is_ok_and(|plan| plan.bytes() == self.plan)
            }
            ("turned", _) => match Plan::from_table(&self.table) {
                Ok(_) => false,
                Err(refusal) => block.refusal() == refused(&refusal),
            },
            ("example", whose) => line_of(whose)? == block.bytes()?,
            ("lines", _) => lines(answer(self)) == Ok(block.bytes()?),
            ("events", _) => events(answer(self)) == Ok(block.bytes()?),
            ("world", number) => {
                let number = number.parse().map_err(|_| "no number of a world")?;
                lines(lukhveri::show(&self.plan, &self.case, number)) == Ok(block.bytes()?)
            }
            ("printed", _) => printed(&answer(self)) == block.text(),
            ("refused", _) => printed(&answer(self)).trim_end() == block.refusal(),
            (mark, _) => return Err(format!("no block is marked {mark:?}")),
        };
        if said { Ok(true) } else { Err(format!("{} differ: {:?}", block.mark, answer(self))) }
    }
}

/// Whether it was held to the example of that name; without a name there is nothing to hold it to.
fn same(bytes: &[u8], name: &str, of: impl Fn(&Example) -> &[u8]) -> Result<bool, String> {
    if name.is_empty() {
        return Ok(false);
    }
    let same = of(&example(name)?) == bytes;
    if same { Ok(true) } else { Err(format!("not the bytes of examples/{name}")) }
}

fn example(name: &str) -> Result<Example, String> {
    let all = crate::all().map_err(|error| error.to_string())?;
    let found = all.into_iter().find(|example| example.folder == name);
    found.ok_or_else(|| format!("there is no example {name:?}"))
}

/// The line of a person, who is named by example and number.
fn line_of(whose: &str) -> Result<Vec<u8>, String> {
    let (name, person) = whose.split_once(' ').ok_or("an example and a person")?;
    let person = person.parse().map_err(|_| "no number of a person")?;
    let example = example(name)?;
    let answer = lukhveri::answer(example.plan.bytes(), example.case.bytes());
    let answer = answer.map_err(|refusal| refusal.to_string())?;
    Ok(answer.line(person).ok_or("nobody of the roster")?.bytes())
}

fn lines(answer: Result<Answer, Refusal>) -> Result<Vec<u8>, Refusal> {
    answer.map(|answer| answer.lines.iter().flat_map(Line::bytes).collect())
}

fn events(answer: Result<Answer, Refusal>) -> Result<Vec<u8>, Refusal> {
    answer.map(|answer| answer.events.iter().flat_map(Event::bytes).collect())
}

/// Number and record, as the lister prints them.
fn refused(refusal: &Refusal) -> String {
    format!("refused {} {}", refusal.number(), refusal.record())
}

/// Each unit with its pool and its mark, then what is unplaced.
fn pooled(pools: &Pools) -> String {
    let mut text = String::new();
    for unit in &pools.units {
        let open = if unit.open { " open" } else { "" };
        let _ = writeln!(text, "{} {}{open}", unit.persons, unit.cents);
    }
    let _ = writeln!(text, "unplaced {}", pools.unplaced);
    text
}

impl Block<'_> {
    /// The number before the remark of each row.
    fn numbers(&self) -> Result<Vec<u32>, String> {
        let number = |row: &&str| {
            let word = row.split("  ").next().unwrap_or("");
            word.parse().map_err(|_| format!("{word:?} is no number"))
        };
        self.rows.iter().map(number).collect()
    }

    /// The bytes before the remark of each row, which two spaces part from it.
    fn bytes(&self) -> Result<Vec<u8>, String> {
        let before = |row: &&str| row.split("  ").next().unwrap_or("").to_string();
        let row = |bytes: String| bytes.split_whitespace().map(byte).collect::<Vec<_>>();
        self.rows.iter().map(before).flat_map(row).collect()
    }

    /// The rows of a table, each with its CR LF.
    fn table(&self) -> Vec<u8> {
        self.rows.iter().flat_map(|row| format!("{row}\r\n").into_bytes()).collect()
    }

    fn text(&self) -> String {
        self.rows.iter().map(|row| format!("{row}\n")).collect()
    }

    fn refusal(&self) -> String {
        let first = self.rows.first().and_then(|row| row.split("  ").next());
        format!("refused {}", first.unwrap_or(""))
    }
}

fn byte(word: &str) -> Result<u8, String> {
    let byte = u8::from_str_radix(word, 16).ok().filter(|_| word.len() == 2);
    byte.ok_or_else(|| format!("{word:?} is no byte"))
}

/// Blocks with a mark; those without one, with a language or of what a program prints are no bytes.
fn blocks(guide: &str) -> Vec<Block<'_>> {
    let mut found: Vec<Block> = Vec::new();
    let mut inside = false;
    for (row, at) in guide.lines().zip(1..) {
        match (row.strip_prefix("```"), inside) {
            (Some(_), true) => inside = false,
            (Some(mark), false) => {
                inside = true;
                found.push(Block { mark, rows: Vec::new(), at });
            }
            (None, true) => found.last_mut().into_iter().for_each(|block| block.rows.push(row)),
            (None, false) => {}
        }
    }
    let others = ["", "c", "rust", "sh", "explain", "pool", "import", "masks"];
    let is_bytes = |mark: &str| !others.contains(&mark);
    found.retain(|block| block.mark.split(' ').next().is_some_and(is_bytes));
    found
}
