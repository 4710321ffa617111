//! imported N SEED: N random tables, broken ones among them, made into plans by the proved code and by the model: the same refusal, row and length,
//! and the same bytes. Buffers are dirty beforehand, and empty, of one byte, one byte short, just enough, one byte longer, around the largest plan's
//! length or longer. What is promised of plans is looked up in the bytes of each one that is made, and the proved code's check accepts it.

use std::fmt;

use inputs::random::Random;
use inputs::smallest::shortest;
use inputs::vectors::to_hex;
use inputs::{broken_tables, tables};
use judge::trial::count_and_seed;
use model::{Made, Outcome};
use port::alike::Lent;
use port::drafted;
use port::tables::{Imported, MOST, import};

/// Bytes that would make another row of the last one, if they were read.
const BEHIND: [&[u8]; 5] = [b"\r\n\r\n", b"\n,,,", b"0\r\n", b"\"\"\"\"", b",0,0,0"];

/// A table, and the buffer's length.
struct Asked<'a> {
    table: &'a [u8],
    room: usize,
}

impl fmt::Display for Asked<'_> {
    fn fmt(&self, to: &mut fmt::Formatter) -> fmt::Result {
        let text = self.table.escape_ascii();
        let table = to_hex(self.table);
        write!(
            to,
            "with {} bytes for the plan: table {table} \"{text}\"",
            self.room
        )
    }
}

impl Asked<'_> {
    /// What both answer; else where they differ, or what is promised and does not hold.
    fn compare(&self, random: &mut Random) -> Result<Made, &'static str> {
        let mut wanted = vec![0; self.room];
        let made = model::import(self.table, &mut wanted);
        let behind = [self.table, random.pick(&BEHIND)].concat();
        let mut lent = Lent::new(self.room, random);
        let told = import(&behind[..self.table.len()], lent.middle());
        if told != Imported::from(made) {
            return Err("the numbers differ");
        }
        if !lent.holds(&wanted) {
            return Err("the bytes differ");
        }
        if made.refusal == 0 {
            let plan = &lent.middle()[..made.length as usize];
            if port::check(plan) != Outcome::default() {
                return Err("a plan is made that the check refuses");
            }
            drafted::check(self.table, plan)?;
        }
        Ok(made)
    }
}

/// What was compared.
#[derive(Default)]
struct Tally {
    accepted: u64,
    /// Of these, without a rule, of the largest length, with a quote, and without the last row's end.
    bare: u64,
    largest: u64,
    quoted: u64,
    not_ended: u64,
    /// Refused by 16: row 0, 1, 2 to 32, 33 to 64, above.
    rows: [u64; 5],
    /// Of these, in buffers that hold no plan at all.
    first: u64,
    does_not_fit: u64,
}

impl Tally {
    fn add(&mut self, asked: &Asked, made: &Made) {
        match made.refusal {
            0 => self.accept(asked, made),
            16 => {
                let upto = [0, 1, 32, 64];
                self.rows[upto.iter().filter(|&&row| made.row > row).count()] += 1;
                self.first += u64::from(asked.room < 6);
            }
            _ => self.does_not_fit += 1,
        }
    }

    fn accept(&mut self, asked: &Asked, made: &Made) {
        self.accepted += 1;
        self.bare += u64::from(made.length == 6);
        self.largest += u64::from(made.length == MOST as u64);
        self.quoted += u64::from(asked.table.contains(&b'"'));
        self.not_ended += u64::from(!asked.table.ends_with(b"\r\n"));
    }
}

impl fmt::Display for Tally {
    fn fmt(&self, to: &mut fmt::Formatter) -> fmt::Result {
        write!(
            to,
            "{} accepted ({} header only, {} of {MOST} bytes, {} with quotes, {} without the last row's end); ",
            self.accepted, self.bare, self.largest, self.quoted, self.not_ended
        )?;
        let [header, first, to_32, to_64, above] = self.rows;
        write!(
            to,
            "{} refused by 16 (row 0 {header}, 1 {first}, to 32 {to_32}, to 64 {to_64}, above {above}; {} in buffers for no plan), ",
            self.rows.iter().sum::<u64>(),
            self.first
        )?;
        write!(to, "{} by 17", self.does_not_fit)
    }
}

/// The plan's length; that of the least where the table is refused.
fn needed(table: &[u8]) -> usize {
    let made = model::import(table, &mut [0; MOST]);
    made.length.max(6) as usize
}

/// Buffers of all lengths that matter; two in three of them suffice.
fn rooms(needed: usize) -> [usize; 9] {
    let longer = MOST + 450;
    [
        0,
        1,
        needed - 1,
        needed,
        needed,
        needed + 1,
        MOST,
        MOST + 1,
        longer,
    ]
}

/// The first buffer, of all that matter, that shows something wrong with this table, and what.
fn difference(table: &[u8]) -> Option<(Asked<'_>, &'static str)> {
    let random = &mut Random::new(1);
    let asked = rooms(needed(table)).map(|room| Asked { table, room });
    asked.into_iter().find_map(|asked| {
        let what = asked.compare(random).err()?;
        Some((asked, what))
    })
}

/// The smallest table found that differs, or the one given if only its own buffer shows it.
fn report(table: &[u8], first: String) {
    let table = shortest(table.to_vec(), |table| difference(table).is_some());
    match difference(&table) {
        Some((asked, what)) => println!("{what} {asked}"),
        None => println!("{first}"),
    }
}

/// A table, and whether it is good.
fn sample(random: &mut Random) -> (Vec<u8>, bool) {
    match random.below(3) {
        0 => (tables::good(random).bytes(), true),
        _ => (broken_tables::broken(random), false),
    }
}

fn main() {
    let (count, seed) = count_and_seed("imported");
    let mut tally = Tally::default();
    for number in 0..count {
        let random = &mut Random::stream(seed, number);
        let (table, good) = sample(random);
        let asked = Asked {
            table: &table,
            room: random.pick(&rooms(needed(&table))),
        };
        match asked.compare(random) {
            Ok(made) if good && made.refusal == 16 => {
                println!("a good table is turned away {asked}");
                std::process::exit(1);
            }
            Ok(made) => tally.add(&asked, &made),
            Err(what) => {
                report(&table, format!("{what} {asked}"));
                std::process::exit(1);
            }
        }
    }
    println!("{count} inputs alike: {tally}");
}
