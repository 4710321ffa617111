//! No input makes anything panic: random bytes, and good bytes that were damaged.

use lukhveri::amounts::{Amounts, AmountsError};
use lukhveri::draft::{notes, with_returns};
use lukhveri::names::Names;
use lukhveri::near::{NearError, values};
use lukhveri::words;
use lukhveri::{
    Buffers, CaseBuilder, CaseRecords, Citation, Cut, Decision, Edge, Event, Family, Frame, Line,
    Paper, Persons, Plan, PlanBuilder, Reason, Refusal, answer, answer_into, check, circle, list,
    pool_into, show_into,
};

/// A small source of numbers.
struct Random(u64);

impl Random {
    fn next(&mut self) -> u64 {
        self.0 ^= self.0 << 13;
        self.0 ^= self.0 >> 7;
        self.0 ^= self.0 << 17;
        self.0
    }

    fn below(&mut self, bound: usize) -> usize {
        (self.next() % bound.max(1) as u64) as usize
    }

    /// Mostly small ones, which kinds, bits and counts are.
    fn byte(&mut self) -> u8 {
        let bound = [4, 9, 65, 256][self.below(4)];
        self.below(bound) as u8
    }

    fn bytes(&mut self, most: usize) -> Vec<u8> {
        (0..self.below(most)).map(|_| self.byte()).collect()
    }

    fn damage(&mut self, bytes: &mut Vec<u8>) {
        for _ in 0..=self.below(3) {
            let at = self.below(bytes.len() + 1);
            match self.below(3) {
                0 => bytes.truncate(at),
                1 => bytes.insert(at, self.byte()),
                _ => bytes.splice(at..(at + 1).min(bytes.len()), [self.byte()]).for_each(drop),
            }
        }
    }
}

fn good() -> (Vec<u8>, Vec<u8>) {
    let mut plan = PlanBuilder::new(1);
    let wish = plan.boolean().expect("a fact");
    let lives = plan.relation(4, &[0, 1]).expect("a fact");
    let wished = plan.holds(wish).expect("a node");
    let live = plan.holds(lives).expect("a node");
    let edge = plan.edge(Edge::combination(0, 1, live, Citation(5))).expect("an edge");
    let alone = Persons::of(&[0]).expect("persons");
    plan.cut(Cut::new(alone, wished, Citation(6)).deciding(edge, Decision::Unresolved))
        .expect("a cut");
    let plan = plan.finish().expect("a plan");
    let roster = Persons::of(&[0, 1, 2]).expect("persons");
    let mut case = CaseBuilder::new(&plan, Frame { scope: 1, segment: 1 }, roster).expect("a case");
    case.roster_complete(Paper(0)).expect("evidence");
    case.family(Family::new(4)).expect("a family");
    case.relate(lives, true, Paper(3)).expect("a relation");
    case.constrain(live).expect("a constraint");
    (plan.bytes().to_vec(), case.finish().expect("a case").bytes().to_vec())
}

/// Everything that can be said of a refusal.
fn say(refusal: &Refusal, plan: &[u8], case: &[u8]) {
    assert!((1..=15).contains(&refusal.number()));
    let exact = [
        Reason::Malformed,
        Reason::PastLimit,
        Reason::NamesNothing,
        Reason::OutOfOrder,
        Reason::Undecided,
        Reason::ElectionsDiffer,
        Reason::Heading,
        Reason::UnknownAndObserved,
        Reason::LinesDoNotFit,
        Reason::EventsDoNotFit,
        Reason::NoSuchWorld,
        Reason::AmountsDoNotFit,
    ];
    let names = Names::read("fact 0 one\nperson 0 Ana\nedge 0 bond\ncut 0 wish").expect("names");
    let finding = refusal.finding(plan, case, &names);
    assert!(refusal.in_words(plan, case, &names).starts_with("refused "));
    assert!(finding.is_some() || !exact.contains(&refusal.reason), "{refusal} {plan:?} {case:?}");
    assert!(!format!("{refusal} {} {}", refusal.remedy(), refusal.record()).is_empty());
}

/// Everything that can be done with an accepted plan.
fn accepted(plan: &Plan, case: &[u8], random: &mut Random) {
    assert!(plan.decisions().len() <= 16);
    assert!((0..=255).filter_map(|number| plan.fact(number)).count() <= 64);
    for warning in plan.warnings() {
        assert!(warning.to_string().len() > 20 && warning.record(plan) > 0);
    }
    let mut builder = PlanBuilder::reopen(plan);
    let finished = builder.finish().expect("an accepted plan can be finished");
    assert_eq!(finished.warnings().len(), plan.warnings().len());
    match CaseBuilder::reopen(plan, case) {
        Ok(reopened) => assert!(reopened.finish().is_ok()),
        Err(error) => assert!(error.to_string().len() > 5),
    }
    told(plan, case);
    let person = random.byte();
    assert_eq!(builder.remove_person(person).is_ok(), person < 64);
    builder.remove_unused();
    let left = builder.finish().expect("with less in it, too");
    assert_eq!(check(left.bytes()), Ok(()));
}

/// A paragraph for each line of an answer, or the refusal; the values of worlds, whatever the case says.
fn told(plan: &Plan, case: &[u8]) {
    match (words::explain(plan.bytes(), case, &Names::default()), answer(plan.bytes(), case)) {
        (Ok(paragraphs), Ok(answer)) => {
            assert!(paragraphs.iter().map(|told| told.line).eq(answer.lines));
        }
        (Err(NearError::Refused(no)), Err(refusal)) => assert_eq!(no, refusal),
        (told, _) => panic!("{told:?}"),
    }
    if let Some(records) = CaseRecords::read(case) {
        values(plan, &records, 3);
    }
}

/// Lists of a length that mostly fits, of lengths that do not, and from files of any bytes.
fn pooled(plan: &[u8], case: &[u8], random: &mut Random, buffers: &mut Buffers) {
    let roster = CaseRecords::read(case).unwrap_or_default().roster.count();
    let count = if random.below(4) == 0 { random.below(70) } else { roster };
    let amounts: Vec<u32> = (0..count).map(|_| random.next() as u32).collect();
    match (buffers.pool(plan, case, &amounts).map(|pooled| pooled.to_pools()), answer(plan, case)) {
        (Err(refusal), Err(wanted)) => assert_eq!(refusal, wanted),
        (Err(refusal), Ok(answer)) => {
            say(&refusal, plan, case);
            assert!(
                refusal.reason == Reason::AmountsDoNotFit && amounts.len() != answer.lines.len()
            );
        }
        (Ok(pools), answer) => {
            let sum: u64 = amounts.iter().map(|amount| u64::from(*amount)).sum();
            assert_eq!((pools.sum(), pools.answer.lines.len()), (sum, amounts.len()));
            assert_eq!(
                (Ok(&pools.answer), pools.answer.units().len()),
                (answer.as_ref(), pools.units.len())
            );
            assert!(words::pools(&pools, &amounts, &Names::default()).concat().len() >= 4);
        }
    }
    let (mut lines, mut events) = (random.bytes(200), random.bytes(200));
    if let Err(refusal) = pool_into(plan, case, &amounts, &mut lines, &mut events) {
        say(&refusal, plan, case);
        assert!(lines.iter().chain(&events).all(|byte| *byte == 0));
    }
    if let Err(AmountsError::Refused(refusal)) =
        Amounts::Bytes(random.bytes(20)).list(plan, case, &Names::default())
    {
        say(&refusal, plan, case);
    }
}

fn all_calls(plan: &[u8], case: &[u8], random: &mut Random, buffers: &mut Buffers) {
    let checked = check(plan);
    let read = Plan::read(plan);
    assert_eq!(checked.is_ok(), read.is_ok());
    if let Ok(read) = read {
        accepted(&read, case, random);
    }
    checked.err().iter().for_each(|refusal| say(refusal, plan, case));
    let answered = buffers.answer(plan, case).map(|answered| answered.to_answer());
    let households = answered.as_ref().ok().map(|answer| answer.households().len() as u64);
    let listing = list(plan, case);
    assert_eq!((listing.refused, listing.households()), (answered.is_err(), households));
    answered.map_or_else(|no| say(&no, plan, case), drop);
    pooled(plan, case, random, buffers);
    let person = random.byte();
    assert!(circle(plan, case, person).is_none_or(|circle| circle.holds(person)));
    let (mut lines, mut events) = (random.bytes(200), random.bytes(200));
    if let Err(refusal) = answer_into(plan, case, &mut lines, &mut events) {
        say(&refusal, plan, case);
    }
    if let Err(refusal) = show_into(plan, case, random.next() % 3, &mut lines, &mut events) {
        say(&refusal, plan, case);
    }
}

#[test]
fn random_bytes() {
    let (random, buffers) = (&mut Random(1), &mut Buffers::new());
    for _ in 0..50_000 {
        let (plan, case) = (random.bytes(80), random.bytes(60));
        all_calls(&plan, &case, random, buffers);
    }
}

#[test]
fn damaged_bytes() {
    let (random, buffers) = (&mut Random(2), &mut Buffers::new());
    let (plan, case) = good();
    for number in 0..50_000 {
        let (mut plan, mut case) = (plan.clone(), case.clone());
        if number % 3 != 0 {
            random.damage(&mut plan);
        }
        if number % 3 != 1 {
            random.damage(&mut case);
        }
        all_calls(&plan, &case, random, buffers);
    }
}

/// Names are read from any text, and what they say of a plan is said.
#[test]
fn names_of_any_text() {
    let (random, (plan, case)) = (&mut Random(4), good());
    let (plan, case) = (Plan::read(&plan).expect("a plan"), CaseRecords::read(&case));
    let words =
        ["person ", "fact ", "edge ", "status ", "evidence ", "\u{feff}", "#", "\n", "\r", " "];
    for _ in 0..100_000 {
        let mut text = String::new();
        for _ in 0..random.below(12) {
            match random.below(3) {
                0 => text.push_str(words[random.below(words.len())]),
                1 => text.push_str(&random.byte().to_string()),
                _ => text.extend(char::from_u32(random.next() as u32 % 0x2_ffff)),
            }
        }
        match Names::read(&text) {
            Ok(names) => drop(names.warnings(&plan, case.as_ref())),
            Err(fault) => assert!(fault.to_string().starts_with("line ")),
        }
    }
}

/// Tables are read from any text: a list for the whole roster, or faults.
#[test]
fn tables_of_any_text() {
    let (random, (plan, case)) = (&mut Random(5), good());
    let names = Names::read("person 0 Ana\nperson 1 Ana\nperson 2 Eva, the first").expect("names");
    let words = ["person,cents\n", "0,", "1,5\r\n", "2,7\n", "Ana", "\"", ",", "\r", "\n", " "];
    for _ in 0..100_000 {
        let mut text = String::from(words[random.below(2)]);
        for _ in 0..random.below(12) {
            match random.below(6) {
                0 => text.push_str(&random.next().to_string()),
                1 => text.extend(char::from_u32(random.next() as u32 % 0x2_ffff)),
                _ => text.push_str(words[random.below(words.len())]),
            }
        }
        match Amounts::Table(text).list(&plan, &case, &names) {
            Ok(amounts) => assert_eq!(amounts.len(), 3),
            Err(AmountsError::Refused(refusal)) => panic!("{refusal}"),
            Err(AmountsError::Table(faults)) => {
                assert!(faults.iter().all(|fault| fault.to_string().contains("; ")));
                assert!(!faults.is_empty());
            }
        }
    }
}

/// A table that is accepted, with rules of every kind.
fn draft(random: &mut Random) -> Vec<u8> {
    let mut table = "kind,left,right,citation".to_string();
    let most = [4, 12, 110][random.below(3)];
    for _ in 0..random.below(most) {
        let [left, right, citation] = [0; 3].map(|_| random.below(64));
        table += &match random.below(3) {
            0 => format!("\r\nstatus,{left},,{citation}"),
            1 => format!("\r\nbase,{left},{right},{citation}"),
            _ => format!("\r\n\"combination\",\"{left}\",{right},{citation}"),
        };
    }
    table += ["", "\r\n"][random.below(2)];
    table.into_bytes()
}

/// What spreadsheets and people do to a table, and what nobody does.
fn spoil(table: &mut Vec<u8>, random: &mut Random) {
    const PARTS: &str = "\"|\"\"|\r|\n|\r\n|,|;|\t| |0|63|64|65|00|+|-1|1.0|99999999999999999999|base|Base|status|combination,1,2,3\r\n|x|\u{feff}|é|\0";
    let parts: Vec<&str> = PARTS.split('|').collect();
    for _ in 0..=random.below(3) {
        let (at, part) = (random.below(table.len() + 1), parts[random.below(parts.len())]);
        let end = (at + random.below(8)).min(table.len());
        match random.below(8) {
            0 => table.truncate(at),
            1 => table.insert(at, random.next() as u8),
            2 => table.retain(|byte| *byte != b'\r'),
            3 => drop(table.drain(at..end)),
            4 => drop(table.splice(0..0, "\u{feff}".bytes())),
            5 => table.iter_mut().filter(|byte| **byte == b',').for_each(|byte| *byte = b';'),
            _ => drop(table.splice(at..at, part.bytes())),
        }
    }
}

/// Tables of any bytes: a plan that the check accepts, or a row, which the words name, too, with what is wrong there.
#[test]
fn drafts_of_any_bytes() {
    let random = &mut Random(6);
    let (mut accepted, mut refused) = (0, [0; 98]);
    for number in 0..100_000 {
        let mut table = if number % 10 == 0 { random.bytes(80) } else { draft(random) };
        if number % 10 > 1 {
            spoil(&mut table, random);
        }
        match Plan::from_table(&table) {
            Ok(plan) => {
                accepted += 1;
                assert_eq!(check(plan.bytes()), Ok(()));
                assert!(notes(&table).len() <= 192);
                assert!(Plan::from_table(&with_returns(&table)).is_ok());
            }
            Err(refusal) => {
                let fault = refusal.row_fault(&table).expect("a row");
                assert_eq!(Reason::BrokenRow { row: fault.row }, refusal.reason);
                refused[usize::try_from(fault.row).expect("a row")] += 1;
                let (said, row) = (fault.to_string(), format!("row {} of the table", fault.row));
                assert!(said.starts_with(&row), "{said}");
                assert!(fault.finding().is_some() && !fault.remedy().is_empty(), "{table:?}");
                assert!(said.chars().all(|letter| !letter.is_control()), "{said:?}");
                let lines = 1 + table.iter().filter(|byte| b"\r\n".contains(byte)).count();
                let line = fault.line.expect("a line");
                assert!(line > usize::try_from(fault.row).expect("a row") && line <= lines);
            }
        }
    }
    assert!(accepted > 10_000 && refused[0] > 10_000, "{accepted} {refused:?}");
    assert!(refused.iter().filter(|count| **count > 0).count() > 80, "{refused:?}");
}

#[test]
fn lines_and_events_of_any_bytes() {
    let random = &mut Random(3);
    for _ in 0..100_000 {
        let line: [u8; 29] = std::array::from_fn(|_| random.byte());
        if let Some(read) = Line::of(&line) {
            assert_eq!(read.bytes(), line);
            assert!(read.others().count() <= read.block.count());
        }
        let event: [u8; 12] = std::array::from_fn(|_| random.byte());
        if let Some(read) = Event::of(&event) {
            assert!(format!("{read:?}").len() > 3);
        }
    }
}
