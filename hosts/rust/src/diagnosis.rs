//! What exactly is wrong where an operation refuses: the value, the number or the pair of records that a refusal's number does not tell.

use crate::event::EVENT;
use crate::foreign;
use crate::limits;
use crate::line::LINE;
use crate::names::{Names, listed};
use crate::operations::{LINES_LENGTH, MOST_EVENTS_LENGTH};
use crate::persons::Persons;
use crate::plan_reader;
use crate::ranges;
use crate::read::{File, Reader, Record};
use crate::records::{Records, Status};
use crate::refusal::{Given, Place, Reason, Refusal};

impl Refusal {
    /// What exactly is wrong, in words, where that can be told from the bytes that were refused. Things go by number and name.
    pub fn finding(&self, plan: &[u8], case: &[u8], names: &Names) -> Option<String> {
        let asked = Asked { plan, case, names };
        match self.reason {
            Reason::LinesDoNotFit => asked.lines(),
            Reason::EventsDoNotFit => asked.events(self.world),
            Reason::NoSuchWorld => asked.worlds(),
            Reason::AmountsDoNotFit => asked.amounts(self.given?),
            _ => self.place.and_then(|place| asked.record(self.reason, place)),
        }
    }
}

/// The bytes that were refused.
struct Asked<'a> {
    plan: &'a [u8],
    case: &'a [u8],
    names: &'a Names,
}

impl Asked<'_> {
    fn bytes(&self, file: File) -> &[u8] {
        match file {
            File::Plan => self.plan,
            File::Case => self.case,
        }
    }

    /// How many are on the roster.
    fn persons(&self) -> Option<usize> {
        let heading = Reader::new(File::Case, self.case).next()?;
        Some(Persons::from_mask(heading.mask(4)?).count())
    }

    /// Room for the lines is 29 bytes for each person of the roster.
    fn lines(&self) -> Option<String> {
        let persons = self.persons()?;
        let bytes = persons * LINE;
        Some(format!("{} on the roster: {bytes} bytes would do", counted(persons, "person")))
    }

    /// Asks again with room for all.
    fn events(&self, world: Option<u64>) -> Option<String> {
        let (mut lines, mut events) = (vec![0; LINES_LENGTH], vec![0; MOST_EVENTS_LENGTH]);
        let told = match world {
            None => foreign::answer(self.plan, self.case, &mut lines, &mut events),
            Some(world) => foreign::show(self.plan, self.case, world, &mut lines, &mut events),
        };
        let [0, .., count, _] = told else {
            return None;
        };
        let count = usize::try_from(count).ok()?;
        let bytes = count * EVENT;
        Some(format!("{}: {bytes} bytes would do", counted(count, "event")))
    }

    /// How many worlds there are.
    fn worlds(&self) -> Option<String> {
        let (mut lines, mut events) = (vec![0; LINES_LENGTH], vec![0; MOST_EVENTS_LENGTH]);
        let told = foreign::answer(self.plan, self.case, &mut lines, &mut events);
        let [0, .., worlds] = told else {
            return None;
        };
        let complete = Reader::new(File::Case, self.case).next()?.has(5);
        Some(match worlds {
            0 if !complete => "the roster is not complete, so there are no worlds".to_string(),
            0 => "no world fits the constraints".to_string(),
            1 => "the only world is world 0".to_string(),
            _ => format!("the last world is world {}", worlds - 1),
        })
    }

    /// How long the list is, and how long it should be. A file is read no further than 64 amounts matter.
    fn amounts(&self, given: Given) -> Option<String> {
        let persons = self.persons()?;
        let roster = number_of(persons, "person");
        Some(match given {
            Given::Bytes(bytes) => format!(
                "the list has {}, no multiple of 4; the roster has {roster}, which makes {}",
                number_of(bytes, "byte"),
                number_of(4 * persons, "byte")
            ),
            Given::Amounts(amounts) if amounts > limits::PERSONS => {
                format!("the list has more than {} amounts, the roster {roster}", limits::PERSONS)
            }
            Given::Amounts(amounts) => {
                format!("the list has {}, the roster {roster}", number_of(amounts, "amount"))
            }
        })
    }

    /// What is wrong with the record at fault.
    fn record(&self, reason: Reason, place: Place) -> Option<String> {
        let bytes = self.bytes(place.file);
        let record = record_at(place, bytes);
        match (reason, place.file) {
            (Reason::Malformed, _) => malformed(place, bytes),
            (Reason::PastLimit, _) => past_limit(place, bytes),
            (Reason::Incomplete, _) => missing(place, &record?),
            (Reason::NamesNothing, File::Plan) => self.plan_names(place, &record?),
            (Reason::NamesNothing, File::Case) => self.case_names(&record?),
            (Reason::OutOfOrder, File::Case) => self.told_twice(&record?),
            (Reason::OutOfOrder, File::Plan) if record?.kind == 2 => self.fact_order(place),
            (Reason::OutOfOrder, File::Plan) => self.twice_decided(&record?),
            (Reason::UnknownAndObserved, _) => {
                Some(format!("it is about {}", self.fact(record?.byte(0)?)))
            }
            (Reason::Undecided, _) => self.undecided(place),
            (Reason::ElectionsDiffer, _) => self.elections(&record?),
            (Reason::Heading, _) => self.heading(&record?),
            _ => None,
        }
    }

    fn fact(&self, number: u8) -> String {
        self.names.numbered("fact", number)
    }

    /// The first number of a list that is not below a bound.
    fn too_high(&self, what: &'static str, numbers: &[u8], bound: usize) -> Option<String> {
        let number = numbers.iter().find(|number| usize::from(**number) >= bound)?;
        let last = match bound {
            0 => "there is none".to_string(),
            _ => format!("the last one is {what} {}", bound - 1),
        };
        Some(format!("it names {what} {number}, and {last}"))
    }

    /// Whether a fact of the plan is boolean; none if there is no such fact.
    fn fact_is_boolean(&self, fact: u8) -> Option<bool> {
        let mut facts = Reader::new(File::Plan, self.plan).filter(|record| record.kind == 2);
        facts.nth(usize::from(fact)).map(|record| !record.has(0))
    }

    fn no_boolean(&self, fact: u8) -> Option<String> {
        match self.fact_is_boolean(fact) {
            None => Some(format!("there is no fact {fact}")),
            Some(false) => Some(format!("{} is a relation, not a boolean fact", self.fact(fact))),
            Some(true) => None,
        }
    }

    fn plan_names(&self, place: Place, record: &Record) -> Option<String> {
        let count = |kind| count(File::Plan, self.plan, kind);
        let node = |bit: usize| self.too_high("node", record.field(bit)?, count(3));
        match record.kind {
            3 => self.node_names(place, record),
            4 => node(2).or_else(|| node(4)),
            5 => {
                let decided: Vec<u8> = record.bytes(4).iter().step_by(2).copied().collect();
                let election = || self.no_boolean(record.byte(3)?);
                let cut = || self.too_high("cut", record.bytes(5), count(5));
                let edge = || self.too_high("edge", &decided, count(4));
                node(1).or_else(election).or_else(edge).or_else(cut)
            }
            6 => node(2).or_else(|| self.no_boolean(record.byte(5)?)),
            _ => node(1),
        }
    }

    /// Children are lower than the node itself.
    fn node_names(&self, place: Place, record: &Record) -> Option<String> {
        let first = 1 + count(File::Plan, self.plan, 2);
        let own = usize::try_from(place.record).ok()?.checked_sub(first)?;
        let children = [record.bytes(2), record.bytes(3), record.bytes(4)].concat();
        let higher = children.iter().find(|child| usize::from(**child) >= own);
        let child = higher.map(|child| format!("it is node {own} and names node {child}"));
        child.or_else(|| self.too_high("fact", record.field(1)?, first - 1))
    }

    fn case_names(&self, record: &Record) -> Option<String> {
        let number = record.byte(0)?;
        match record.kind {
            3 => self.no_boolean(number),
            4 => match self.fact_is_boolean(number) {
                None => Some(format!("there is no fact {number}")),
                Some(true) => {
                    Some(format!("{} is a boolean fact, not a relation", self.fact(number)))
                }
                Some(false) => self.no_family(number),
            },
            _ => self.too_high("node", &[number], count(File::Plan, self.plan, 3)),
        }
    }

    fn no_family(&self, fact: u8) -> Option<String> {
        let mut facts = Reader::new(File::Plan, self.plan).filter(|record| record.kind == 2);
        let family = facts.nth(usize::from(fact))?.byte(0)?;
        let mut families = Reader::new(File::Case, self.case).filter(|record| record.kind == 2);
        let told = families.any(|record| record.byte(0) == Some(family));
        let (fact, family) = (self.fact(fact), self.names.numbered("family", family));
        (!told).then(|| format!("{fact} is of {family}, which has no record in the case"))
    }

    fn told_twice(&self, record: &Record) -> Option<String> {
        let number = record.byte(0)?;
        let what = if record.kind == 2 {
            self.names.numbered("family", number)
        } else {
            self.fact(number)
        };
        Some(format!("{what} has a record already"))
    }

    /// A fact, by family and persons.
    fn fact_words(&self, record: &Record) -> String {
        match (record.byte(0), record.bytes(1)) {
            (None, _) => "boolean".to_string(),
            (Some(family), []) => {
                format!("of {} and nobody", self.names.numbered("family", family))
            }
            (Some(family), tuple) => {
                let persons = tuple.iter().map(|person| self.names.numbered("person", *person));
                format!("of {} and {}", self.names.numbered("family", family), listed(persons))
            }
        }
    }

    /// The fact before, which does not come before.
    fn fact_order(&self, place: Place) -> Option<String> {
        let later = usize::try_from(place.record).ok()?.checked_sub(1)?;
        let earlier = later.checked_sub(1)?;
        let mut facts = Reader::new(File::Plan, self.plan).skip(1 + earlier);
        let [before, behind] = [facts.next()?, facts.next()?].map(|fact| self.fact_words(&fact));
        if before == behind {
            return Some(format!("fact {earlier} and fact {later} are both {before}"));
        }
        Some(format!(
            "fact {later} is {behind} and stands behind fact {earlier}, which is {before}"
        ))
    }

    fn twice_decided(&self, record: &Record) -> Option<String> {
        let edges: Vec<u8> = record.bytes(4).iter().step_by(2).copied().collect();
        let mut places = edges.iter().enumerate();
        let twice = places.find(|(at, edge)| edges.iter().take(*at).any(|other| other == *edge));
        let (_, edge) = twice.filter(|_| record.kind == 5)?;
        Some(format!("{} is decided twice", self.names.numbered("edge", *edge)))
    }

    /// The fact, and the first rule with an election on it, from which the later ones must not differ.
    fn elections(&self, record: &Record) -> Option<String> {
        let fact = elected(record)?;
        let rules = Reader::new(File::Plan, self.plan).filter(|rule| matches!(rule.kind, 5 | 6));
        let rules: Vec<Record> = rules.collect();
        let place = rules.iter().position(|rule| elected(rule) == Some(fact))?;
        let kind = rules.get(place)?.kind;
        let before = rules.iter().take(place).filter(|rule| rule.kind == kind).count();
        let name = if kind == 5 { "cut" } else { "attachment" };
        let first = self.names.numbered(name, u8::try_from(before).ok()?);
        Some(format!("{first} has another election on {}", self.fact(fact)))
    }

    /// The first Combination edge that crosses the cut and that the cut does not decide.
    fn undecided(&self, place: Place) -> Option<String> {
        let (_, records) = plan_reader::read(self.plan)?;
        let before = 1 + records.facts.len() + records.nodes.len() + records.edges.len();
        let number = usize::try_from(place.record).ok()?.checked_sub(before)?;
        let cut = records.cuts.get(number)?;
        let mut edges = records.edges.iter().zip(0u8..);
        let (edge, at) = edges.find(|(edge, at)| {
            let crosses = edge.combination && cut.members.parts(edge.left, edge.right);
            crosses && cut.decisions.iter().all(|(decided, _)| decided.number != *at)
        })?;
        let named = |kind, number| self.names.numbered(kind, number);
        let [left, right] = [edge.left, edge.right].map(|person| named("person", person));
        let (edge, cut) = (named("edge", at), named("cut", u8::try_from(number).ok()?));
        Some(format!("{edge} between {left} and {right} crosses {cut}"))
    }

    fn heading(&self, record: &Record) -> Option<String> {
        let (_, records) = plan_reader::read(self.plan)?;
        let relation = record.byte(0)?;
        if relation != records.relation {
            let other = records.relation;
            return Some(format!("its relation is {relation}, the plan's is {other}"));
        }
        if record.byte(1).unwrap_or(0) == 0 {
            return Some("its scope is empty".to_string());
        }
        if record.byte(2).unwrap_or(0) == 0 {
            return Some("its segment is empty".to_string());
        }
        let roster = Persons::from_mask(record.mask(4)?);
        if roster.is_empty() {
            return Some("its roster is empty".to_string());
        }
        self.off_roster(&records, roster)
    }

    fn off_roster(&self, records: &Records, roster: Persons) -> Option<String> {
        let (rule, number) = first_off(records, roster)?;
        let persons = records.rule_persons().without(roster).iter();
        let all = listed(persons.map(|person| self.names.numbered("person", person)));
        let rule = self.names.numbered(rule, number);
        Some(format!(
            "rules name somebody who is not on the roster: {all}; the first such rule is {rule}"
        ))
    }
}

/// The record, if its fields can be told apart.
pub(crate) fn record_at(place: Place, bytes: &[u8]) -> Option<Record<'_>> {
    Reader::new(place.file, bytes.get(place.offset..)?).next()
}

/// The kind of the record before.
fn kind_before(place: Place, bytes: &[u8]) -> Option<u8> {
    let count = usize::try_from(place.record).ok()?.checked_sub(1)?;
    Reader::new(place.file, bytes).nth(count).map(|record| record.kind)
}

fn malformed(place: Place, bytes: &[u8]) -> Option<String> {
    let kind = place.kind?;
    if place.file.kind_name(kind).is_none() {
        return Some(format!("there is no kind {kind}"));
    }
    if let Some(before) = kind_before(place, bytes).filter(|before| *before > kind) {
        return Some(format!("its kind {kind} follows kind {before}, but kinds never fall"));
    }
    let Some(bits) = bytes.get(place.offset + 1) else {
        return Some("the file ends behind its kind".to_string());
    };
    let unknown = bits & !place.file.listed(kind);
    if unknown != 0 {
        return Some(format!("it has bit {}, which its kind lacks", unknown.trailing_zeros()));
    }
    match record_at(place, bytes) {
        None => Some("the file ends before its last field does".to_string()),
        Some(record) => ranges::outside(place.file, &record),
    }
}

/// How many records of a kind there may be, and what they are called.
fn limit(file: File, kind: u8) -> Option<(usize, &'static str)> {
    Some(match (file, kind) {
        (_, 1) => (1, "headings"),
        (File::Plan, 2) => (limits::FACTS, "facts"),
        (File::Plan, 3) => (limits::NODES, "nodes"),
        (File::Plan, 4) => (limits::EDGES, "edges"),
        (File::Plan, 5) => (limits::CUTS, "cuts"),
        (File::Plan, 6) => (limits::ATTACHMENTS, "attachments"),
        (File::Plan, 7) => (limits::BARS, "bars"),
        (File::Plan, 8) => (limits::STATUSES, "statuses"),
        (File::Case, 2) => (limits::FAMILIES, "families"),
        (File::Case, 3) => (limits::BOOLEANS, "booleans"),
        (File::Case, 4) => (limits::RELATIONS, "relations"),
        (File::Case, 5) => (limits::CONSTRAINTS, "constraints"),
        _ => return None,
    })
}

/// Which limit was passed. Only a cut passes one that is not the count of its kind.
fn past_limit(place: Place, bytes: &[u8]) -> Option<String> {
    let (most, what) = limit(place.file, place.kind?)?;
    let until = usize::try_from(place.record).ok()?;
    let same = |record: &Record| Some(record.kind) == place.kind;
    let before = Reader::new(place.file, bytes).take(until).filter(same).count();
    if place.kind == Some(1) {
        return Some("the file has its heading already".to_string());
    }
    if before >= most {
        return Some(format!("there are {before} {what} before it, and there may be {most}"));
    }
    let lists = Reader::new(place.file, bytes).take(until + 1).filter(same);
    let decisions = lists.flat_map(|record| record.bytes(4).chunks_exact(2));
    let open = decisions.filter(|pair| pair.last() == Some(&3)).count();
    let most = limits::UNRESOLVED;
    Some(format!("with this cut there are {open} unresolved decisions, and there may be {most}"))
}

/// The bits that a kind requires.
fn required(file: File, kind: u8) -> &'static [usize] {
    match (file, kind) {
        (File::Plan, 1) | (File::Case, 2 | 3 | 5) => &[0],
        (File::Plan, 4) => &[0, 1, 2, 3],
        (File::Plan, 5 | 7 | 8) | (File::Case, 4) => &[0, 1, 2],
        (File::Plan, 6) => &[0, 1, 2, 3, 4],
        (File::Case, 1) => &[0, 4, 6],
        _ => &[],
    }
}

fn missing(place: Place, record: &Record) -> Option<String> {
    if place.record == 0 && record.kind != 1 {
        return Some("the file does not begin with a heading".to_string());
    }
    if place.file == File::Plan && record.kind == 3 {
        return Some("a node has just one field".to_string());
    }
    if place.file == File::Plan && record.kind == 2 {
        return Some("a fact has family and tuple, or neither".to_string());
    }
    let bit = *required(place.file, record.kind).iter().find(|bit| !record.has(**bit))?;
    let name = ranges::field_name(place.file, record.kind, bit)?;
    Some(format!("its {name} (bit {bit}) is missing"))
}

/// The fact of a rule's election.
fn elected(record: &Record) -> Option<u8> {
    record.byte(if record.kind == 5 { 3 } else { 5 })
}

/// How many records of a kind a file has.
fn count(file: File, bytes: &[u8], kind: u8) -> usize {
    Reader::new(file, bytes).filter(|record| record.kind == kind).count()
}

fn counted(count: usize, what: &str) -> String {
    let verb = if count == 1 { "is" } else { "are" };
    format!("there {verb} {}", number_of(count, what))
}

fn number_of(count: usize, what: &str) -> String {
    if count == 1 { format!("1 {what}") } else { format!("{count} {what}s") }
}

/// The first rule that names somebody off the roster: its kind and number.
fn first_off(records: &Records, roster: Persons) -> Option<(&'static str, u8)> {
    let off = |persons: Persons| !persons.without(roster).is_empty();
    let edges = records.edges.iter().position(|edge| off(edge.ends()));
    let cuts = || records.cuts.iter().position(|cut| off(cut.members));
    let attachments = || records.attachments.iter().position(|rule| off(rule.persons()));
    let bars = || records.bars.iter().position(|bar| off(bar.members));
    let statuses = || records.statuses.iter().map(Status::persons).position(off);
    let (rule, number) = edges
        .map(|number| ("edge", number))
        .or_else(|| cuts().map(|number| ("cut", number)))
        .or_else(|| attachments().map(|number| ("attachment", number)))
        .or_else(|| bars().map(|number| ("bar", number)))
        .or_else(|| statuses().map(|number| ("status", number)))?;
    Some((rule, u8::try_from(number).ok()?))
}
