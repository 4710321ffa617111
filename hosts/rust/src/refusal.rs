//! Refusals in words.

use std::error::Error;
use std::fmt;

use crate::foreign::{Made, Told};
use crate::read::{File, Reader};

/// What an operation turns away.
#[derive(Clone, Copy, Debug, PartialEq, Eq, Hash)]
pub enum Reason {
    /// 1: cut short, unknown kind or bit, falling kind, value or count outside its range.
    Malformed,
    /// 2: past a limit.
    PastLimit,
    /// 3: a required field missing, a wrong set of bits, or no heading at the start.
    Incomplete,
    /// 4: a number that names nothing, or nothing of the right sort.
    NamesNothing,
    /// 5: facts out of order, or something told twice.
    OutOfOrder,
    /// 6: a cut and a Combination edge crossing without a decision.
    Undecided,
    /// 7: elections on one fact that differ.
    ElectionsDiffer,
    /// 8: the segment is not complete.
    SegmentIncomplete,
    /// 9: heading and plan do not fit together.
    Heading,
    /// 10: explicit unknown beside observations.
    UnknownAndObserved,
    /// 11: more worlds than the heading allows; both numbers are 2^64 − 1 from 2^64 worlds on.
    TooManyWorlds { count: u64, most: u64 },
    /// 12: the lines do not fit the lent buffer.
    LinesDoNotFit,
    /// 13: there are more events than the lent buffer holds.
    EventsDoNotFit,
    /// 14: there is no world of that number.
    NoSuchWorld,
    /// 15: the list of amounts is not as long as the roster.
    AmountsDoNotFit,
    /// 16: the first row of a table that breaks its form, counted from 0, the header's.
    BrokenRow { row: u64 },
    /// 17: the plan of a table does not fit the lent buffer.
    PlanDoesNotFit,
    /// A number that no operation answers today.
    Other(u8),
}

impl Reason {
    fn of(number: u8, count: u64, most: u64) -> Reason {
        match number {
            1 => Reason::Malformed,
            2 => Reason::PastLimit,
            3 => Reason::Incomplete,
            4 => Reason::NamesNothing,
            5 => Reason::OutOfOrder,
            6 => Reason::Undecided,
            7 => Reason::ElectionsDiffer,
            8 => Reason::SegmentIncomplete,
            9 => Reason::Heading,
            10 => Reason::UnknownAndObserved,
            11 => Reason::TooManyWorlds { count, most },
            12 => Reason::LinesDoNotFit,
            13 => Reason::EventsDoNotFit,
            14 => Reason::NoSuchWorld,
            15 => Reason::AmountsDoNotFit,
            _ => Reason::Other(number),
        }
    }

    pub fn number(self) -> u8 {
        match self {
            Reason::Malformed => 1,
            Reason::PastLimit => 2,
            Reason::Incomplete => 3,
            Reason::NamesNothing => 4,
            Reason::OutOfOrder => 5,
            Reason::Undecided => 6,
            Reason::ElectionsDiffer => 7,
            Reason::SegmentIncomplete => 8,
            Reason::Heading => 9,
            Reason::UnknownAndObserved => 10,
            Reason::TooManyWorlds { .. } => 11,
            Reason::LinesDoNotFit => 12,
            Reason::EventsDoNotFit => 13,
            Reason::NoSuchWorld => 14,
            Reason::AmountsDoNotFit => 15,
            Reason::BrokenRow { .. } => 16,
            Reason::PlanDoesNotFit => 17,
            Reason::Other(number) => number,
        }
    }

    /// Whether the refusal names a record.
    fn has_record(self) -> bool {
        (1..=10).contains(&self.number())
    }
}

/// The record at fault.
#[derive(Clone, Copy, Debug, PartialEq, Eq, Hash)]
pub struct Place {
    pub file: File,
    /// Counted from 0 over the file.
    pub record: u64,
    /// The byte of the file at which it begins.
    pub offset: usize,
    /// Its kind byte; none at the end of the file.
    pub kind: Option<u8>,
}

impl Place {
    fn find(file: File, bytes: &[u8], record: u64) -> Place {
        let mut reader = Reader::new(file, bytes);
        let before = usize::try_from(record).unwrap_or(usize::MAX);
        reader.by_ref().take(before).for_each(drop);
        let rest = reader.rest();
        let offset = bytes.len() - rest.len();
        Place { file, record, offset, kind: rest.first().copied() }
    }

    fn kind_name(&self) -> Option<&'static str> {
        self.file.kind_name(self.kind?)
    }
}

impl fmt::Display for Place {
    fn fmt(&self, to: &mut fmt::Formatter) -> fmt::Result {
        let file = match self.file {
            File::Plan => "plan",
            File::Case => "case",
        };
        write!(to, "{file}, record {}", self.record)?;
        match (self.kind_name(), self.kind) {
            (Some(name), _) => write!(to, " ({name}, at byte {})", self.offset),
            (None, Some(kind)) => {
                write!(to, " (of kind {kind}, which is unknown, at byte {})", self.offset)
            }
            (None, None) => write!(to, " (where the file ends, at byte {})", self.offset),
        }
    }
}

/// How long a list of amounts is.
#[derive(Clone, Copy, Debug, PartialEq, Eq, Hash)]
pub(crate) enum Given {
    Amounts(usize),
    /// Bytes of a file, no multiple of 4.
    Bytes(usize),
}

/// Why an operation gave no result: the buffers that were lent to it are then all zero.
#[derive(Clone, Copy, Debug, PartialEq, Eq, Hash)]
pub struct Refusal {
    pub reason: Reason,
    /// Where, for the refusals that name a record: 1 to 10.
    pub place: Option<Place>,
    /// The world that was to be shown, if one was.
    pub(crate) world: Option<u64>,
    /// How long the list of amounts is, where it is at fault.
    pub(crate) given: Option<Given>,
}

impl Refusal {
    /// A refusal that names no record.
    pub(crate) fn nowhere(reason: Reason) -> Refusal {
        Refusal { reason, place: None, world: None, given: None }
    }

    /// Where the list of amounts is at fault, with how long it is.
    pub(crate) fn of_amounts(self, given: Given) -> Refusal {
        let at_fault = self.reason == Reason::AmountsDoNotFit;
        Refusal { given: at_fault.then_some(given), ..self }
    }

    /// The refusal that was told, if one was. Refusals 1 to 7 of an accepted plan name a record of the case.
    pub(crate) fn told(told: &Told, plan: &[u8], case: Option<&[u8]>) -> Option<Refusal> {
        let [number, record, count, maximum, ..] = *told;
        if number == 0 {
            return None;
        }
        let reason = Reason::of(u8::try_from(number).unwrap_or(u8::MAX), count, maximum);
        let place = || match case.filter(|_| crate::foreign::check(plan)[0] == 0) {
            Some(case) => Place::find(File::Case, case, record),
            None => Place::find(File::Plan, plan, record),
        };
        let place = reason.has_record().then(place);
        Some(Refusal { place, ..Refusal::nowhere(reason) })
    }

    /// The refusal of a table, if it is refused.
    pub(crate) fn made(made: &Made) -> Option<Refusal> {
        let [number, row, _] = *made;
        let reason = match number {
            0 => return None,
            16 => Reason::BrokenRow { row },
            17 => Reason::PlanDoesNotFit,
            _ => Reason::Other(u8::try_from(number).unwrap_or(u8::MAX)),
        };
        Some(Refusal::nowhere(reason))
    }

    /// Its number in documents 01 and 02.
    pub fn number(&self) -> u8 {
        self.reason.number()
    }

    /// The record that it names, for 16 the row of the table; 0 where it names none.
    pub fn record(&self) -> u64 {
        match self.reason {
            Reason::BrokenRow { row } => row,
            _ => self.place.map_or(0, |place| place.record),
        }
    }

    /// File and kind of the record at fault.
    fn at(&self) -> Option<(File, u8)> {
        self.place.and_then(|place| Some((place.file, place.kind?)))
    }

    fn words(&self) -> &'static str {
        match self.reason {
            Reason::Malformed => {
                "it is cut short, or its kind or a bit is unknown, or its kind is lower than the one before, or a value or a count is outside its range"
            }
            Reason::PastLimit => match self.at() {
                Some((_, 1)) => "a second heading",
                Some((File::Plan, 5)) => "more than 16 cuts, or more than 16 unresolved decisions",
                _ => "more records of this kind than there may be",
            },
            Reason::Incomplete => match self.place {
                Some(Place { record: 0, .. }) => {
                    "the first record must be a heading with all its required fields"
                }
                _ => "a required field is missing, or its fields may not stand together",
            },
            Reason::NamesNothing => self.names_nothing(),
            Reason::OutOfOrder => self.out_of_order(),
            Reason::Undecided => {
                "a Combination edge crosses the cut, and the cut does not decide it"
            }
            Reason::ElectionsDiffer => "its election differs from an earlier one on the same fact",
            Reason::SegmentIncomplete => {
                "the segment, which is the period, is not complete: something changes within it"
            }
            Reason::Heading => {
                "the relation is not the plan's, or scope, segment or roster is empty, or a rule of the plan names someone off the roster"
            }
            Reason::UnknownAndObserved => "the fact is explicitly unknown and observed, too",
            Reason::TooManyWorlds { .. } => "more worlds than the heading allows",
            Reason::LinesDoNotFit => "the lines do not fit the buffer: 29 bytes for each person",
            Reason::EventsDoNotFit => "there are more events than the buffer holds, 12 bytes each",
            Reason::NoSuchWorld => "there is no admissible world of that number",
            Reason::AmountsDoNotFit => "the list of amounts is not as long as the roster",
            Reason::BrokenRow { .. } => "a row of the table breaks its form",
            Reason::PlanDoesNotFit => "the plan does not fit the buffer",
            Reason::Other(_) => "a refusal that this program does not know",
        }
    }

    fn names_nothing(&self) -> &'static str {
        match self.at() {
            Some((File::Plan, 3)) => {
                "it names a fact that is not there, or a node that is not lower"
            }
            Some((File::Plan, 5)) => {
                "it names a node, an edge or a cut that is not there, or its election no boolean fact"
            }
            Some((File::Plan, 6)) => {
                "it names a node that is not there, or its election no boolean fact"
            }
            Some((File::Plan, _)) => "it names a node that is not there",
            Some((File::Case, 3)) => "it names no boolean fact of the plan",
            Some((File::Case, 4)) => {
                "it names no relation fact of the plan, or one whose family has no record in the case"
            }
            Some((File::Case, 5)) => "it names no node of the plan",
            _ => "a number that names nothing",
        }
    }

    fn out_of_order(&self) -> &'static str {
        match self.at() {
            Some((File::Plan, 2)) => {
                "facts are out of order: booleans come first, then rising family and persons, none twice"
            }
            Some((File::Plan, 5)) => "it decides an edge twice",
            Some((File::Case, 2)) => "an earlier record has the same family",
            Some((File::Case, 3)) => "an earlier record has the same fact",
            _ => "something stands twice or out of order",
        }
    }

    /// What would mend it.
    pub fn remedy(&self) -> &'static str {
        match self.reason {
            Reason::Malformed => "write this record anew, or make the file again from its source",
            Reason::PastLimit => self.too_many_remedy(),
            Reason::Incomplete => match self.place {
                Some(Place { kind: None, .. }) => "write the file anew: it is empty",
                _ => "give the record all required fields, and none that exclude each other",
            },
            Reason::NamesNothing => "add what is named, or name something that is there",
            Reason::OutOfOrder => match self.at() {
                Some((File::Plan, 2)) => "sort the facts and write each once",
                Some((File::Plan, _)) => "keep one of the two decisions",
                _ => "join the two records into one",
            },
            Reason::Undecided => {
                "add a decision on that edge to the cut: blocked, overrides or unresolved"
            }
            Reason::ElectionsDiffer => {
                "make fact, actor, policy and citation of both elections equal"
            }
            Reason::SegmentIncomplete => "cut the period where something changes and run each part",
            Reason::Heading => {
                "compare the case's heading with the plan; where people have come or gone, both files have to know"
            }
            Reason::UnknownAndObserved => "keep the explicit unknown or the observations, not both",
            Reason::TooManyWorlds { .. } => {
                "find out some of the open facts, settle decisions, or allow more worlds (4,096 at most)"
            }
            Reason::LinesDoNotFit => {
                "lend 29 bytes for each person of the roster; 1,856 always suffice"
            }
            Reason::EventsDoNotFit => "lend more for the events; 1,048,608 bytes always suffice",
            Reason::NoSuchWorld => {
                "ask for a world below the count of worlds; where there are none, confirm the roster or correct what contradicts the constraints"
            }
            Reason::AmountsDoNotFit => {
                "give one amount for each person of the roster, in rising order of the persons' numbers; in amounts.bin each takes 4 bytes"
            }
            Reason::BrokenRow { row: 0 } => {
                "write kind,left,right,citation in the first row, end each row in CR LF, and save the table as UTF-8 without a byte order mark"
            }
            Reason::BrokenRow { .. } => {
                "write four fields, kind,left,right,citation: base, combination or status, whole numbers from 0 to 63, and right empty for a status"
            }
            Reason::PlanDoesNotFit => "lend more for the plan; 550 bytes always suffice",
            Reason::Other(_) => "use a program that fits the library",
        }
    }

    fn too_many_remedy(&self) -> &'static str {
        match self.at() {
            Some((_, 1)) => "keep one heading",
            Some((File::Plan, 5)) => {
                "leave out what is not needed, take some of the decisions, or split the roster"
            }
            _ => "leave out what is not needed, or split the roster",
        }
    }
}

impl Refusal {
    /// The reason, with the numbers that it comes with.
    pub(crate) fn reason_in_words(&self) -> String {
        let words = self.words();
        match self.reason {
            Reason::TooManyWorlds { count: u64::MAX, most: u64::MAX } => {
                format!("{words}: 2^64 or more")
            }
            Reason::TooManyWorlds { count, most } => format!("{words}: {count}, allowed {most}"),
            Reason::BrokenRow { row } => format!("row {row} of the table breaks its form"),
            _ => words.to_string(),
        }
    }
}

impl fmt::Display for Refusal {
    fn fmt(&self, to: &mut fmt::Formatter) -> fmt::Result {
        write!(to, "refused {}: ", self.number())?;
        if let Some(place) = self.place {
            write!(to, "{place}: ")?;
        }
        write!(to, "{}", self.reason_in_words())
    }
}

impl Error for Refusal {}
