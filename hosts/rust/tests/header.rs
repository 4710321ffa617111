//! The C header has the numbers of this crate.

use std::collections::BTreeMap;

use lukhveri::{
    EVENT, Event, IMPORTED_LENGTH, LINE, LineKind, Persons, Reason, Role, TEXT_LENGTH, limits,
};

/// Every constant of the header that is a plain number.
fn constants() -> BTreeMap<String, usize> {
    let path = concat!(env!("CARGO_MANIFEST_DIR"), "/../lukhveri.h");
    let text = std::fs::read_to_string(path).expect("the header");
    let lines = text.lines().filter_map(|line| line.strip_prefix("#define LUKHVERI_"));
    let pairs = lines.filter_map(|line| {
        let mut words = line.split_whitespace();
        Some((words.next()?.to_string(), words.next()?.parse().ok()?))
    });
    pairs.collect()
}

#[test]
fn sizes_kinds_and_roles() {
    let header = constants();
    let is = |name: &str, number: usize| assert_eq!(header.get(name), Some(&number), "{name}");
    is("LINE", LINE);
    is("EVENT", EVENT);
    is("PERSONS", limits::PERSONS);
    is("UNITS", limits::UNITS);
    is("WORLDS", usize::from(limits::WORLDS));
    is("TEXT_LENGTH", TEXT_LENGTH);
    is("IMPORTED_LENGTH", IMPORTED_LENGTH);
    is("DECIDED", usize::from(LineKind::Decided.number()));
    is("MEMBERSHIP_OPEN", usize::from(LineKind::Membership.number()));
    is("ROLE_OPEN", usize::from(LineKind::Role.number()));
    is("OVERLAP", usize::from(LineKind::Overlap.number()));
    is("DISCRETION", usize::from(LineKind::Discretion.number()));
    is("ROSTER_INCOMPLETE", usize::from(LineKind::RosterIncomplete.number()));
    is("INCONSISTENT", usize::from(LineKind::Inconsistent.number()));
    is("NO_ROLE", usize::from(Role::None.number()));
    is("MEMBER", usize::from(Role::Member.number()));
    is("EXCLUDED", usize::from(Role::Excluded.number()));
    is("BARRED", usize::from(Role::Barred.number()));
}

/// The numbers that a call tells stand one behind another; pooling tells two more, an import others.
#[test]
fn what_a_call_tells() {
    let header = constants();
    let answer = ["REFUSAL", "RECORD", "COUNT", "MAXIMUM", "LINES", "EVENTS", "WORLDS"];
    let pool = [&answer[..], &["UNITS", "UNPLACED"]].concat();
    for (place, name) in pool.iter().enumerate() {
        assert_eq!(header.get(&format!("TOLD_{name}")), Some(&place), "{name}");
    }
    assert_eq!(header.get("TOLD"), Some(&answer.len()));
    assert_eq!(header.get("POOL_TOLD"), Some(&pool.len()));
    let import = ["REFUSAL", "RECORD", "LENGTH"];
    for (place, name) in import.iter().enumerate() {
        assert_eq!(header.get(&format!("MADE_{name}")), Some(&place), "{name}");
    }
    assert_eq!(header.get("MADE"), Some(&import.len()));
}

#[test]
fn refusals() {
    let header = constants();
    let is = |name: &str, reason: Reason| {
        assert_eq!(header.get(name), Some(&usize::from(reason.number())), "{name}")
    };
    is("MALFORMED", Reason::Malformed);
    is("PAST_LIMIT", Reason::PastLimit);
    is("INCOMPLETE", Reason::Incomplete);
    is("NAMES_NOTHING", Reason::NamesNothing);
    is("OUT_OF_ORDER", Reason::OutOfOrder);
    is("UNDECIDED", Reason::Undecided);
    is("ELECTIONS_DIFFER", Reason::ElectionsDiffer);
    is("SEGMENT_INCOMPLETE", Reason::SegmentIncomplete);
    is("HEADING", Reason::Heading);
    is("UNKNOWN_AND_OBSERVED", Reason::UnknownAndObserved);
    is("TOO_MANY_WORLDS", Reason::TooManyWorlds { count: 2, most: 1 });
    is("LINES_DO_NOT_FIT", Reason::LinesDoNotFit);
    is("EVENTS_DO_NOT_FIT", Reason::EventsDoNotFit);
    is("NO_SUCH_WORLD", Reason::NoSuchWorld);
    is("AMOUNTS_DO_NOT_FIT", Reason::AmountsDoNotFit);
    is("BROKEN_ROW", Reason::BrokenRow { row: 1 });
    is("PLAN_DOES_NOT_FIT", Reason::PlanDoesNotFit);
}

#[test]
fn events() {
    let header = constants();
    let is = |name: &str, event: Event| {
        assert_eq!(header.get(name), event.bytes().first().map(|kind| usize::from(*kind)).as_ref())
    };
    is("EVENT_FROZEN", Event::Frozen { edge: 0, left: 0, right: 0 });
    is("EVENT_OVERLAP", Event::Overlap { earlier: 0, later: 0 });
    is("EVENT_BARRED", Event::Barred { bar: 0 });
    is("EVENT_EXCLUDED", Event::Excluded { status: 0, person: 0 });
    is("EVENT_DEFAULT", Event::Default { fact: 0, actor: 1, value: false, citation: 0 });
    is("EVENT_DISCRETION", Event::Discretion { persons: Persons::NOBODY });
}
