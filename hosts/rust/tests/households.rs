//! Which units are households: the crate beside the proved lister, and in words.

mod program;
mod roster;

use lukhveri::names::Names;
use lukhveri::{
    Answer, Attachment, Buffers, CaseBuilder, Citation, Cut, Edge, Frame, Line, LineKind, Paper,
    Persons, PlanBuilder, Role, Status, answer, list, pool, show, words,
};
use program::Random;
use roster::{households, roster, units, without_units};

fn answered(words: &str) -> Answer {
    let (plan, case) = roster(words);
    answer(&plan, &case).expect("an answer")
}

/// Everything that counts units or households, the proved text among it, says the same.
fn agree(plan: &[u8], case: &[u8], buffers: &mut Buffers) -> Option<(usize, usize)> {
    let answered = buffers.answer(plan, case).ok()?;
    let answer = answered.to_answer();
    let (units, households) = (answer.units(), answer.households());
    assert!(answered.units().eq(units.iter().copied()), "{answer:?}");
    assert!(answered.households().eq(households.iter().copied()), "{answer:?}");
    let listed = list(plan, case).households();
    assert_eq!(listed, Some(households.len() as u64), "{plan:x?} {case:x?}");
    let amounts = vec![1; answer.lines.len()];
    let pools = pool(plan, case, &amounts).expect("pools");
    assert!(pools.units.iter().map(|unit| unit.persons).eq(units.iter().copied()));
    for unit in pools.units {
        let is_household = households.contains(&unit.persons);
        assert_eq!(answer.is_household(unit.persons), is_household);
        assert!(is_household || (unit.cents, unit.open) == (0, false), "{unit:?}");
    }
    Some((units.len(), households.len()))
}

#[test]
fn who_makes_a_household() {
    for (words, count) in [
        ("m", 1),
        ("e", 0),
        ("b", 1),
        ("o", 1),
        ("ee", 0),
        ("me", 1),
        ("be", 1),
        ("oe", 1),
        ("eo", 1),
        ("bo", 1),
        ("eee ee e", 0),
        ("oe e b", 2),
        ("e m ee mm e", 2),
    ] {
        let answer = answered(words);
        assert_eq!(answer.units(), units(words), "{words}");
        assert_eq!(answer.households(), households(words), "{words}");
        assert_eq!(answer.households().len(), count, "{words}");
        let (plan, case) = roster(words);
        let last = format!("\nunits {count}\n");
        assert!(list(&plan, &case).text.ends_with(&last), "{words}");
        assert_eq!(agree(&plan, &case, &mut Buffers::new()), Some((units(words).len(), count)));
    }
}

/// Kind and role of one line.
#[test]
fn what_a_line_makes() {
    for kind in 0..7 {
        for role in 0..4 {
            let mut bytes = [0; 29];
            (bytes[1], bytes[2], bytes[3]) = (kind, role, 1);
            let line = Line::of(&bytes).expect("a line");
            let wanted = kind == 2 || (kind == 0 && role != 2);
            assert_eq!(line.makes_household(), wanted, "kind {kind}, role {role}");
        }
    }
}

/// Who is no unit is no household.
#[test]
fn persons_who_are_no_unit() {
    let answer = answered("mm e");
    let persons = |numbers: &[u8]| Persons::of(numbers).expect("persons");
    assert!(answer.is_household(persons(&[0, 1])) && !answer.is_household(persons(&[2])));
    for none in [persons(&[]), persons(&[0]), persons(&[0, 1, 2]), persons(&[9])] {
        assert!(!answer.is_household(none), "{none}");
    }
}

/// Kinds 5 and 6, and 1, 3 and 4 beside a unit of somebody who is excluded.
#[test]
fn persons_without_a_block() {
    for (plan, case) in without_units("e mm oe") {
        let answer = answer(&plan, &case).expect("an answer");
        assert!(answer.lines.iter().all(|line| !line.makes_household()));
        assert_eq!(agree(&plan, &case, &mut Buffers::new()), Some((0, 0)));
        assert!(list(&plan, &case).text.ends_with("\nunits 0\n"));
    }
    let mut plan = PlanBuilder::new(1);
    let fact = plan.boolean().expect("a fact");
    let (always, open) = (plan.literal(true).expect("a node"), plan.holds(fact).expect("a node"));
    plan.edge(Edge::base(0, 1, open, Citation(1))).expect("an edge");
    plan.edge(Edge::base(5, 6, always, Citation(1))).expect("an edge");
    plan.edge(Edge::base(6, 7, always, Citation(1))).expect("an edge");
    for members in [[2, 3], [3, 4]] {
        let members = Persons::of(&members).expect("persons");
        plan.cut(Cut::new(members, always, Citation(2))).expect("a cut");
    }
    plan.status(Status::new(8, always, Citation(3))).expect("a status");
    let plan = plan.finish().expect("a plan");
    let all = Persons::from_mask(0x1ff);
    let mut case = CaseBuilder::new(&plan, Frame { scope: 1, segment: 1 }, all).expect("a case");
    case.roster_complete(Paper(1)).expect("evidence");
    let case = case.finish().expect("a case");
    let answer = answer(plan.bytes(), case.bytes()).expect("an answer");
    let kinds: Vec<u8> = answer.lines.iter().map(|line| line.kind.number()).collect();
    assert_eq!(kinds, [1, 1, 3, 3, 3, 4, 4, 4, 0]);
    assert_eq!(agree(plan.bytes(), case.bytes(), &mut Buffers::new()), Some((1, 0)));
}

/// A block that an attachment makes, whose lowest person is not next to the others; one whose anchor alone is not excluded.
#[test]
fn attached_persons() {
    for (excluded, count) in [(&[0, 3][..], 3), (&[0, 3, 5], 2), (&[0, 1, 2, 3, 4, 5], 0)] {
        let mut plan = PlanBuilder::new(1);
        let always = plan.literal(true).expect("a node");
        let guests = Persons::of(&[0, 3]).expect("persons");
        let host = lukhveri::Actor(1);
        let stay = Attachment::new(guests, 5, always, Citation(1), host);
        plan.attachment(stay).expect("an attachment");
        plan.edge(Edge::base(1, 4, always, Citation(1))).expect("an edge");
        for person in excluded {
            plan.status(Status::new(*person, always, Citation(2))).expect("a status");
        }
        let plan = plan.finish().expect("a plan");
        let all = Persons::from_mask(0x3f);
        let frame = Frame { scope: 1, segment: 1 };
        let mut case = CaseBuilder::new(&plan, frame, all).expect("a case");
        case.roster_complete(Paper(1)).expect("evidence");
        let case = case.finish().expect("a case");
        let counts = agree(plan.bytes(), case.bytes(), &mut Buffers::new());
        assert_eq!(counts, Some((3, count)), "{excluded:?}");
        let shown = show(plan.bytes(), case.bytes(), 0).expect("a world");
        assert_eq!(shown.households().len(), count, "a world is counted as an answer is");
    }
}

/// A word of that many letters.
fn word(random: &mut Random) -> String {
    let letters = ["eeeem", "meob", "e", "eo", "eb"][random.below(5) as usize];
    let length = 1 + random.below(4);
    let letter =
        |random: &mut Random| letters.as_bytes()[random.below(letters.len() as u64) as usize];
    (0..length).map(|_| char::from(letter(random))).collect()
}

/// Random rosters: the crate, the words that they were made from and the last row of the proved text agree.
#[test]
fn random_rosters() {
    let (mut random, mut buffers, mut fewer) = (Random(5), Buffers::new(), 0);
    for _ in 0..20_000 {
        let words: Vec<String> = (0..1 + random.below(6)).map(|_| word(&mut random)).collect();
        let words = words.join(" ");
        let (plan, case) = roster(&words);
        let wanted = (units(&words).len(), households(&words).len());
        assert_eq!(agree(&plan, &case, &mut buffers), Some(wanted), "{words}");
        fewer += u64::from(wanted.0 != wanted.1);
    }
    assert!(fewer > 5_000, "{fewer} rosters with units that are no households");
}

/// The most persons who can be excluded, and the most units.
#[test]
fn the_largest_rosters() {
    let many = |excluded: usize, others: usize| {
        [vec!["e"; excluded], vec!["m"; others]].concat().join(" ")
    };
    for (words, wanted) in [
        (many(32, 0), (32, 0)),
        (many(32, 32), (64, 32)),
        (many(0, 64), (64, 64)),
        ("e".repeat(32), (1, 0)),
        ("e".repeat(32) + "m", (1, 1)),
    ] {
        let (plan, case) = roster(&words);
        assert_eq!(agree(&plan, &case, &mut Buffers::new()), Some(wanted), "{words}");
    }
}

#[test]
fn counts_in_words() {
    for (units, households, said) in [
        (0, 0, "0 units"),
        (1, 1, "1 unit"),
        (1, 0, "1 unit, which is no household"),
        (2, 2, "2 units"),
        (2, 1, "2 units, 1 of them a household"),
        (2, 0, "2 units, none of them a household"),
        (4, 2, "4 units, 2 of them households"),
        (12, 10, "12 units, 10 of them households"),
    ] {
        assert_eq!(words::units(units, households), said);
    }
}

/// The officers' part names the units that are none; no paragraph says anything of households.
#[test]
fn the_officers_part_alone_speaks_of_households() {
    let names =
        Names::read("person 0 rezo\nperson 1 Anna\nperson 2 anna\nperson 4 Eva; Otar and X")
            .expect("names");
    let said = |words: &str| {
        let (plan, case) = roster(words);
        let answer = answer(&plan, &case).expect("an answer");
        let paragraphs = words::explain(&plan, &case, &names).expect("paragraphs");
        let all = paragraphs.iter().flat_map(|told| &told.sentences).chain(
            paragraphs
                .iter()
                .flat_map(|told| [&told.possible, &told.waits_for, &told.idle])
                .flatten(),
        );
        all.for_each(|sentence| assert!(!sentence.contains("household"), "{sentence}"));
        let plan = lukhveri::Plan::read(&plan).expect("a plan");
        let officer = words::officer(&plan, &answer, &names);
        officer.into_iter().take_while(|line| !line.contains("vents")).collect::<Vec<_>>()
    };
    assert_eq!(
        said("e ee o e"),
        [
            "5 persons, 1 of them not decided; 4 units, 1 of them a household; 2 worlds.",
            "The unit of rezo is no household, as everybody in it is excluded.",
            "The unit of Anna (person 1) and anna (person 2) is no household, as everybody in it is excluded.",
            "The unit of Eva; Otar and X is no household, as everybody in it is excluded.",
        ]
    );
    assert_eq!(
        said("e"),
        [
            "1 person, 0 of them not decided; 1 unit, which is no household; 1 world.",
            "The unit of rezo is no household, as everybody in it is excluded.",
        ]
    );
    for whole in ["m b oe", "o"] {
        let said = said(whole);
        assert!(said.len() == 1 && !said[0].contains("household"), "{said:?}");
    }
}

/// In a unit that is no household everybody is decided and excluded, as is said of it.
#[test]
fn everybody_in_it_is_excluded() {
    let mut random = Random(9);
    for _ in 0..2_000 {
        let words: Vec<String> = (0..1 + random.below(5)).map(|_| word(&mut random)).collect();
        let answer = answered(&words.join(" "));
        for line in answer.lines.iter().filter(|line| !answer.is_household(line.block)) {
            assert_eq!((line.kind, line.role), (LineKind::Decided, Role::Excluded));
        }
    }
}
