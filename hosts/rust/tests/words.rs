//! What is said of persons: true, and of nobody's strangers.

use lukhveri::names::Names;
use lukhveri::near::NearError;
use lukhveri::words;

fn hex(text: &str) -> Vec<u8> {
    let digits: Vec<char> = text.chars().filter(|letter| !letter.is_whitespace()).collect();
    let byte =
        |pair: &[char]| u8::from_str_radix(&pair.iter().collect::<String>(), 16).expect("hex");
    digits.chunks(2).map(byte).collect()
}

/// The sentences on a person, a line each.
fn said(plan: &str, case: &str, person: u8) -> String {
    let told = words::explain_person(&hex(plan), &hex(case), &Names::default(), person);
    told.expect("a paragraph").sentences.join("\n")
}

/// Persons 0 to 2 are one chain, 3 to 5 another, 6 is joined to 5.
const CHAINS: &str = "010101030101040f00010001040f01020001040f03040001040f04050001042f05060002";

#[test]
fn a_mark_comes_from_where_it_comes_from() {
    let case = "017f0101017f00000000000000001000";
    let told = said(CHAINS, case, 6);
    let wanted = "Person 6 is left to discretion.
Person 3, person 4 and person 5 hang together by a chain of Base edges in which not every two are joined by one, and the plan has no citation for chains; this reaches person 6 through edge 4 between person 5 and person 6 (citation 2).
As things stand, an officer has to decide, unless the plan names a paragraph by which chains are enough.";
    assert_eq!(told, wanted);
    for stranger in ["person 0", "person 1", "person 2"] {
        assert!(!told.to_lowercase().contains(stranger), "{stranger} in {told}");
    }
}

/// Cuts {0,1} and {1,2} overlap, so do {3,4} and {4,5}; 6 is joined to 5.
const OVERLAPS: &str = "010101 030101 040f05060001 0507 0300000000000000 0002 0507 0600000000000000 0002 0507 1800000000000000 0002
    0507 3000000000000000 0002";

#[test]
fn an_overlap_comes_from_where_it_comes_from() {
    let told = said(OVERLAPS, "017f0101017f00000000000000001000", 6);
    let wanted = "Nothing is decided of person 6: cuts overlap.
Cut 2 of person 3 and person 4 (citation 2) overlaps with cut 3 of person 4 and person 5 (citation 2); this reaches person 6 through edge 0 between person 5 and person 6 (citation 1).
The plan can say which of two cuts goes first.";
    assert_eq!(told, wanted);
}

/// Facts 0 and 1 are asked by edges 0–1 (of a pair that is fixed anyway) and 1–2.
const FIXED_PAIR: &str = "01010102000200030101030200030201040f00010001042f00010102042f01020202";

#[test]
fn what_decides_and_what_does_not() {
    let case = "017f0101010700000000000000001000";
    let wanted = "It is open with whom person 0 is counted.
Possible: with person 1; with person 1 and person 2.
It waits for fact 1 (not told).
Open as well, but changing nothing as things stand: fact 0 (not told).";
    assert_eq!(said(FIXED_PAIR, case, 0), wanted);
    for person in [1, 2] {
        let told = said(FIXED_PAIR, case, person);
        assert!(told.contains("It waits for fact 1 (not told).\n"), "{told}");
        assert!(told.contains("nothing as things stand: fact 0 (not told)."), "{told}");
    }
}

/// Fact 0 joins 0 and 1, facts 1 to 7 join 2 with 3 to 9, an edge each.
fn many_strangers() -> Vec<u8> {
    let mut plan = hex("010101 0200 0200 0200 0200 0200 0200 0200 0200");
    (0..8).for_each(|fact| plan.extend([3, 2, fact]));
    plan.extend([4, 0x2f, 0, 1, 0, 1]);
    (1..8).for_each(|fact| plan.extend([4, 0x2f, 2, 2 + fact, fact, 2]));
    plan
}

#[test]
fn strangers_answers_change_no_paragraph() {
    let (plan, names) = (many_strangers(), Names::default());
    let heading = hex("017f010101 ff03000000000000 00 0010");
    let told = |case: &[u8]| words::explain_person(&plan, case, &names, 0).expect("a paragraph");
    let all_open = told(&heading);
    assert_eq!(all_open.possible, ["alone", "with person 1"]);
    let mut case = heading.clone();
    for fact in 1..8 {
        case.extend([3, 5, fact, 1, fact % 2, 5]);
        assert_eq!(told(&case), all_open, "facts 1 to {fact} are told");
    }
}

/// Family 1 of 0 and 1 joins them, family 1 of 2 and 3 those. Of the first nothing is told, whatever record the family has for strangers.
#[test]
fn a_register_shows_by_nothing_but_its_answers() {
    let plan = "010101 020301020001 020301020203 030200 030201 040f00010001 040f02030102";
    let heading = "017f010101 0f00000000000000 00 0010";
    let none = said(plan, heading, 0);
    assert!(none.ends_with("It waits for fact 0, family 1 of person 0 and person 1 (not told)."));
    for family in ["02030101 0407010105", "02030102 0407010105", "0207010209", "02030101"] {
        assert_eq!(said(plan, &format!("{heading} {family}"), 0), none, "{family}");
    }
    let other = said(plan, &format!("{heading} 02030102 0407000105"), 0);
    assert!(
        other.ends_with("(told, but family 1 is of another scope than the roster)."),
        "{other}"
    );
}

/// Silence in a complete register, and a defeater.
#[test]
fn why_somebody_is_alone() {
    let plan = "010101 0200 020301020001 020302020102 030101 030200 030201 030202 040f00010201 040f01020302 041f03040003 0101";
    let case = "017f010101 1f00000000000000 00 0010 0207010107 0207020108 030500010109";
    assert_eq!(
        said(plan, case, 0),
        "Person 0 is counted alone.
Edge 0 between person 0 and person 1 (citation 1) does not hold: fact 1, family 1 of person 0 and person 1: no, as the register of family 1 is complete (evidence 7) and silent on it."
    );
    assert_eq!(
        said(plan, case, 3),
        "Person 3 is counted alone.
Edge 2 between person 3 and person 4 (citation 3) does not hold: it is defeated; fact 0: yes, by evidence 9."
    );
}

#[test]
fn a_default_stands_beside_the_rule() {
    let plan = "010101 0200 030101 030200 040f00010001 050f 0100000000000000 0102 00080103";
    let case = "017f010101 0300000000000000 00 0010";
    assert_eq!(
        said(plan, case, 0),
        "Person 0 is counted together with person 1, under citation 1.
Cut 0 of person 0 (citation 2) does not act: fact 0: no, by default, as actor 8 has not said otherwise (citation 3)."
    );
}

#[test]
fn only_roles_that_can_come_about() {
    let plan = "010101 0200 030101 030200 040f00010001 0807000102";
    let told = said(plan, "017f010101 0300000000000000 00 0010", 0);
    assert!(told.contains("Whether as a member or excluded is open."), "{told}");
    assert!(!told.contains("barred"), "{told}");
}

#[test]
fn which_to_ask_first() {
    // edges 0–1 by fact 0, 1–2 by facts 0 and 1: a no to fact 0 settles all of person 1
    let plan = "010101 0200 0200 030200 030201 0304020001 042f00010001 042f01020202";
    let told = said(plan, "017f010101 0700000000000000 00 0010", 1);
    assert!(
        told.contains("Begin with fact 0, where a no settles the rest.\n")
            || told.ends_with("Begin with fact 0, where a no settles the rest."),
        "{told}"
    );
}

/// Cuts {0,1} and {0,2} overlap if fact 0 says so, {3,4} and {4,5} always; the relation of 0 and 3 is open, and while it is, carries that mark to 0.
#[test]
fn an_answer_takes_a_mark_away() {
    let plan = "010101 0200 020307020003 030101 030200 030201
        0507 0300000000000000 0101 0507 0500000000000000 0102 0507 1800000000000000 0003 0507 3000000000000000 0004 0807050205";
    let told = said(plan, "017f010101 3f00000000000000 00 0010", 0);
    let wanted =
        "What is known of fact 1, family 7 of person 0 and person 3 (not told) can change it.
Open as well, but changing nothing as things stand: fact 0 (not told).";
    assert!(told.ends_with(wanted), "{told}");
}

/// A constraint ties two facts together: neither decides alone, either settles it.
#[test]
fn facts_that_a_constraint_ties() {
    // nodes: 0 fact 0, 1 fact 1, 2 both, 3 not 0, 4 not 1, 5 neither, 6 alike
    let plan = "010101 0200 0200 030200 030201 0304020001 031000 031001 0304020304 0308020205 040f00010001";
    let case = "017f010101 0300000000000000 00 0010 050106";
    let told = said(plan, case, 0);
    assert!(!told.contains("It waits for"), "{told}");
    assert!(
        told.contains("What is known of fact 0 (not told); fact 1 (not told) can change it."),
        "{told}"
    );
    assert!(
        told.contains("Begin with fact 0 or fact 1: whatever comes out, it settles the rest."),
        "{told}"
    );
}

#[test]
fn rosters_that_are_not_complete_and_cases_that_contradict() {
    let told = said(FIXED_PAIR, "015f0101010700000000000000 0010", 0);
    assert!(
        told.starts_with(
            "Nothing is decided of person 0: the roster is not complete.\nHave it confirmed"
        ),
        "{told}"
    );
    let plan = "010101 0200 030200";
    let told = said(plan, "017f010101 0100000000000000 00 0010 030500010004 050100", 0);
    assert!(told.contains("Constraint 0 uses fact 0: no, by evidence 4."), "{told}");
}

#[test]
fn who_is_not_on_the_roster_has_no_paragraph() {
    let case = hex("017f0101010700000000000000001000");
    let found = words::explain_person(&hex(FIXED_PAIR), &case, &Names::default(), 9);
    assert_eq!(found, Err(NearError::OffRoster { person: 9 }));
}

/// Two cuts of one person: the first precedes the second, and an edge blocks it. The second is not blocked: it says that it overrides the edge.
#[test]
fn a_cut_that_gives_way_is_not_blocked() {
    let plan = "010101 030101 042f00010001 0537 0100000000000000 0002 010001 0101 0517 0100000000000000 0003 010002";
    let told = said(plan, "017f010101 0300000000000000 00 0010", 0);
    let wanted = "Person 0 is counted together with person 1, under citation 1.
Cut 0 of person 0 (citation 2) does not act: it is blocked by edge 0 between person 0 and person 1 (citation 1).
Cut 1 of person 0 (citation 3) does not act: it gives way to cut 0 of person 0 (citation 2).";
    assert_eq!(told, wanted);
}

/// A Combination edge joins the two whom the chain leaves apart: that does not make it a clique.
#[test]
fn a_chain_is_one_of_base_edges() {
    let plan = "010101 030101 040f00010001 040f01020001 042f00020002";
    let told = said(plan, "017f010101 0700000000000000 00 0010", 0);
    assert!(
        told.contains("a chain of Base edges in which not every two are joined by one"),
        "{told}"
    );
}

/// Person 0 is attached to 1, with whom an edge joins it anyway, and 1 then to 2: only the second attachment parts the two.
#[test]
fn attachments_part_only_whom_they_part() {
    let plan = "010101 030101 040f00010001 061f 0100000000000000 01 00 02 05 061f 0200000000000000 02 00 03 05";
    let told = said(plan, "017f010101 0700000000000000 00 0010", 0);
    let wanted = "Person 0 is counted alone.
Person 0 is attached by attachment 0 of person 0 to person 1 (citation 2).
Edge 0 between person 0 and person 1 (citation 1) holds, but attachment 1 of person 1 to person 2 (citation 3) moves person 1 away.
Attachment 0 of person 0 to person 1 (citation 2) acts, but a later attachment parts them.";
    assert_eq!(told, wanted);
}

/// A cut of two, one of whom is attached to a third.
#[test]
fn a_cut_does_not_say_why_its_others_are_gone() {
    let plan = "010101 030101 0507 0300000000000000 0001 061f 0200000000000000 02 00 02 05";
    let told = said(plan, "017f010101 0700000000000000 00 0010", 0);
    let wanted = "Cut 0 of person 0 and person 1 (citation 1) has others, too, but attachment 0 of person 1 to person 2 (citation 2) moves person 1 away.";
    assert!(told.ends_with(wanted), "{told}");
}

/// Constraints that nothing told contradicts, and that cannot hold all the same.
#[test]
fn constraints_that_never_hold() {
    let wanted = "Nothing is decided of person 0: as things are told, the constraints of the case cannot all hold.";
    let heading = "017f010101 0100000000000000 00 0010";
    let told = said("010101 0200 030200 031000 0304020001", &format!("{heading} 050102"), 0);
    assert!(
        told.starts_with(wanted) && told.contains("Constraint 0 uses fact 0 (not told)."),
        "{told}"
    );
    let told = said("010101 030100", &format!("{heading} 050100"), 0);
    assert!(told.starts_with(wanted), "{told}");
}

/// Each node asks the one below it twice: a hundred of these are told at once.
#[test]
fn conditions_that_ask_the_one_below_twice() {
    let mut plan = hex("010101 0200 030101 030200");
    (1..101).for_each(|below| plan.extend([3, 4, 2, below, below]));
    plan.extend(hex("041f00010001 0165"));
    let case = hex("017f010101 0300000000000000 00 0010 030500010109");
    let told = words::explain_person(&plan, &case, &Names::default(), 0).expect("a paragraph");
    let wanted = "Edge 0 between person 0 and person 1 (citation 1) does not hold: it is defeated; fact 0: yes, by evidence 9.";
    assert_eq!(told.sentences.last().map(String::as_str), Some(wanted));
}

/// The chain of 0, 1 and 2 is longer by 3, by 4 or by both, as facts turn out: it is told once.
#[test]
fn a_chain_that_can_be_longer_is_told_once() {
    let plan =
        "010101 0200 0200 030101 030200 030201 040f00010001 040f01020001 040f00030101 040f00040201";
    let told = said(plan, "017f010101 1f00000000000000 00 0010", 0);
    assert_eq!(told.matches("hang together").count(), 1, "{told}");
    assert!(told.contains("\nPerson 0, person 1 and person 2 hang together by"), "{told}");
}

/// Whether a chain or an overlap is there can hang on an answer: then it is not said outright.
#[test]
fn marks_by_some_of_the_open_answers() {
    let plan = "0101010200030101030200040f00010001040f01020101";
    let told = said(plan, "017f0101010700000000000000001000", 0);
    let wanted = "Person 0 is left to discretion, by some of the open answers.
By some of the open answers, person 0, person 1 and person 2 hang together by a chain of Base edges";
    assert!(told.starts_with(wanted), "{told}");
    let plan = "010101 0200 030101 030200 0507 0300000000000000 0002 0507 0600000000000000 0102";
    let told = said(plan, "017f010101 0700000000000000 00 0010", 0);
    assert!(told.contains("\nBy some of the open answers, cut 0 of "), "{told}");
}

#[test]
fn a_member_is_said_to_be_one_where_roles_differ() {
    let plan = "010101 0200 030101 030200 040f00010001 0807000102";
    let told = said(plan, "017f010101 0300000000000000 00 0010", 0);
    assert!(told.contains("Possible: a member, with person 1; excluded, with person 1."), "{told}");
}
