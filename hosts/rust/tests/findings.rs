//! What a refusal says beyond its number, with names.

use lukhveri::amounts::{Amounts, AmountsError};
use lukhveri::names::Names;
use lukhveri::{Reason, answer, answer_into, check, pool, show_into};

const NAMES: &str = "person 0 Ana\nperson 1 Beka\nperson 2 Gio\nfact 0 shares a kitchen\nfact 1 one flat\nedge 0 the kitchen\n\
    cut 0 the wish\nbar 0 visitors\nfamily 4 flats\n";

fn bytes(hex: &str) -> Vec<u8> {
    let digits: Vec<u32> = hex.chars().filter_map(|digit| digit.to_digit(16)).collect();
    digits.chunks(2).map(|pair| (pair[0] * 16 + pair[1]) as u8).collect()
}

fn names() -> Names {
    Names::read(NAMES).expect("names")
}

/// The number, and what is found.
fn finding(plan: &str, case: &str) -> (u8, String) {
    let (plan, case) = (bytes(plan), bytes(case));
    let refusal = answer(&plan, &case).expect_err("refused");
    (refusal.number(), refusal.finding(&plan, &case, &names()).unwrap_or_default())
}

const HEADING: &str = "017f00010107000000000000000000 10";

#[test]
fn limits_say_which() {
    let many = |start: &str, record: &str, count: usize| format!("{start}{}", record.repeat(count));
    let of_plan = |record: &str, count: usize| finding(&many("010100", record, count), "");
    let said = |count: usize, what: &str| {
        (2, format!("there are {count} {what} before it, and there may be {count}"))
    };
    assert_eq!(finding("010100 010100", ""), (2, "the file has its heading already".into()));
    assert_eq!(of_plan("0200", 65), said(64, "facts"));
    assert_eq!(of_plan("030101", 257), said(256, "nodes"));
    assert_eq!(of_plan("040f00010000", 65), said(64, "edges"));
    assert_eq!(of_plan("050701000000000000000000", 17), said(16, "cuts"));
    assert_eq!(of_plan("061f010000000000000000000001", 33), said(32, "attachments"));
    assert_eq!(of_plan("070701000000000000000000", 33), said(32, "bars"));
    assert_eq!(of_plan("0807000000", 33), said(32, "statuses"));
    let entries: String = (0..9).map(|edge| format!("{edge:02x}03")).collect();
    let cut = format!("0517 0000000000000000 0000 09 {entries}");
    let open = "with this cut there are 18 unresolved decisions, and there may be 16";
    assert_eq!(of_plan(&cut, 2), (2, open.into()));
    let of_case = |record: &str, count: usize| finding("010100", &many(HEADING, record, count));
    assert_eq!(of_case("020100", 17), said(16, "families"));
    assert_eq!(of_case("030100", 65), said(64, "booleans"));
    assert_eq!(of_case("0407000100", 257), said(256, "relations"));
    assert_eq!(of_case("050100", 17), said(16, "constraints"));
}

#[test]
fn facts_out_of_order() {
    let (number, said) = finding("010100 0203 04 02 00 01 0203 04 01 00", "");
    let wanted = "fact 1 is of family 4 (flats) and person 0 (Ana) and stands behind fact 0, which is of family 4 (flats) and person 0 (Ana) and person 1 (Beka)";
    assert_eq!((number, said.as_str()), (5, wanted));
    let (_, said) = finding("010100 0203 05 00 0203 05 00", "");
    assert_eq!(said, "fact 0 and fact 1 are both of family 5 and nobody");
    let (_, said) = finding("010100 0203 05 00 0200", "");
    assert_eq!(said, "fact 1 is boolean and stands behind fact 0, which is of family 5 and nobody");
}

#[test]
fn things_go_by_number_and_name() {
    let plan = "010100 0200 0203 04 02 00 01 030200";
    let of_case = |records: &str| finding(plan, &format!("{HEADING} {records}"));
    assert_eq!(of_case("0301 05"), (4, "there is no fact 5".into()));
    let wrong = "fact 1 (one flat) is a relation, not a boolean fact";
    assert_eq!(of_case("0301 01"), (4, wrong.into()));
    let wrong = "fact 0 (shares a kitchen) is a boolean fact, not a relation";
    assert_eq!(of_case("0407 00 0100"), (4, wrong.into()));
    let lacks = "fact 1 (one flat) is of family 4 (flats), which has no record in the case";
    assert_eq!(of_case("0407 01 0100"), (4, lacks.into()));
    assert_eq!(of_case("0501 03"), (4, "it names node 3, and the last one is node 0".into()));
    assert_eq!(of_case("0201 04 0201 04"), (5, "family 4 (flats) has a record already".into()));
    let twice = "fact 0 (shares a kitchen) has a record already";
    assert_eq!(of_case("0301 00 0301 00"), (5, twice.into()));
    let both = "it is about fact 0 (shares a kitchen)";
    assert_eq!(of_case("0307 00 01 01 0101"), (10, both.into()));
    let off =
        finding("010100 030101 0707 0600000000000000 00 00", "017f000101 0100000000000000 00 0010");
    let wanted = "rules name somebody who is not on the roster: person 1 (Beka) and person 2 (Gio); the first such rule is bar 0 (visitors)";
    assert_eq!(off, (9, wanted.into()));
    let twice = finding("010100 030101 042f00010000 0517 0100000000000000 0000 02 0001 0001", "");
    assert_eq!(twice, (5, "edge 0 (the kitchen) is decided twice".into()));
}

#[test]
fn elections_that_differ() {
    let plan = "010100 0200 030200 050f 0100000000000000 0000 00010000";
    let (cut, rule) =
        ("050f 0100000000000000 0000 00010001", "063f 0100000000000000 01000001 00020000");
    let said = "cut 0 (the wish) has another election on fact 0 (shares a kitchen)";
    assert_eq!(finding(&format!("{plan} {cut}"), ""), (7, said.into()));
    assert_eq!(finding(&format!("{plan} {rule}"), ""), (7, said.into()));
    let plan =
        "010100 0200 030200 061f 0100000000000000 01000001 063f 0100000000000000 01000001 00010000";
    let said = "attachment 1 has another election on fact 0 (shares a kitchen)";
    assert_eq!(finding(&format!("{plan} {rule}"), ""), (7, said.into()));
}

#[test]
fn a_refusal_in_one_sentence() {
    let plan = bytes("010100 030101 042f00010000 0507 0100000000000000 0000");
    let refusal = check(&plan).expect_err("undecided");
    assert_eq!(
        refusal.in_words(&plan, &[], &names()),
        "refused 6: plan, record 3 (at byte 12), cut 0 (the wish): a Combination edge crosses the cut, and the cut does not decide it: \
         edge 0 (the kitchen) between person 0 (Ana) and person 1 (Beka) crosses cut 0 (the wish)"
    );
    let (plan, case) = (bytes("010100 0200 030200"), bytes(&format!("{HEADING} 0301 05")));
    let refusal = answer(&plan, &case).expect_err("no fact");
    assert_eq!(
        refusal.in_words(&plan, &case, &names()),
        "refused 4: case, record 1 (at byte 16), a boolean of fact 5: there is no fact 5"
    );
    let refusal = check(&[]).expect_err("empty");
    assert_eq!(
        refusal.in_words(&[], &[], &names()),
        "refused 3: plan, record 0 (where the file ends, at byte 0): the first record must be a heading with all its required fields"
    );
    assert_eq!(refusal.remedy(), "write the file anew: it is empty");
    let case = bytes("017f000101 0100000000000000 00 0000");
    let refusal = answer(&plan, &case).expect_err("no worlds");
    let said = refusal.in_words(&plan, &case, &names());
    assert_eq!(said, "refused 11: more worlds than the heading allows: 1, allowed 0");
}

/// Two open facts: four worlds, of which world 1 has one event and all have two.
#[test]
fn buffers_say_how_many_bytes_would_do() {
    let plan = bytes("010100 0200 0200 030200 030201 0807 00 00 00 0807 01 01 00");
    let case = bytes("017f000101 0700000000000000 00 0010");
    let says = |lines: usize, events: usize, world: Option<u64>| {
        let (mut lines, mut events) = (vec![0; lines], vec![0; events]);
        let refused = match world {
            None => answer_into(&plan, &case, &mut lines, &mut events).map(drop),
            Some(world) => show_into(&plan, &case, world, &mut lines, &mut events).map(drop),
        };
        let refusal = refused.expect_err("refused");
        refusal.finding(&plan, &case, &Names::default()).expect("a finding")
    };
    assert_eq!(says(86, 99, None), "there are 3 persons on the roster: 87 bytes would do");
    assert_eq!(says(87, 23, None), "there are 2 events: 24 bytes would do");
    assert_eq!(says(87, 0, Some(1)), "there is 1 event: 12 bytes would do");
    assert_eq!(says(87, 99, Some(4)), "the last world is world 3");
    let mut exact = (vec![0; 87], vec![0; 24]);
    assert!(answer_into(&plan, &case, &mut exact.0, &mut exact.1).is_ok());
    assert!(show_into(&plan, &case, 1, &mut exact.0, &mut [0; 12]).is_ok());
}

/// The list and the roster, with as many as each has.
#[test]
fn amounts_say_how_many_there_are() {
    let (plan, case) = (bytes("010100"), bytes("017f000101 0700000000000000 00 0010"));
    let says = |refusal: lukhveri::Refusal| {
        assert_eq!((refusal.number(), refusal.record()), (15, 0));
        let said = refusal.in_words(&plan, &case, &names());
        assert_eq!(
            refusal.finding(&plan, &case, &names()).as_deref(),
            said.strip_prefix("refused 15: ")
        );
        said
    };
    let of_list = |count: usize| says(pool(&plan, &case, &vec![1; count]).expect_err("15"));
    assert_eq!(of_list(0), "refused 15: the list has 0 amounts, the roster 3 persons");
    assert_eq!(of_list(1), "refused 15: the list has 1 amount, the roster 3 persons");
    assert_eq!(of_list(4), "refused 15: the list has 4 amounts, the roster 3 persons");
    assert_eq!(of_list(65), "refused 15: the list has more than 64 amounts, the roster 3 persons");
    let of_file = |length: usize| match Amounts::Bytes(vec![0; length]).list(&plan, &case, &names())
    {
        Err(AmountsError::Refused(refusal)) => says(refusal),
        other => panic!("{other:?}"),
    };
    let wanted =
        "the list has 13 bytes, no multiple of 4; the roster has 3 persons, which makes 12 bytes";
    assert_eq!(of_file(13), format!("refused 15: {wanted}"));
    assert!(of_file(1).starts_with("refused 15: the list has 1 byte, no multiple of 4; "));
    let refusal = pool(&plan, &case, &[]).expect_err("15");
    assert_eq!(refusal.to_string(), "refused 15: the list of amounts is not as long as the roster");
    assert!(refusal.remedy().starts_with("give one amount for each person of the roster, "));
}

/// What the remedies promise of lengths.
#[test]
fn lengths_that_always_suffice() {
    assert_eq!(lukhveri::LINES_LENGTH, 1_856);
    assert_eq!(lukhveri::MOST_EVENTS_LENGTH, 1_048_608);
}

/// Guide and program give one advice where the period is not complete.
#[test]
fn the_guide_says_the_same() {
    let path = concat!(env!("CARGO_MANIFEST_DIR"), "/../../docs/GUIDE.md");
    let guide = std::fs::read_to_string(path).expect("the guide");
    let row = guide.lines().find(|line| line.starts_with("| 8 |")).expect("a row");
    let (plan, case) = (bytes("010100"), bytes("0177000101 0100000000000000 00 0010"));
    let refusal = answer(&plan, &case).expect_err("not complete");
    assert_eq!(refusal.reason, Reason::SegmentIncomplete);
    assert!(row.contains(refusal.remedy()), "{row}");
    assert!(refusal.to_string().contains("something changes within"));
    assert!(row.contains("something changes within"), "{row}");
}
