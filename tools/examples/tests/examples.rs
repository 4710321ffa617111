//! The files of examples/ and docs/pictures/ are what the program makes; the model of document 01 agrees with the proved code on them.

use std::fs;
use std::path::Path;

use lukhveri::draft::with_returns;
use lukhveri::{EVENTS_LENGTH, Event, LINES_LENGTH, Line, Persons, Plan, Unit};

fn root() -> &'static Path {
    Path::new(concat!(env!("CARGO_MANIFEST_DIR"), "/../.."))
}

#[test]
fn files_are_what_the_program_makes() {
    for (path, bytes) in examples::files::files().expect("files") {
        let there = fs::read(root().join(&path)).unwrap_or_else(|error| panic!("{path}: {error}"));
        assert!(there == bytes, "{path} is not what tools/examples/run makes");
    }
}

#[test]
fn no_file_is_left_over() {
    let made: Vec<String> =
        examples::files::files().expect("files").into_iter().map(|(path, _)| path).collect();
    for folder in fs::read_dir(root().join("examples")).expect("examples/") {
        let folder = folder.expect("a folder").path();
        for file in fs::read_dir(&folder).expect("a folder") {
            let file = file.expect("a file").path();
            let path = file.strip_prefix(root()).expect("within").to_string_lossy().to_string();
            assert!(made.contains(&path), "{path} is made by no program");
        }
    }
}

#[test]
fn the_model_agrees() {
    for example in examples::all().expect("examples") {
        let (plan, case) = (example.plan.bytes(), example.case.bytes());
        let answer = lukhveri::answer(plan, case).expect("an answer");
        let mut lines = vec![7; LINES_LENGTH];
        let mut events = vec![7; EVENTS_LENGTH];
        let told = model::answer(plan, case, &mut lines, &mut events);
        let line_bytes: Vec<u8> = answer.lines.iter().flat_map(Line::bytes).collect();
        let event_bytes: Vec<u8> = answer.events.iter().flat_map(Event::bytes).collect();
        assert_eq!((told.refusal, told.worlds), (0, answer.worlds), "{}", example.folder);
        assert_eq!(lines[..line_bytes.len()], line_bytes, "{}", example.folder);
        assert_eq!(events[..event_bytes.len()], event_bytes, "{}", example.folder);
    }
}

/// What the story of the choir says of its pools.
#[test]
fn the_choir_is_billed() {
    let choir = examples::choir::example().expect("an example");
    let amounts: Vec<u32> = choir.amounts.iter().map(|(_, cents)| *cents).collect();
    let pools = lukhveri::pool(choir.plan.bytes(), choir.case.bytes(), &amounts).expect("pools");
    let unit = |persons: &[u8], cents, open| Unit {
        persons: Persons::of(persons).expect("persons"),
        cents,
        open,
    };
    let wanted = [unit(&[0, 1], 10, true), unit(&[2], 0, false), unit(&[3], 1000, false)];
    assert_eq!((pools.units.as_slice(), pools.unplaced), (&wanted[..], 101));
}

/// What the folder of the rowing club says of its tables.
#[test]
fn the_tables_of_the_rowing_club() {
    use examples::rowing::{TABLE, UNIX};
    let rowing = examples::rowing::example().expect("an example");
    let records = rowing.plan.records();
    assert_eq!((records.edges.len(), records.statuses.len()), (4, 2));
    let refusal = Plan::from_table(UNIX).expect_err("line ends of Unix");
    assert_eq!((refusal.number(), refusal.record()), (16, 0));
    let mended = Plan::from_table(&with_returns(UNIX)).expect("line ends of Windows");
    assert_eq!(mended.bytes(), rowing.plan.bytes());
    let plain = |table: &[u8]| String::from_utf8_lossy(table).replace(['"', '\r'], "");
    assert_eq!(plain(TABLE), plain(UNIX));
    assert!(TABLE.ends_with(b"\r\n") && !UNIX.contains(&b'\r'));
}

/// Maka, Dato and Tamar have a circle without Levan: what he answers does not show in their lines.
#[test]
fn strangers_answers_do_not_show() {
    let plan = examples::nursery::plan().expect("a plan");
    let line_of = |levan| {
        let case = examples::nursery::case(&plan, levan).expect("a case");
        lukhveri::answer(plan.bytes(), case.bytes()).expect("an answer").lines
    };
    let [open, no, yes] = [None, Some(false), Some(true)].map(line_of);
    assert_eq!(open[3..], no[3..]);
    assert_eq!(open[3..], yes[3..]);
    assert_ne!(no[..3], yes[..3]);
    assert_ne!(open[..3], yes[..3]);
}
