//! Every input of docs/DIFFERENCES.md, with what the document says of it.
//!
//! Bytes are written in hex, with blanks where a reader wants them. `N×` in
//! front of a piece repeats it; in it `{k}` is the copy's number from 0 as a
//! byte, and `{m}` the mask of the person of that number plus one.

/// What is claimed of an entry's plan and case.
#[derive(Clone, Copy, Debug)]
pub enum Claim {
    /// Both answer; the lines differ in citations of bars and statuses alone.
    CitedByBlock,
    /// Both give this kind; the Rust names this reason where the port has zeros.
    KindAlone(u8, &'static str),
    /// Both answer alike, whatever one might expect.
    Alike,
    /// Document 01 accepts the plan; compile refuses it with these words.
    OnlyHere(&'static str),
    /// Document 01 refuses the plan (number, record); compile accepts it.
    OnlyRustPlan(u8, u64),
    /// Document 01 refuses the case (number, record); derive_units answers it.
    OnlyRustCase(u8, u64),
    /// Document 01 answers; the Rust would walk shared nodes without end.
    WouldNotEnd,
}

pub struct Entry {
    pub id: &'static str,
    pub what: &'static str,
    pub plan: &'static str,
    /// Empty for the plain case.
    pub case: &'static str,
    pub claim: Claim,
}

/// A complete roster of persons 0 to 7 with nothing said about facts.
pub const PLAIN_CASE: &str = "017f000101 ff00000000000000 00 0010";

const fn entry(
    id: &'static str,
    what: &'static str,
    plan: &'static str,
    case: &'static str,
    claim: Claim,
) -> Entry {
    Entry { id, what, plan, case, claim }
}

const fn here(
    id: &'static str,
    what: &'static str,
    plan: &'static str,
    words: &'static str,
) -> Entry {
    entry(id, what, plan, "", Claim::OnlyHere(words))
}

const fn rust_plan(
    id: &'static str,
    what: &'static str,
    plan: &'static str,
    number: u8,
    record: u64,
) -> Entry {
    entry(id, what, plan, "", Claim::OnlyRustPlan(number, record))
}

const fn rust_case(
    id: &'static str,
    what: &'static str,
    plan: &'static str,
    case: &'static str,
    number: u8,
    record: u64,
) -> Entry {
    entry(id, what, plan, case, Claim::OnlyRustCase(number, record))
}

pub const ENTRIES: &[Entry] = &[
    entry(
        "A1",
        "a status, on the lines of the block's other members",
        "010100 030101 040f00010000 0807000001",
        "017f000101 0300000000000000 00 0100",
        Claim::CitedByBlock,
    ),
    entry(
        "A2",
        "a bar, on the lines of the block's other members",
        "010100 030101 040f00010000 0707 0100000000000000 0001",
        "017f000101 0300000000000000 00 0100",
        Claim::CitedByBlock,
    ),
    entry(
        "A3",
        "kind 5, roster not complete: `roster_not_asserted_complete`",
        "010100",
        "015f000101 0100000000000000 0010",
        Claim::KindAlone(5, "roster_not_asserted_complete"),
    ),
    entry(
        "A4",
        "kind 6, no admissible world: every bound fact, Known ones too",
        "010100 0200 030200",
        "017f000101 0100000000000000 00 0010 0305000100 00 050100",
        Claim::KindAlone(6, "bool:f000"),
    ),
    here("B1", "a self-edge", "010100 030101 040f00000000", "is a self-edge"),
    here(
        "B2",
        "a cut with no members",
        "010100 030101 0507 0000000000000000 0000",
        "has no members",
    ),
    here(
        "B3",
        "a bar with no members",
        "010100 030101 0707 0000000000000000 0000",
        "has no members",
    ),
    here(
        "B4",
        "an attachment with no members",
        "010100 030101 061f 0000000000000000 00000001",
        "non-empty source disjoint from its target anchor",
    ),
    here(
        "B5",
        "an anchor among its members",
        "010100 030101 061f 0100000000000000 00000001",
        "non-empty source disjoint from its target anchor",
    ),
    here(
        "B6",
        "attachments that share members",
        "010100 030101 2×061f010000000000000001000001",
        "can disagree without declared ordering",
    ),
    here(
        "B7",
        "an attachment that moves another's anchor",
        "010100 030101 061f 0100000000000000 01000001 061f 0200000000000000 02000001",
        "can disagree without declared ordering",
    ),
    here(
        "B8",
        "an attachment whose actor is not its election's",
        "010100 0200 030200 063f 0100000000000000 01000001 00020000",
        "disagrees with election actor",
    ),
    here(
        "B9",
        "a cut's election on a fact that its condition does not use",
        "010100 0200 030101 050f 0100000000000000 0000 00010000",
        "is not consumed by its guard",
    ),
    here(
        "B10",
        "an attachment's election on a fact that its condition does not use",
        "010100 0200 030101 063f 0100000000000000 01000001 00010000",
        "is not consumed by its guard",
    ),
    here(
        "B11",
        "a decision on a Base edge",
        "010100 030101 040f00010000 0517 0100000000000000 0000 01 0001",
        "against non-combination edge",
    ),
    here(
        "B12",
        "a cut that precedes itself",
        "010100 030101 0527 0100000000000000 0000 01 00",
        "cyclic dependency: c000 -> c000",
    ),
    here(
        "B13",
        "cuts that precede each other",
        "010100 030101 0527 0100000000000000 0000 01 01 0527 0100000000000000 0000 01 00",
        "cyclic dependency: c000 -> c001 -> c000",
    ),
    here(
        "B14",
        "a precedence said twice",
        "010100 030101 0527 0100000000000000 0000 02 0101 0507 0100000000000000 0000",
        "duplicate cut precedence id",
    ),
    here(
        "B15",
        "cuts of one set, neither preceding the other, whose decisions disagree",
        "010100 030101 042f00010000 0517 0100000000000000 0000 01 0001 0517 0100000000000000 0000 01 0002",
        "contradict each other",
    ),
    entry(
        "B16",
        "a decision on a Combination edge that does not cross: both accept it",
        "010100 030101 042f00010000 0517 0300000000000000 0000 01 0003",
        "",
        Claim::Alike,
    ),
    rust_plan("C1", "one relation fact twice", "010100 02030000 02030000", 5, 2),
    rust_plan("C2", "a boolean fact after a relation fact", "010100 02030000 0200", 5, 2),
    rust_plan(
        "C3",
        "elections on one fact under policy 0 with unequal citations",
        "010100 0200 030200 050f 0100000000000000 0000 00010000 050f 0100000000000000 0000 00010001",
        7,
        4,
    ),
    rust_plan("C4", "65 facts", "010100 65×0200", 2, 65),
    rust_plan("C5", "257 nodes", "010100 257×030101", 2, 257),
    rust_plan("C6", "65 edges", "010100 030101 65×040f00010000", 2, 66),
    rust_plan("C7", "17 cuts", "010100 030101 17×050701000000000000000000", 2, 18),
    rust_plan("C8", "33 attachments", "010100 030101 33×061f{m}00000001", 2, 34),
    rust_plan("C9", "33 bars", "010100 030101 33×070701000000000000000000", 2, 34),
    rust_plan("C10", "33 statuses", "010100 030101 33×0807000000", 2, 34),
    rust_plan(
        "C11",
        "17 unresolved decisions",
        "010100 030101 17×042f00010000 0517 0100000000000000 0000 11 17×{k}03",
        2,
        19,
    ),
    rust_plan("C12", "a tuple of five", "010100 020300 05 5×00", 1, 1),
    rust_plan("C13", "And of seventeen", "010100 030101 0304 11 17×00", 1, 2),
    rust_plan("C14", "Or of seventeen", "010100 030101 0308 11 17×00", 1, 2),
    rust_plan("C15", "seventeen defeaters", "010100 030101 041f00010000 11 17×00", 1, 2),
    rust_plan("C16", "person 64", "010100 030101 0807400000", 1, 2),
    rust_plan("C17", "citation 64", "010100 030101 0807000040", 1, 2),
    rust_case("C18", "most worlds 4,097", "010100", "017f000101 0100000000000000 00 0110", 1, 0),
    rust_case("C19", "evidence 64", "010100", "017f000101 0100000000000000 40 0010", 1, 0),
    rust_case(
        "C20",
        "seventeen families",
        "010100",
        "017f000101 0100000000000000 00 0010 17×0201{k}",
        2,
        17,
    ),
    rust_case(
        "C21",
        "257 relation records",
        "010100 02030000 030200",
        "017f000101 0100000000000000 00 0010 020100 257×0407000100",
        2,
        258,
    ),
    rust_case(
        "C22",
        "seventeen constraints",
        "010100 030101",
        "017f000101 0100000000000000 00 0010 17×050100",
        2,
        17,
    ),
    rust_case(
        "C23",
        "seventeen observations of one fact",
        "010100 0200",
        "017f000101 0100000000000000 00 0010 030500 11 17×0100",
        1,
        1,
    ),
    entry(
        "F1",
        "a chain of forty nodes, each And of the one below twice",
        "010100 030101 40×030402{k}{k} 0807002800",
        "",
        Claim::WouldNotEnd,
    ),
];

/// The bytes of the notation.
pub fn expand(text: &str) -> Vec<u8> {
    let mut hex = String::new();
    for piece in text.split(' ').filter(|piece| !piece.is_empty()) {
        let (count, body) = match piece.split_once('×') {
            Some((count, body)) => (count.parse().expect("a count"), body),
            None => (1, piece),
        };
        for copy in 0..count {
            let mask: u64 = if body.contains("{m}") { 1 << (copy + 1) } else { 0 };
            let mask: String =
                mask.to_le_bytes().iter().map(|byte| format!("{byte:02x}")).collect();
            hex += &body.replace("{k}", &format!("{:02x}", copy % 256)).replace("{m}", &mask);
        }
    }
    inputs::vectors::from_hex(&hex).expect("hex")
}

impl Entry {
    pub fn plan_bytes(&self) -> Vec<u8> {
        expand(self.plan)
    }

    pub fn case_bytes(&self) -> Vec<u8> {
        expand(if self.case.is_empty() { PLAIN_CASE } else { self.case })
    }
}
