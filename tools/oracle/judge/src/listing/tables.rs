//! Lists of calls that import tables.

use inputs::random::Random;
use inputs::table_vectors::{TableCall, TableVector};
use inputs::{broken_tables, tables};

use super::{List, Source};
use crate::sides::model_imports;

/// The list for the repository's own tests.
pub fn fixed(seed: u64) -> List<TableVector> {
    let mut list = List::default();
    list.section("headers, and ends of rows");
    list.import_all(HEADERS.iter().map(|header| [header, "\r\nbase,0,1,2\r\n"].concat()));
    list.import_all(ENDS);
    list.section("one row under the header: words, fields, quotes");
    list.import_all(ROWS.iter().map(|row| table(&[row])));
    list.section("numbers, in each field that has one");
    add_numbers(&mut list);
    list.section("the first row that breaks");
    list.import_all(FIRSTS.iter().map(|rows| table(rows)));
    list.section("as many edges and statuses as there may be, and one more");
    add_limits(&mut list);
    list.section("buffers of no length, one short, exact, one over and long");
    add_rooms(&mut list);
    list.section("a whole table, cut short at every byte");
    list.import_all((0..=WHOLE.len()).map(|length| &WHOLE[..length]));
    list.section("a whole table, every second byte changed");
    add_changes(&mut list);
    list.section("random tables");
    add_random(&mut list, seed, 60, 240, |random| tables::good(random).bytes());
    list.section("broken random tables");
    add_random(&mut list, seed ^ 1, 60, 240, broken_tables::broken);
    list
}

/// The list of short ones.
pub fn sample(seed: u64) -> List<TableVector> {
    let mut list = List::default();
    list.section("short tables");
    list.import_all(ENDS);
    list.import_all(ROWS.iter().step_by(4).map(|row| table(&[row])));
    list.import_all(FIRSTS.iter().map(|rows| table(rows)));
    add_random(&mut list, seed ^ 2, 10, 80, |random| tables::good(random).bytes());
    let left = 64 - list.vectors.len();
    add_random(&mut list, seed ^ 3, left, 80, broken_tables::broken);
    list
}

const HEADER: &str = "kind,left,right,citation\r\n";

/// Every sort of field, plain and quoted.
const WHOLE: &[u8] =
    b"kind,\"left\",right,citation\r\nstatus,3,\"\",0\r\n\"base\",63,\"10\",7\r\ncombination,0,1,2";

/// Headers without their ends.
const HEADERS: [&str; 16] = [
    "kind,left,right,citation",
    "\"kind\",\"left\",\"right\",\"citation\"",
    "kind,left,right",
    "kind,left,right,citation,",
    "kind,left,right,citation,kind",
    "Kind,left,right,citation",
    "kind,left,right,citations",
    "kind,left,right,citatio",
    "kind,right,left,citation",
    " kind,left,right,citation",
    "kind, left,right,citation",
    "\u{feff}kind,left,right,citation",
    "kind;left;right;citation",
    "kind\tleft\tright\tcitation",
    "base,0,1,2",
    "",
];

const ENDS: [&str; 16] = [
    "",
    "\r\n",
    "kind,left,right,citation",
    "kind,left,right,citation\r\n",
    "kind,left,right,citation\r",
    "kind,left,right,citation\n",
    "kind,left,right,citation\r\n\r\n",
    "kind,left,right,citation\r\n\r",
    "kind,left,right,citation\r\n\n",
    "kind,left,right,citation\r\nbase,0,1,2",
    "kind,left,right,citation\r\nbase,0,1,2\r",
    "kind,left,right,citation\r\nbase,0,1,2\n",
    "kind,left,right,citation\r\nbase,0,1,2\r\n\r\n",
    "kind,left,right,citation\r\nbase,0,1,2\nstatus,3,,4\r\n",
    "kind,left,right,citation\r\nbase,0,1,2\rstatus,3,,4\r\n",
    "kind,left,right,citation\r\nbase,0,1,2\r\r\nstatus,3,,4\r\n",
];

const ROWS: [&str; 60] = [
    "base,0,1,2",
    "combination,0,1,2",
    "status,3,,4",
    "\"status\",\"3\",\"\",\"4\"",
    "\"base\",0,\"1\",2",
    "base,5,5,63",
    "Base,0,1,2",
    "BASE,0,1,2",
    " base,0,1,2",
    "base ,0,1,2",
    "bas,0,1,2",
    "bases,0,1,2",
    "comb,0,1,2",
    "combinations,0,1,2",
    "statu,3,,4",
    "edge,0,1,2",
    "kind,0,1,2",
    ",0,1,2",
    "",
    ",,,",
    "base",
    "base,0",
    "base,0,1",
    "base,0,1,2,",
    "base,0,1,2,3",
    ",base,0,1,2",
    "status,3,4",
    "status,3,,,4",
    "status,3,0,4",
    "status,3,3,4",
    "status,,3,4",
    "status,3, ,4",
    "status,3,\" \",4",
    "status,3,\"\"\"\",4",
    "base,0,,2",
    "base,0,\"\",2",
    "combination,,1,2",
    "base,0,1,",
    "base,\"0,1,2",
    "base,0\",1,2",
    "base,\"0\"0,1,2",
    "base,\"0\" ,1,2",
    "base, \"0\",1,2",
    "base,\"\"\"0\",1,2",
    "base,\"0\"\"\",1,2",
    "base,\"\"0\"\",1,2",
    "base,\"\",1,2",
    "base,\"0,1\",2",
    "\"base,0,1,2\"",
    "base,0,1,\"2",
    "base,0,1,\"",
    "base,0,1,2\"",
    "base,0,\"1\r\n\",2",
    "base,0,\"\r\n1\",2",
    "base,0,\"1\r\",2",
    "base,0,\"1\n\",2",
    "base,0,1\r,2",
    "base,0,1\n,2",
    "base;0;1;2",
    "base,0,1,2;",
];

const NUMBERS: [&str; 20] = [
    "0", "9", "10", "62", "63", "64", "65", "99", "100", "255", "256", "319", "1000", "00", "01",
    "063", "+1", "-1", " 1", "1 ",
];

const FIRSTS: [&[&str]; 9] = [
    &["status,9,,1", "base,5,5,63", "base,5,5,63"],
    &["base,64,1,2", "base,\"0,1,2"],
    &["base,0,1,2", "\"base,0,1,2", "base,x,1,2"],
    &["base,0,1,2", "base,0,1,2", "base,0,1"],
    &["base,0,\"1\r\n\",2", "base,x,1,2"],
    &["base,0,1,2", "", "base,x,1,2"],
    &["status,1,,2", "Base,0,1,2", "status,1,2,3"],
    &["base,0,1,2", "base,0,1,2,3", "base,0,1"],
    &["base,0,1,2", "kind,left,right,citation", "base,0,1,64"],
];

/// Rows under the header, each ended by CRLF.
fn table(rows: &[&str]) -> String {
    rows.iter().fold(HEADER.to_string(), |table, row| table + row + "\r\n")
}

impl List<TableVector> {
    fn import_in(&mut self, table: &[u8], room: usize) {
        let call = TableCall { table: table.to_vec(), room };
        let expected = model_imports(&call);
        self.put(TableVector { call, expected }, |_| Source::Model);
    }

    /// With a little room behind the plan.
    fn import(&mut self, table: &[u8]) {
        let length = plan_length(table);
        self.import_in(table, length + 3);
    }

    fn import_all(&mut self, tables: impl IntoIterator<Item = impl AsRef<[u8]>>) {
        tables.into_iter().for_each(|table| self.import(table.as_ref()));
    }
}

/// With room for any plan; 0 where the table is turned away.
fn plan_length(table: &[u8]) -> usize {
    let call = TableCall { table: table.to_vec(), room: 550 };
    model_imports(&call).plan.len()
}

fn add_numbers(list: &mut List<TableVector>) {
    let [ten, wrap, zeros] =
        ["1".to_string() + &"0".repeat(64), (1u128 << 64).to_string(), "0".repeat(300)];
    for number in NUMBERS.into_iter().chain([&ten[..], &wrap, &zeros]) {
        list.import_all([
            table(&[&format!("base,{number},1,2")]),
            table(&[&format!("combination,0,{number},2")]),
            table(&[&format!("status,0,,{number}")]),
        ]);
    }
}

/// In a buffer for the largest plan, and in none.
fn add_limits(list: &mut List<TableVector>) {
    let (edge, other, status) = ("base,0,1,2", "combination,63,62,61", "status,3,,4");
    let whole = [vec![status; 32], vec![edge; 33], vec![other; 31]].concat();
    for rows in [
        vec![edge; 64],
        vec![edge; 65],
        vec![status; 32],
        vec![status; 33],
        [vec![edge; 64], vec![other]].concat(),
        whole.clone(),
        [whole.clone(), vec![edge]].concat(),
        [whole.clone(), vec![status]].concat(),
        [whole.clone(), vec![""]].concat(),
    ] {
        list.import_in(table(&rows).as_bytes(), 550);
    }
    list.import_in(table(&[whole, vec![other]].concat()).as_bytes(), 0);
}

fn add_rooms(list: &mut List<TableVector>) {
    let broken = table(&["base,0,1,2", "base,0,1"]);
    let longer = table(&["status,3,,4", "base,0,1,2", "combination,0,1,2"]);
    let most = [vec!["base,0,1,2"; 64], vec!["status,3,,4"; 32]].concat();
    for (table, lengths) in [
        (HEADER, [0, 1, 5, 6, 7, 100]),
        (&longer, [0, 6, 22, 23, 24, 551]),
        (&broken, [0, 1, 5, 11, 12, 600]),
        (&table(&most), [0, 548, 549, 550, 551, 1000]),
    ] {
        lengths.into_iter().for_each(|room| list.import_in(table.as_bytes(), room));
    }
}

/// One after another, to each of some bytes in turn.
fn add_changes(list: &mut List<TableVector>) {
    let bytes = b"\",\r\n0 6\xff\0b";
    for (at, byte) in (0..WHOLE.len()).step_by(2).zip(bytes.iter().cycle()) {
        let mut table = WHOLE.to_vec();
        table[at] = *byte;
        list.import(&table);
    }
}

/// So many that are not too long.
fn add_random(
    list: &mut List<TableVector>,
    seed: u64,
    count: usize,
    longest: usize,
    make: impl Fn(&mut Random) -> Vec<u8>,
) {
    let last = list.vectors.len() + count;
    let mut number = 0;
    while list.vectors.len() < last {
        number += 1;
        let random = &mut Random::stream(seed ^ 10, number);
        let table = make(random);
        if table.len() <= longest {
            let length = plan_length(&table);
            let room = random.pick(&[length, length, length + 1, length + 9, length.max(1) - 1]);
            list.import_in(&table, room);
        }
    }
}
