//! Tables of amounts: every way to write one, and every fault.

use lukhveri::Persons;
use lukhveri::amounts::read_table;
use lukhveri::names::Names;

const NAMES: &str = "person 0 Nana\nperson 2 Nana\nperson 4 Zura\nperson 5 Eka, the first\nperson 7 007\nperson 9 Otar";

fn names() -> Names {
    Names::read(NAMES).expect("names")
}

fn read(text: &str, roster: &[u8]) -> Result<Vec<u32>, Vec<String>> {
    let roster = Persons::of(roster).expect("persons");
    let table = read_table(text, roster, &names());
    table.map_err(|faults| faults.iter().map(|fault| fault.to_string()).collect())
}

/// What is said of persons without a row where rows could not be made out.
fn left(persons: &str) -> String {
    format!(
        "no row that could be read is for {persons}; the rows above may be theirs: mend these first, then add what is still missing"
    )
}

/// All that is said of a table for persons 0, 4 and 5.
fn faults(text: &str) -> Vec<String> {
    read(text, &[0, 4, 5]).expect_err("a fault")
}

#[test]
fn one_list_in_many_ways() {
    for text in [
        "person,cents\r\n0,1\r\n4,2\r\n5,3\r\n",
        "person,cents\n0,1\n4,2\n5,3",
        "person,cents\r\n5,3\n4,2\r\n0,1",
        "\u{feff}person,cents\n0,1\n4,2\n5,3\n",
        "\"person\",\"cents\"\r\n\"0\",\"1\"\r\n\"4\",2\r\n5,\"3\"\r\n",
        "person,cents\nZura,2\n\"Eka, the first\",3\n0,1\n",
        " person , cents \n 0 , 1 \n\tZura ,2\n5,3\n\n\r\n  \n",
        "person,cents\n00,0001\n04,2\n05,3\r",
        "person,cents\r\n0,1\r\n4,2\r\n,\r\n5,3\r\n,\r\n,,\r\n",
        "Person,Cents\n0,1\n4,2\n5,3\n",
        "\u{feff}PERSON, cENTS \r\n0,1\r\n4,2\r\n5,3\r\n",
        "person,cents,\n0,1,\n4,2,\n5,3,\n",
        "person,cents\n0,1,,\n4,2\n5,3, ,\"\"\n",
        "person,cents,, ,\n0,1\n4,2,\n5,3,,,,,,\n,,,,\n",
    ] {
        assert_eq!(read(text, &[0, 4, 5]), Ok(vec![1, 2, 3]), "{text:?}");
    }
    assert_eq!(read("person,cents\n7,4294967295\n4,0", &[4, 7]), Ok(vec![0, u32::MAX]));
    assert_eq!(read("person,cents\n", &[]), Ok(vec![]));
}

#[test]
fn the_header() {
    let wanted =
        "; write person,cents there, and below it a row for each person, with no other column";
    for header in
        ["0,1", "person", "cents", "person,amount", "persons,cents,", "name,sum,note", ",", ""]
    {
        let said = faults(&format!("{header}\n4,2\n5,x\n"));
        assert_eq!(said, [format!("row 1: the first row is '{header}'{wanted}")]);
    }
    let commas = "; write person,cents there, and part all rows by commas";
    for (header, marks) in [
        ("person;cents", "semicolons"),
        ("\"person\";\"cents\"", "semicolons"),
        ("person\tcents", "tabs"),
    ] {
        let said = faults(&format!("\u{feff}{header}\r\n4;2\r\n"));
        assert_eq!(
            said,
            [format!("row 1: the first row is '{header}', parted by {marks}{commas}")]
        );
    }
    let empty = "row 1: the file is empty; write person,cents, and below it a row for each person";
    assert_eq!(faults(""), [empty]);
    assert_eq!(faults("\u{feff}"), [empty]);
    assert!(
        faults("\"person,cents\n").concat().starts_with("row 1: a quotation mark is not closed")
    );
    let long = format!("row 1: the first row is '{}...'{wanted}", "é".repeat(40));
    assert_eq!(faults(&"é".repeat(100)), [long]);
}

/// Columns that are not wanted are told once, and rows are read without them, so that what is wrong besides is told, too.
#[test]
fn columns_that_are_not_wanted() {
    let out = "is one too many; take it out, with all that stands below it";
    let note = format!("row 1: column 3 ('note') {out}");
    let rows = "\n0,1,paid\n4,2,\n5,3\n,,all of them\n";
    for header in ["person,cents,note", "Person,Cents, note ,,"] {
        assert_eq!(faults(&format!("{header}{rows}")), [note.as_str()]);
    }
    let cents = "row 3: there are no cents; write the amount, 0 for none";
    let missing = "there is no row for person 5 (Eka, the first); add one with the amount";
    assert_eq!(faults("person,cents,note\n0,1,paid\n4,,\n"), [&note, cents, missing]);
    let [first, second] = [1, 2].map(|at| format!("row 1: column {at} ('note') {out}"));
    assert_eq!(faults("note,person,cents\na,0,1\nb,4,2\nc,5,3\n"), [first]);
    assert_eq!(faults("person,note,cents,\n0,a,1,\n4,,2,\n5,c,3\n"), [second]);
    let empty = format!("row 1: column 2 (without a name) {out}");
    let twice = format!("row 1: column 4 ('person') {out}");
    let said = faults("person,,cents,person\n0,,1,0\n4,,2,4\n5,,3,5\n");
    assert_eq!(said, [empty, twice]);
    let more = "row 3: it has 3 fields besides the column to take out; write two, person and cents: no comma within cents, and a name with a comma in quotation marks";
    let said = faults("person,cents,note\n0,1,paid\n4,2,50,paid\n5,3,\n");
    assert_eq!(said, [note.as_str(), more]);
    let long = format!("row 1: column 3 ('{}...') {out}", "x".repeat(40));
    assert_eq!(faults(&format!("person,cents,{}{rows}", "x".repeat(50))), [long]);
}

/// A row is read in one go, however many fields it has.
#[test]
fn very_many_columns() {
    let wide = "x,".repeat(1 << 18);
    let said = faults(&format!("person,cents,{wide}\n0,1,{wide}\n4,2\n5,3\n"));
    assert_eq!(said.len(), 1 << 18);
}

/// Who mends the first row alone would have a fault in every other.
#[test]
fn cents_before_person() {
    let turned = "row 1: cents stand before person; write person,cents, and so in every row below";
    assert_eq!(faults("cents,person\n1,0\n2,Zura\n3,5,\n"), [turned]);
    let nobody = "row 3: it names nobody; write a person's number or name".to_string();
    let wanted = [turned.to_string(), nobody, left("person 4 (Zura)")];
    assert_eq!(faults("cents,person\n1,0\n2\n3,5\n"), wanted);
}

#[test]
fn persons_that_are_none_of_the_roster() {
    let with = |person: &str| faults(&format!("person,cents\n0,1\n4,2\n5,3\n{person},4\n"));
    assert_eq!(with("64"), ["row 5: there is no person 64, only 0 to 63; correct the number"]);
    assert_eq!(with("300"), ["row 5: there is no person 300, only 0 to 63; correct the number"]);
    let off =
        "row 5: person 9 (Otar) is not on the roster; take the row away, or correct the person";
    assert_eq!(with("9"), [off]);
    assert_eq!(with("Otar"), [off]);
    let unknown = "is no person's number, and no name of names.txt; write the number, or the name as it stands there";
    assert_eq!(with("Otto"), [format!("row 5: 'Otto' {unknown}")]);
    assert_eq!(with("zura"), [format!("row 5: 'zura' {unknown}")]);
    assert_eq!(with("-1"), [format!("row 5: '-1' {unknown}")]);
    assert_eq!(with("+4"), [format!("row 5: '+4' {unknown}")]);
    assert_eq!(with(""), ["row 5: it names nobody; write a person's number or name"]);
    assert_eq!(with("Nana"), ["row 5: person 0 and person 2 are called 'Nana'; write the number"]);
    // A name of digits alone is taken for the number, unless that is another person's.
    assert_eq!(
        with("007"),
        ["row 5: person 7 (007) is not on the roster; take the row away, or correct the person"]
    );
}

/// A fault of names.txt is not laid on the table.
#[test]
fn names_that_are_not_used() {
    let roster = Persons::of(&[0, 1]).expect("persons");
    let (text, unused) = ("person,cents\n0,5\nAnna,6\n", Names::unused());
    assert!(unused.are_unused() && !Names::default().are_unused());
    let said = read_table(text, roster, &unused).expect_err("a fault")[0].to_string();
    assert_eq!(
        said,
        "row 3: 'Anna' is no person's number, and names.txt is not used because of its fault; mend names.txt, or write the number"
    );
    assert_eq!(read_table("person,cents\n0,5\n1,6\n", roster, &unused), Ok(vec![5, 6]));
}

/// Whose money it is must not hang on whether digits are read as a number or as a name.
#[test]
fn names_of_digits() {
    let roster = Persons::of(&[0, 1]).expect("persons");
    let names = Names::read("person 0 1\nperson 1 1204\n").expect("names");
    let first = |text: &str| read_table(text, roster, &names).expect_err("a fault")[0].to_string();
    let fault = |row: usize, word: &str, person: u8| {
        format!(
            "row {row}: digits alone are a person's number, but '{word}' is also the name of person {person}; \
             give person {person} a name in names.txt that is not digits alone"
        )
    };
    assert_eq!(first("person,cents\n0,5\n1,6\n"), fault(3, "1", 0));
    assert_eq!(first("person,cents\n0,5\n1204,6\n"), fault(3, "1204", 1));
}

#[test]
fn persons_twice_and_persons_missing() {
    let twice = faults("person,cents\n0,1\n4,2\n\n5,3\nZura,2\n04,9\n");
    let said = |row: usize| {
        format!("row {row}: person 4 (Zura) stands in row 3 already; keep one of the two")
    };
    assert_eq!(twice, [said(6), said(7)]);
    let missing = faults("person,cents\n4,2\n");
    assert_eq!(
        missing,
        [
            "there is no row for person 0 (Nana) and person 5 (Eka, the first); add one with the amount for each"
        ]
    );
    let missing = faults("person,cents\n4,2\n0,1");
    assert_eq!(missing, ["there is no row for person 5 (Eka, the first); add one with the amount"]);
}

#[test]
fn cents_that_are_none() {
    let with = |cents: &str| faults(&format!("person,cents\n0,1\n4,{cents}\n5,3\n"));
    for cents in ["1.5", "-1", "+1", "1e3", "x", "1 000", "1'000", "0x10", "١", "12€"] {
        let wanted = format!(
            "row 3: '{cents}' is no whole number of cents; write digits alone, from 0 to 4294967295: 1250 for 12.50"
        );
        assert_eq!(with(cents), [wanted]);
    }
    assert_eq!(with(""), ["row 3: there are no cents; write the amount, 0 for none"]);
    assert_eq!(with("\"\""), ["row 3: there are no cents; write the amount, 0 for none"]);
    let large = "is too large; correct the amount, at most 4294967295";
    assert_eq!(with("4294967296"), [format!("row 3: 4294967296 {large}")]);
    assert_eq!(with(&"9".repeat(60)), [format!("row 3: {}... {large}", "9".repeat(40))]);
}

#[test]
fn rows_of_other_than_two_fields() {
    let with = |row: &str| faults(&format!("person,cents\n0,1\n{row}\n5,3\n"));
    let one = "row 3: it has 1 field; write two, person and cents, with a comma between them";
    assert_eq!(with("4"), [one]);
    let three = "row 3: it has 3 fields; write two, person and cents: no comma within cents, and a name with a comma in quotation marks";
    assert_eq!(with("4,10,50"), [three]);
    assert_eq!(with("4;2"), [one.to_string(), left("person 4 (Zura)")]);
    assert_eq!(
        faults("person,cents\n0,1\n4,2\nEka, the first,3\n")[0],
        three.replace("row 3", "row 4")
    );
}

#[test]
fn quotation_marks_that_are_wrong() {
    let unclosed = "a quotation mark is not closed; close it, or take it away";
    let stray = "a quotation mark stands within a field; put the whole field in quotation marks, and write two for each within it";
    // What stands behind cannot be told apart, so there may be rows.
    let both = left("person 4 (Zura) and person 5 (Eka, the first)");
    assert_eq!(
        faults("person,cents\n0,1\n\"4,2\n5,3\n"),
        [format!("row 3: {unclosed}"), both.clone()]
    );
    assert_eq!(
        faults("person,cents\n0,1\nZu\"ra,2\n5,x\n"),
        [format!("row 3: {stray}"), both.clone()]
    );
    assert_eq!(faults("person,cents\n0,y\n\"4\"5,2\n"), [
        "row 2: 'y' is no whole number of cents; write digits alone, from 0 to 4294967295: 1250 for 12.50".to_string(),
        format!("row 3: {stray}"),
        both,
    ]);
    let last = faults("person,cents\n0,1\n4,2\n5,3\n\"");
    assert_eq!(last, [format!("row 5: {unclosed}")]);
}

/// Nobody is told to add a row that is there already, with a person who could not be made out.
#[test]
fn persons_who_may_have_a_row() {
    for person in ["Zurab", "64", "Nana", "", "Zura;2"] {
        let said = faults(&format!("person,cents\n0,1\n{person},2\n5,3\n"));
        assert!(said[0].starts_with("row 3: ") && said.len() == 2, "{said:?}");
        assert_eq!(said[1], left("person 4 (Zura)"));
    }
    let names = Names::read("person 0 1\n").expect("names");
    let roster = Persons::of(&[0, 1]).expect("persons");
    let said = read_table("person,cents\n0,5\n1,6\n", roster, &names).expect_err("a fault");
    assert_eq!(said[1].to_string(), left("person 1"));
    assert_eq!((said.len(), said[1].row), (2, None));
    let both = faults("person,cents\nNana,1\n4,2\nEka,3\n");
    assert_eq!(both[2], left("person 0 (Nana) and person 5 (Eka, the first)"));
    assert_eq!(both.len(), 3);
    // Here it is clear whose every row is.
    let known = faults("person,cents\n0,1\n4,x\n9,3\n");
    assert_eq!(known[2], "there is no row for person 5 (Eka, the first); add one with the amount");
}

/// Everything that is wrong is told at once, in the order of rows.
#[test]
fn all_faults_of_a_table() {
    let said = faults("person,cents\n64,x\n4,2\n4,2\n9,9\n");
    let rows: Vec<&str> = said.iter().map(|fault| fault.split(':').next().unwrap_or("")).collect();
    assert_eq!(rows[..4], ["row 2", "row 2", "row 4", "row 5"]);
    assert_eq!(said[4], left("person 0 (Nana) and person 5 (Eka, the first)"));
    assert_eq!(said.len(), 5);
}
