//! A rowing club that drafts its plan in a spreadsheet: a rule a row.

use lukhveri::{Case, CaseBuilder, Frame, Paper, Persons, Plan};

use crate::example::{Example, Fault, Sheet, Words};

const LIST: Paper = Paper(1);

/// The table that the plan is made of.
pub const TABLE: &[u8] = include_bytes!("../../../examples/rowing/rules.csv");

/// The same sheet, with line ends of Unix.
pub const UNIX: &[u8] = include_bytes!("../../../examples/rowing/libreoffice.csv");

fn case(plan: &Plan) -> Result<Case, Fault> {
    let frame = Frame { scope: 1, segment: 1 };
    let mut case = CaseBuilder::new(plan, frame, Persons::of(&[0, 1, 2, 3, 4, 5, 6])?)?;
    case.roster_complete(LIST)?;
    case.most_worlds(1)?;
    Ok(case.finish()?)
}

pub fn example() -> Result<Example, Fault> {
    let plan = Plan::from_table(TABLE)?;
    let case = case(&plan)?;
    Ok(Example {
        folder: "rowing",
        title: "A plan drafted in a spreadsheet",
        story: "Lali and Vano are married, and Nika is their daughter. Tea and Dato share a flat. Guga coaches and Manana keeps the books; both \
            are paid by the club. The secretary drafts the plan in a spreadsheet, a rule a row, in the order in which the rules came up.",
        outcome: "Lali, Vano and Nika are a unit: each two of them have a row, for a chain would be left to discretion. Tea and Dato are one, \
            too. Guga and Manana are excluded. In the table a status stands before the last edge; in the plan edges come first.",
        plan,
        case,
        amounts: &[],
        sheets: &[
            Sheet {
                file: "rules.csv",
                bytes: TABLE,
                origin: "the table as Gnumeric 1.12.55 wrote it, as \"Text (configurable)\" with line ends of Windows (`ssconvert -T \
                    Gnumeric_stf:stf_assistant -O eol=windows rules.ods rules.csv`). It is read as it stands.",
            },
            Sheet {
                file: "libreoffice.csv",
                bytes: UNIX,
                origin: "the same sheet as LibreOffice 7.4.7 wrote it on Linux (`soffice --headless --convert-to 'csv:Text - txt - csv \
                    (StarCalc):44,34,76,1' --outdir elsewhere rules.ods`). The file that comes is called rules.csv: without another folder it would take \
                    the place of the one above. It was renamed. Its lines end in LF alone, so that it is refused; `lukhveri import \
                    --line-ends` reads it, and the plan is the same.",
            },
            Sheet {
                file: "rules.fods",
                bytes: include_bytes!("../../../examples/rowing/rules.fods"),
                origin: "the sheet itself. LibreOffice made the rules.ods above of it.",
            },
        ],
        words: Words {
            persons: &[
                (0, "Lali"),
                (1, "Vano"),
                (2, "Nika"),
                (3, "Tea"),
                (4, "Dato"),
                (5, "Guga"),
                (6, "Manana"),
            ],
            facts: &[],
            citations: &[
                (1, "§1 family", "Spouses, and parents and their children, are counted together."),
                (2, "§2 one flat", "Whoever shares a flat is counted together."),
                (
                    3,
                    "§3 staff",
                    "Whoever is paid by the club is counted in the unit, but is excluded from relief.",
                ),
            ],
            evidence: &[(LIST.0, "the club's list, signed as complete")],
            rules: &[],
            actors: &[],
        },
    })
}
