//! A person's paragraph.

use crate::line::{Line, LineKind, Role};
use crate::names::{Names, sentence};
use crate::near::{Near, NearError, Outcome};
use crate::words::{Telling, either, fate};

/// What is said of one person.
#[derive(Clone, Debug, PartialEq, Eq)]
pub struct Paragraph {
    pub person: u8,
    pub name: String,
    pub line: Line,
    /// What the line says and why, sentence by sentence.
    pub sentences: Vec<String>,
    /// Every block and role that can come about, each once; of an open line alone.
    pub possible: Vec<String>,
    /// The open facts and decisions that decide.
    pub waits_for: Vec<String>,
    /// Those that do not decide by themselves, and yet can change what comes about.
    pub moved_by: Vec<String>,
    /// Those that change nothing as things stand.
    pub idle: Vec<String>,
    /// What to find out first, where one answer settles the rest.
    pub ask_first: Option<String>,
}

/// The paragraphs of all roster persons, rising.
pub fn explain(plan: &[u8], case: &[u8], names: &Names) -> Result<Vec<Paragraph>, NearError> {
    let nears = Near::all(plan, case)?;
    let mut all: Vec<Paragraph> = nears
        .iter()
        .flat_map(|near| near.lines().iter().map(|line| of_line(near, names, line)))
        .collect();
    all.sort_by_key(|paragraph| paragraph.person);
    Ok(all)
}

/// The paragraph of one roster person.
pub fn explain_person(
    plan: &[u8],
    case: &[u8],
    names: &Names,
    person: u8,
) -> Result<Paragraph, NearError> {
    let near = Near::of(plan, case, person)?;
    paragraph(&near, names, person).ok_or(NearError::OffRoster { person })
}

/// The paragraph of a roster person of a circle.
pub fn paragraph(near: &Near, names: &Names, person: u8) -> Option<Paragraph> {
    near.line(person).map(|line| of_line(near, names, line))
}

/// Kinds whose lines hang on what is open.
fn is_open(kind: LineKind) -> bool {
    matches!(kind, LineKind::Membership | LineKind::Role | LineKind::Overlap | LineKind::Discretion)
}

fn of_line(near: &Near, names: &Names, line: &Line) -> Paragraph {
    let telling = Telling::of(near, names);
    let outcome = near.outcome(line.person).filter(|_| is_open(line.kind));
    let mut said = telling.line(line, outcome.as_ref());
    let possible =
        outcome.as_ref().map(|outcome| telling.possible(line.person, outcome)).unwrap_or_default();
    if possible.len() > 1 {
        said.push(format!("Possible: {}.", possible.join("; ")));
    }
    said.extend(outcome.iter().flat_map(|outcome| telling.waits(outcome)));
    let variables = |pick: fn(&Outcome) -> &[crate::near::Variable]| -> Vec<String> {
        outcome
            .iter()
            .flat_map(|outcome| pick(outcome).iter().map(|variable| telling.variable(*variable)))
            .collect()
    };
    Paragraph {
        person: line.person,
        name: names.person(line.person),
        line: *line,
        sentences: said.iter().map(|text| sentence(text)).collect(),
        possible,
        waits_for: variables(|outcome| &outcome.decides),
        moved_by: variables(|outcome| &outcome.moves),
        idle: variables(|outcome| &outcome.idle),
        ask_first: outcome.as_ref().and_then(|outcome| telling.first(outcome)),
    }
}

impl Telling<'_> {
    fn line(&self, line: &Line, outcome: Option<&Outcome>) -> Vec<String> {
        let name = self.names.person(line.person);
        match line.kind {
            LineKind::Decided => self.decided(line),
            LineKind::Role => {
                let roles = outcome.map(roles).unwrap_or_default();
                vec![self.block(line), format!("Whether as {} is open.", either(roles))]
            }
            LineKind::Membership => vec![format!("It is open with whom {name} is counted.")],
            LineKind::Overlap => self.overlap(line.person),
            LineKind::Discretion => self.discretion(line.person),
            LineKind::RosterIncomplete => vec![
                format!("Nothing is decided of {name}: the roster is not complete."),
                "Have it confirmed that nobody is missing, enter the paper for it in the case, and ask again.".to_string(),
            ],
            LineKind::Inconsistent => self.inconsistent(&name),
        }
    }

    fn decided(&self, line: &Line) -> Vec<String> {
        let mut said = vec![self.block(line)];
        said.extend(self.one_by_one(line));
        if line.others().is_empty() {
            said.extend(self.why_alone(line));
        }
        said
    }

    fn block(&self, line: &Line) -> String {
        let (name, others) = (self.names.person(line.person), line.others());
        let with = match others.is_empty() {
            true => format!("{name} is counted alone"),
            false => format!("{name} is counted together with {}", self.names.persons(others)),
        };
        match line.citations().len() {
            0 => format!("{with}."),
            _ => format!("{with}, under {}.", self.names.citations(line.citations())),
        }
    }

    /// What can come about; where roles differ, a member is said to be one.
    fn possible(&self, person: u8, outcome: &Outcome) -> Vec<String> {
        let differ = roles(outcome).len() > 1;
        let words = outcome.possible.iter().map(|view| {
            let fate = fate(person, view, self.names);
            let member = differ && view.role == Role::Member;
            if member { format!("a member, {fate}") } else { fate }
        });
        words.collect()
    }

    /// The constraints, which cannot all hold, and what they ask.
    fn inconsistent(&self, name: &str) -> Vec<String> {
        let constraints = &self.near.case().constraints;
        let numbers = constraints.iter().zip(0..).map(|(_, number): (_, u8)| number);
        let mut said = vec![format!(
            "Nothing is decided of {name}: as things are told, the constraints of the case cannot all hold."
        )];
        said.extend(numbers.map(|number| self.constraint(number)));
        said.push("Look whether one of these answers is wrong, or a constraint.".to_string());
        said
    }
}

/// The roles that can come about, in words.
fn roles(outcome: &Outcome) -> Vec<String> {
    let shown = outcome.possible.iter().map(|view| view.role);
    let mut roles: Vec<Role> = shown.filter(|role| *role != Role::None).collect();
    roles.sort_by_key(|role| role.number());
    roles.dedup();
    let word = |role: &Role| match role {
        Role::Excluded => "excluded",
        Role::Barred => "barred",
        Role::Member | Role::None => "a member",
    };
    roles.iter().map(|role| word(role).to_string()).collect()
}
