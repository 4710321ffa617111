//! Every world of a circle: what makes it and what it shows.

use std::collections::BTreeSet;

use crate::event::Event;
use crate::line::{Line, LineKind, Role};
use crate::near::choices::Choices;
use crate::near::kept::Kept;
use crate::near::open::Open;
use crate::operations::{Answer, Answered, Buffers};
use crate::persons::Persons;

/// What a world shows of a person: a role in a block, or that the person is marked.
#[derive(Clone, Copy, Debug, PartialEq, Eq, Hash)]
pub struct View {
    pub kind: LineKind,
    pub role: Role,
    pub block: Persons,
}

impl View {
    /// What a line shows.
    pub fn of(line: &Line) -> View {
        View { kind: line.kind, role: line.role, block: line.block }
    }

    /// Blocks before marks, small ones first.
    fn key(&self) -> (u8, usize, u64, u8) {
        (self.kind.number(), self.block.count(), self.block.mask(), self.role.number())
    }
}

impl PartialOrd for View {
    fn partial_cmp(&self, other: &View) -> Option<std::cmp::Ordering> {
        Some(self.cmp(other))
    }
}

impl Ord for View {
    fn cmp(&self, other: &View) -> std::cmp::Ordering {
        self.key().cmp(&other.key())
    }
}

/// What rules did in a world: masks by the numbers of rules.
#[derive(Clone, Debug, Default, PartialEq, Eq)]
pub struct Acts {
    pub frozen: u64,
    pub applied: u64,
    pub attached: u64,
    pub barred: u64,
    pub excluded: u64,
    /// Cuts with the edges that block them.
    pub blocked: BTreeSet<(u8, u8)>,
    /// Pairs of overlapping cuts.
    pub overlaps: BTreeSet<(u8, u8)>,
    /// Components that are left to discretion.
    pub chains: BTreeSet<Persons>,
}

impl Acts {
    fn add(&mut self, event: Event) {
        match event {
            Event::Frozen { edge, .. } => self.frozen |= bit(edge),
            Event::Applied { cut, .. } => self.applied |= bit(cut),
            Event::Blocked { cut, edge, .. } => drop(self.blocked.insert((cut, edge))),
            Event::Overlap { earlier, later } => drop(self.overlaps.insert((earlier, later))),
            Event::Attached { attachment, .. } => self.attached |= bit(attachment),
            Event::Barred { bar } => self.barred |= bit(bar),
            Event::Excluded { status, .. } => self.excluded |= bit(status),
            Event::Discretion { persons } => drop(self.chains.insert(persons)),
            Event::Default { .. } => {}
        }
    }
}

fn bit(number: u8) -> u64 {
    1u64.checked_shl(u32::from(number)).unwrap_or(0)
}

/// An admissible world.
#[derive(Clone, Debug)]
pub struct World {
    /// The values of the variables, in their order.
    pub values: Vec<bool>,
    /// The values of the plan's nodes.
    pub nodes: Vec<bool>,
    /// What each roster person of the circle is shown.
    views: Vec<(u8, View)>,
    pub acts: Acts,
}

impl World {
    pub fn view(&self, person: u8) -> Option<View> {
        self.views.iter().find(|(shown, _)| *shown == person).map(|(_, view)| *view)
    }

    /// Who is shown with a kind.
    pub fn shown(&self, kind: LineKind) -> Persons {
        let shown = self.views.iter().filter(|(_, view)| view.kind == kind);
        shown.fold(Persons::NOBODY, |all, (person, _)| all.union(Persons::alone(*person)))
    }
}

/// A place for each choice of values, the first variable slowest; empty where it is not admissible.
#[derive(Clone, Debug)]
pub struct Worlds {
    choices: Vec<Option<World>>,
    radices: Vec<usize>,
}

impl Worlds {
    /// None where they are not as many as the answer says.
    pub(crate) fn of(kept: &Kept, open: &Open, found: &Answer) -> Option<Worlds> {
        let choices = Choices { kept, open };
        let radices: Vec<usize> = choices.radices().collect();
        let complete = found.lines.iter().all(|line| line.kind != LineKind::RosterIncomplete);
        let count = if complete { choices.count() } else { 0 };
        let mut looking = Looking::of(choices);
        let choices: Option<Vec<Option<World>>> =
            (0..count).map(|choice| looking.at(choice)).collect();
        let choices = choices.filter(|_| looking.shown == found.worlds)?;
        Some(Worlds { choices, radices })
    }

    /// The admissible ones, in order.
    pub fn iter(&self) -> impl Iterator<Item = &World> {
        self.choices.iter().flatten()
    }

    /// Each two admissible worlds that differ in the variable of this place alone.
    pub fn pairs(&self, place: usize) -> impl Iterator<Item = (&World, &World)> {
        let step: usize = self.radices.iter().skip(place + 1).product();
        let two = self.radices.get(place) == Some(&2);
        let below = move |at: &usize| two && at / step.max(1) % 2 == 0;
        (0..self.choices.len()).filter(below).filter_map(move |at| {
            let [first, second] = [at, at + step].map(|at| self.choices.get(at)?.as_ref());
            Some((first?, second?))
        })
    }
}

/// Goes over the choices and shows the admissible worlds among them.
struct Looking<'a> {
    choices: Choices<'a>,
    /// How many choices there are for each choice of the boolean facts, which come first.
    behind: usize,
    /// The case in which the boolean facts have their values.
    case: Vec<u8>,
    /// The number of the next admissible world of that case.
    next: u64,
    /// How many worlds were shown.
    shown: u64,
    buffers: Buffers,
}

impl<'a> Looking<'a> {
    fn of(choices: Choices<'a>) -> Looking<'a> {
        let behind = choices.radices().skip(choices.open.booleans()).product();
        Looking { choices, behind, case: Vec::new(), next: 0, shown: 0, buffers: Buffers::new() }
    }

    /// What stands at a choice; none where the proved code does not show it.
    fn at(&mut self, choice: usize) -> Option<Option<World>> {
        let (kept, values) = (self.choices.kept, self.choices.values(choice)?);
        if choice.checked_rem(self.behind)? == 0 {
            self.case = self.choices.open.chosen(&kept.case, &values).bytes();
            self.next = 0;
        }
        let Some(nodes) = self.choices.admissible(&values) else {
            return Some(None);
        };
        let shown = self.buffers.show(kept.plan.bytes(), &self.case, self.next).ok()?;
        (self.next, self.shown) = (self.next + 1, self.shown + 1);
        let (views, acts) = (views(&shown, kept.circle), acts(&shown));
        Some(Some(World { values, nodes, views, acts }))
    }
}

fn views(shown: &Answered, circle: Persons) -> Vec<(u8, View)> {
    let own = shown.lines().filter(|line| circle.holds(line.person));
    own.map(|line| (line.person, View::of(&line))).collect()
}

fn acts(shown: &Answered) -> Acts {
    let mut acts = Acts::default();
    shown.events().for_each(|event| acts.add(event));
    acts
}
