//! What conditions can come to: the facts that they use, and whether they can hold at all.

use std::cell::{Cell, RefCell};
use std::collections::BTreeMap;

use crate::plan::Plan;
use crate::records::Node;
use crate::warnings::bit;

/// Nodes that are valued at most before a question is given up.
const WORK: usize = 1 << 18;

/// Nodes that are valued at most for all questions about a plan.
const ALL_WORK: usize = 1 << 22;

/// A node, by numbers of the file.
enum Shape {
    Literal(bool),
    Fact(u8),
    And(Vec<u8>),
    Or(Vec<u8>),
    Not(u8),
}

/// A value that may be open.
type Value = Option<bool>;

/// Asked for a condition and its defeaters, and what was found.
type Found = BTreeMap<(u8, Vec<u8>), Value>;

/// The nodes of a plan.
pub(crate) struct Conditions {
    shapes: Vec<Shape>,
    /// For each node the facts that it uses, itself or through its children.
    facts: Vec<u64>,
    found: RefCell<Found>,
    work_left: Cell<usize>,
}

impl Conditions {
    pub(crate) fn of(plan: &Plan) -> Conditions {
        let numbers = |list: &[crate::NodeId]| list.iter().map(|node| node.number).collect();
        let shape = |node: &Node| match node {
            Node::Literal(value) => Shape::Literal(*value),
            Node::Fact(fact) => Shape::Fact(fact.number),
            Node::And(children) => Shape::And(numbers(children)),
            Node::Or(children) => Shape::Or(numbers(children)),
            Node::Not(child) => Shape::Not(child.number),
        };
        let shapes: Vec<Shape> = plan.records().nodes.iter().map(shape).collect();
        let facts = uses(&shapes);
        Conditions { shapes, facts, found: RefCell::default(), work_left: Cell::new(ALL_WORK) }
    }

    /// The facts that some nodes use.
    pub(crate) fn facts_of(&self, nodes: impl IntoIterator<Item = u8>) -> u64 {
        let masks = nodes.into_iter().filter_map(|node| self.facts.get(usize::from(node)));
        masks.fold(0, |all, mask| all | mask)
    }

    /// The facts that any node asks for.
    pub(crate) fn asked(&self) -> u64 {
        self.facts.iter().fold(0, |all, mask| all | mask)
    }

    /// Whether a condition can be true with all defeaters false; none where that would take too much work.
    pub(crate) fn can_hold(&self, condition: u8, defeaters: &[u8]) -> Value {
        let asked = (condition, defeaters.to_vec());
        if let Some(known) = self.found.borrow().get(&asked) {
            return *known;
        }
        let work = self.work_left.get().min(WORK);
        let mut search = Search { nodes: self, condition, defeaters, work };
        let found = search.split(Facts::default());
        self.work_left.set(self.work_left.get() - (work - search.work));
        self.found.borrow_mut().insert(asked, found);
        found
    }
}

/// For each node the facts that it uses; children are lower.
fn uses(shapes: &[Shape]) -> Vec<u64> {
    let mut facts: Vec<u64> = Vec::new();
    for shape in shapes {
        let of = |node: &u8| facts.get(usize::from(*node)).copied().unwrap_or(0);
        let mask = match shape {
            Shape::Literal(_) => 0,
            Shape::Fact(fact) => bit(*fact),
            Shape::And(children) | Shape::Or(children) => {
                children.iter().fold(0, |all, child| all | of(child))
            }
            Shape::Not(child) => of(child),
        };
        facts.push(mask);
    }
    facts
}

/// Facts that were set, and those of them that are true.
#[derive(Clone, Copy, Default)]
struct Facts {
    set: u64,
    yes: u64,
}

impl Facts {
    fn with(self, fact: u8, value: bool) -> Facts {
        let yes = if value { bit(fact) } else { 0 };
        Facts { set: self.set | bit(fact), yes: self.yes | yes }
    }

    fn value(self, fact: u8) -> Value {
        (self.set & bit(fact) != 0).then_some(self.yes & bit(fact) != 0)
    }
}

/// Sets one fact after another until the question is answered.
struct Search<'a> {
    nodes: &'a Conditions,
    condition: u8,
    defeaters: &'a [u8],
    work: usize,
}

impl Search<'_> {
    /// Both values of a fact that matters, unless no fact does. It calls itself with one more fact set, so at most 64 deep.
    fn split(&mut self, facts: Facts) -> Value {
        let highest = self.defeaters.iter().copied().fold(self.condition, u8::max);
        let count = usize::from(highest) + 1;
        self.work = self.work.checked_sub(count)?;
        let values = self.nodes.values(facts, count);
        let of = |node: u8| values.get(usize::from(node)).copied().flatten();
        let open = |node: &u8| of(*node).is_none();
        if of(self.condition) == Some(false)
            || self.defeaters.iter().any(|node| of(*node) == Some(true))
        {
            return Some(false);
        }
        let roots = [self.condition].into_iter().chain(self.defeaters.iter().copied());
        let Some(root) = roots.into_iter().find(open) else {
            return Some(true);
        };
        let fact = self.nodes.open_fact(root, &values)?;
        let first = self.split(facts.with(fact, true));
        if first == Some(true) {
            return first;
        }
        match self.split(facts.with(fact, false)) {
            Some(false) => first,
            second => second,
        }
    }
}

impl Conditions {
    /// The values of the first nodes, as far as the facts that were set tell them.
    fn values(&self, facts: Facts, count: usize) -> Vec<Value> {
        let mut values: Vec<Value> = Vec::with_capacity(count);
        for shape in self.shapes.iter().take(count) {
            let of = |node: &u8| values.get(usize::from(*node)).copied().flatten();
            let value = match shape {
                Shape::Literal(value) => Some(*value),
                Shape::Fact(fact) => facts.value(*fact),
                Shape::And(children) => all(children.iter().map(of)),
                Shape::Or(children) => {
                    all(children.iter().map(|child| Some(!of(child)?))).map(|no| !no)
                }
                Shape::Not(child) => of(child).map(|value| !value),
            };
            values.push(value);
        }
        values
    }

    /// A fact that keeps an open node open.
    fn open_fact(&self, root: u8, values: &[Value]) -> Option<u8> {
        let open = |node: &&u8| values.get(usize::from(**node)).is_some_and(Option::is_none);
        let mut node = root;
        loop {
            node = match self.shapes.get(usize::from(node))? {
                Shape::Literal(_) => return None,
                Shape::Fact(fact) => return Some(*fact),
                Shape::And(children) | Shape::Or(children) => *children.iter().find(open)?,
                Shape::Not(child) => *child,
            };
        }
    }
}

/// False if one is, true if all are.
fn all(values: impl Iterator<Item = Value>) -> Value {
    let mut open = false;
    for value in values {
        match value {
            Some(false) => return Some(false),
            Some(true) => {}
            None => open = true,
        }
    }
    (!open).then_some(true)
}
