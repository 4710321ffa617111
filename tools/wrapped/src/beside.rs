//! Two inputs put side by side into one: their persons are different people, and no rule reaches from one to the other.

use inputs::generate::Input;
use inputs::wire::{Case, Election, List, Node, Plan};

/// Everyone whom an input names, on its roster or off it.
fn persons(input: &Input) -> u64 {
    let tuples = input.plan.facts.iter().flatten().flat_map(|(_, tuple)| tuple);
    tuples.fold(input.case.roster, |all, person| all | 1 << person)
}

/// How the numbers of one of the two go over into the whole.
struct Into {
    /// By old number.
    persons: Vec<u8>,
    facts: Vec<u8>,
    nodes: u8,
    edges: u8,
    cuts: u8,
}

impl Into {
    fn person(&self, person: u8) -> u8 {
        self.persons[usize::from(person)]
    }

    fn mask(&self, mask: u64) -> u64 {
        (0..64)
            .filter(|person| mask >> person & 1 == 1)
            .fold(0, |all, person| all | 1 << self.person(person))
    }

    fn nodes(&self, list: &[u8]) -> Vec<u8> {
        list.iter().map(|node| node + self.nodes).collect()
    }

    fn node(&self, node: &Node) -> Node {
        match node {
            Node::Literal(value) => Node::Literal(*value),
            Node::Fact(fact) => Node::Fact(self.facts[usize::from(*fact)]),
            Node::And(list) => Node::And(self.nodes(list)),
            Node::Or(list) => Node::Or(self.nodes(list)),
            Node::Not(child) => Node::Not(child + self.nodes),
        }
    }

    fn election(&self, election: Option<Election>) -> Option<Election> {
        election
            .map(|election| Election { fact: self.facts[usize::from(election.fact)], ..election })
    }

    fn list<T: Clone>(&self, list: &List<T>, each: impl Fn(&T) -> T) -> List<T> {
        list.as_ref().map(|list| list.iter().map(each).collect())
    }

    fn add_plan(&self, part: &Plan, whole: &mut Plan) {
        whole.nodes.extend(part.nodes.iter().map(|node| self.node(node)));
        for edge in &part.edges {
            let mut edge = edge.clone();
            (edge.left, edge.right) = (self.person(edge.left), self.person(edge.right));
            edge.condition += self.nodes;
            edge.defeaters = self.list(&edge.defeaters, |node| node + self.nodes);
            whole.edges.push(edge);
        }
        for cut in &part.cuts {
            let mut cut = cut.clone();
            cut.members = self.mask(cut.members);
            cut.condition += self.nodes;
            cut.election = self.election(cut.election);
            cut.decisions = self.list(&cut.decisions, |(edge, said)| (edge + self.edges, *said));
            cut.precedes = self.list(&cut.precedes, |other| other + self.cuts);
            whole.cuts.push(cut);
        }
        self.add_small(part, whole);
    }

    fn add_small(&self, part: &Plan, whole: &mut Plan) {
        for rule in &part.attachments {
            let mut rule = rule.clone();
            (rule.members, rule.anchor) = (self.mask(rule.members), self.person(rule.anchor));
            rule.condition += self.nodes;
            rule.election = self.election(rule.election);
            whole.attachments.push(rule);
        }
        for bar in &part.bars {
            let mut bar = bar.clone();
            (bar.members, bar.condition) = (self.mask(bar.members), bar.condition + self.nodes);
            whole.bars.push(bar);
        }
        for status in &part.statuses {
            let mut status = status.clone();
            (status.person, status.condition) =
                (self.person(status.person), status.condition + self.nodes);
            whole.statuses.push(status);
        }
    }

    fn add_case(&self, part: &Case, whole: &mut Case) {
        whole.roster |= self.mask(part.roster);
        let new = part
            .families
            .iter()
            .filter(|family| whole.families.iter().all(|there| there.number != family.number));
        let new: Vec<_> = new.cloned().collect();
        whole.families.extend(new);
        for boolean in &part.booleans {
            let mut boolean = boolean.clone();
            boolean.fact = self.facts[usize::from(boolean.fact)];
            whole.booleans.push(boolean);
        }
        for relation in &part.relations {
            let mut relation = relation.clone();
            relation.fact = self.facts[usize::from(relation.fact)];
            whole.relations.push(relation);
        }
        whole.constraints.extend(part.constraints.iter().map(|node| node + self.nodes));
    }
}

/// A fact of the whole: booleans first, each its own; relations by family and persons.
type Key = (bool, usize, Option<(u8, Vec<u8>)>);

/// Both in one, if there are few enough persons. Heading and chain are the first one's.
pub fn beside(first: &Input, second: &Input) -> Option<Input> {
    let inputs = [first, second];
    let maps = renumbered(inputs)?;
    let keys: Vec<Vec<Key>> = inputs
        .iter()
        .zip(&maps)
        .enumerate()
        .map(|(which, (input, map))| keys(which, input, map))
        .collect();
    let mut all: Vec<Key> = keys.concat();
    all.sort();
    all.dedup();
    let mut whole = Input {
        plan: Plan { facts: all.iter().map(|key| key.2.clone()).collect(), ..head(&first.plan) },
        case: blank(&first.case),
    };
    for ((input, persons), keys) in inputs.iter().zip(maps).zip(keys) {
        let facts = keys
            .iter()
            .map(|key| all.iter().position(|other| other == key).unwrap_or(0) as u8)
            .collect();
        let plan = &whole.plan;
        let [nodes, edges, cuts] =
            [plan.nodes.len(), plan.edges.len(), plan.cuts.len()].map(|count| count as u8);
        let into = Into { persons, facts, nodes, edges, cuts };
        into.add_plan(&input.plan, &mut whole.plan);
        into.add_case(&input.case, &mut whole.case);
    }
    Some(whole)
}

/// For each of the two, the numbers that its persons get; none if they are more than 64 together.
fn renumbered(inputs: [&Input; 2]) -> Option<Vec<Vec<u8>>> {
    let (mut next, mut maps) = (0u8, Vec::new());
    for input in inputs {
        let named = persons(input);
        let mut map = vec![0; 64];
        for person in (0..64).filter(|person| named >> person & 1 == 1) {
            map[person] = next;
            next += 1;
        }
        maps.push(map);
    }
    (next <= 64).then_some(maps)
}

fn keys(which: usize, input: &Input, map: &[u8]) -> Vec<Key> {
    let facts = input.plan.facts.iter().enumerate();
    let keys = facts.map(|(number, fact)| match fact {
        None => (false, which * 64 + number, None),
        Some((family, tuple)) => {
            let tuple = tuple.iter().map(|person| map[usize::from(*person)]).collect();
            (true, 0, Some((*family, tuple)))
        }
    });
    keys.collect()
}

fn head(plan: &Plan) -> Plan {
    Plan { relation: plan.relation, chain: plan.chain, ..Plan::default() }
}

fn blank(case: &Case) -> Case {
    let (families, booleans, relations) = (Vec::new(), Vec::new(), Vec::new());
    Case { roster: 0, families, booleans, relations, constraints: Vec::new(), ..case.clone() }
}
