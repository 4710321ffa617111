//! Random plans and cases that both sides accept, small and dense.

use crate::random::Random;
use crate::wire::*;

/// The most of each thing that an input may have.
#[derive(Clone, Copy, Debug)]
pub struct Size {
    pub persons: usize,
    pub booleans: usize,
    pub relations: usize,
    pub composites: usize,
    pub edges: usize,
    pub cuts: usize,
    pub attachments: usize,
    pub bars: usize,
    pub statuses: usize,
    pub unresolved: usize,
    /// In a hundred: facts that the case leaves open.
    pub open: usize,
}

pub const TINY: Size = Size {
    persons: 4,
    booleans: 2,
    relations: 1,
    composites: 2,
    edges: 3,
    cuts: 2,
    attachments: 1,
    bars: 2,
    statuses: 1,
    unresolved: 1,
    open: 40,
};

pub const DENSE: Size = Size {
    persons: 7,
    booleans: 4,
    relations: 4,
    composites: 8,
    edges: 9,
    cuts: 6,
    attachments: 3,
    bars: 4,
    statuses: 3,
    unresolved: 3,
    open: 40,
};

pub const LARGE: Size = Size {
    persons: 40,
    booleans: 10,
    relations: 10,
    composites: 30,
    edges: 40,
    cuts: 12,
    attachments: 12,
    bars: 12,
    statuses: 12,
    unresolved: 4,
    open: 15,
};

/// Many unresolved decisions, few facts.
pub const UNDECIDED: Size = Size {
    booleans: 2,
    relations: 1,
    edges: 12,
    unresolved: 9,
    attachments: 1,
    bars: 1,
    statuses: 1,
    ..DENSE
};

/// Rosters up to all 64 persons and most kinds of rules up to their limits.
pub const WIDE: Size = Size {
    persons: 64,
    booleans: 4,
    relations: 4,
    composites: 20,
    edges: 64,
    cuts: 16,
    attachments: 32,
    bars: 32,
    statuses: 32,
    unresolved: 2,
    open: 15,
};

#[derive(Clone, Debug, PartialEq, Eq)]
pub struct Input {
    pub plan: Plan,
    pub case: Case,
}

/// A mixture of sizes, dense ones prevailing.
pub fn mixed(random: &mut Random) -> Input {
    let size = match random.below(400) {
        0..=149 => TINY,
        150..=374 => DENSE,
        375..=387 => UNDECIDED,
        388..=396 => LARGE,
        _ => WIDE,
    };
    let mut input = input(random, size);
    if random.percent(4) {
        spoil(random, &mut input.case);
    }
    input
}

/// Makes a case that both sides refuse: 5, 8, 9 or 10, or 11 by its limit.
fn spoil(random: &mut Random, case: &mut Case) {
    match random.below(9) {
        0 => case.segment_complete = false,
        1 => case.relation = case.relation.wrapping_add(1),
        2 => case.scope = random.percent(50).then_some(0),
        3 => case.segment = random.percent(50).then_some(0),
        4 => case.roster &= case.roster - 1,
        5 => case.families.extend(case.families.first().cloned()),
        6 => case.booleans.extend(case.booleans.first().cloned()),
        7 => {
            if let Some(record) = case.booleans.last_mut() {
                record.unknown = Some(1);
                record.observations = Some(vec![(1, 2)]);
            }
        }
        _ => case.most_worlds = random.pick(&[0, 1, 2, 3]),
    }
}

pub fn input(random: &mut Random, size: Size) -> Input {
    loop {
        let input = any_input(random, size);
        let decisions = input.plan.cuts.iter().flat_map(|cut| cut.decisions.iter().flatten());
        if decisions.filter(|(_, decision)| *decision == UNRESOLVED).count() <= 16 {
            return input;
        }
    }
}

fn any_input(random: &mut Random, size: Size) -> Input {
    let mut maker = Maker::new(random, size);
    maker.facts();
    maker.nodes();
    maker.edges();
    maker.cuts();
    maker.attachments();
    maker.bars();
    maker.statuses();
    let case = maker.case();
    Input { plan: maker.plan, case }
}

/// Turns a plan into one that document 01 accepts and the Rust refuses, in
/// one or a few of the ways there are.
pub fn loosen(random: &mut Random, plan: &mut Plan) {
    for _ in 0..random.between(1, 3) {
        match random.below(10) {
            0 => loosen_edge(random, plan),
            1..=3 => loosen_cut(random, plan),
            4..=6 => loosen_attachment(random, plan),
            7 => loosen_bar(random, plan),
            _ => loosen_precedence(random, plan),
        }
    }
}

/// A self-edge. A Combination edge stays decided where it crosses no more.
fn loosen_edge(random: &mut Random, plan: &mut Plan) {
    let at = random.below(plan.edges.len());
    if let Some(edge) = plan.edges.get_mut(at) {
        edge.right = edge.left;
    }
}

/// No members, a decision on a Base edge, twins that disagree, or an election
/// that the condition does not use.
fn loosen_cut(random: &mut Random, plan: &mut Plan) {
    let at = random.below(plan.cuts.len());
    let base = plan.edges.iter().position(|edge| !edge.combination);
    let election = plan.cuts.iter().filter_map(|cut| cut.election).next_back();
    let Some(cut) = plan.cuts.get_mut(at) else {
        return;
    };
    match random.below(4) {
        0 => cut.members = 0,
        1 => {
            let list = cut.decisions.get_or_insert_default();
            let free = base.filter(|base| list.iter().all(|(edge, _)| *edge as usize != *base));
            list.extend(free.map(|edge| (edge as u8, UNRESOLVED)));
        }
        2 => {
            let decisions = cut.decisions.iter_mut().flatten();
            decisions.for_each(|(_, decision)| *decision = random.between(1, 2) as u8);
        }
        _ => cut.election = election,
    }
}

/// No members, the anchor or another's members among them, another actor.
fn loosen_attachment(random: &mut Random, plan: &mut Plan) {
    let at = random.below(plan.attachments.len());
    let other = plan.attachments.last().map(|rule| rule.members | 1 << rule.anchor);
    let Some(rule) = plan.attachments.get_mut(at) else {
        return;
    };
    match random.below(4) {
        0 => rule.members = 0,
        1 => rule.members |= 1 << rule.anchor,
        2 => rule.members |= other.unwrap_or(0),
        _ => rule.actor = random.between(1, 255) as u8,
    }
}

fn loosen_bar(random: &mut Random, plan: &mut Plan) {
    let at = random.below(plan.bars.len());
    if let Some(bar) = plan.bars.get_mut(at) {
        bar.members = 0;
    }
}

/// Any precedence: to itself, round in circles, twice.
fn loosen_precedence(random: &mut Random, plan: &mut Plan) {
    let count = plan.cuts.len();
    for cut in &mut plan.cuts {
        let list = (0..random.below(4)).map(|_| random.byte(count)).collect();
        cut.precedes = Some(list);
    }
}

struct Maker<'a> {
    random: &'a mut Random,
    size: Size,
    /// The roster's persons, rising.
    persons: Vec<u8>,
    /// One election for each boolean fact, so that refusal 7 never comes.
    elections: Vec<Election>,
    /// For each node, the facts its text uses.
    uses: Vec<u64>,
    /// A small pool makes citations coincide now and then.
    citations: usize,
    plan: Plan,
}

impl<'a> Maker<'a> {
    fn new(random: &'a mut Random, size: Size) -> Maker<'a> {
        let persons = choose_persons(random, size.persons);
        let citations = if random.percent(25) { 4 } else { 64 };
        let chain = random.percent(35).then(|| random.byte(64));
        let plan = Plan { relation: random.byte(256), chain, ..Plan::default() };
        Maker { random, size, persons, elections: Vec::new(), uses: Vec::new(), citations, plan }
    }

    fn count(&mut self, most: usize) -> usize {
        self.random.below(most + 1)
    }

    fn citation(&mut self) -> u8 {
        self.random.byte(self.citations)
    }

    fn person(&mut self) -> u8 {
        self.random.pick(&self.persons)
    }

    /// One person in seven of a tuple is anybody, on the roster or off it.
    fn tuple_person(&mut self) -> u8 {
        if self.random.percent(15) { self.random.byte(64) } else { self.person() }
    }

    fn some_persons(&mut self) -> u64 {
        let most = self.persons.len().min(4);
        let count = self.random.between(1, most);
        (0..count).fold(0, |set, _| set | 1u64 << self.person())
    }

    fn facts(&mut self) {
        let booleans = self.count(self.size.booleans);
        for fact in 0..booleans {
            self.plan.facts.push(None);
            let election = Election {
                fact: fact as u8,
                actor: self.random.between(1, 255) as u8,
                policy: self.random.byte(3),
                citation: self.citation(),
            };
            self.elections.push(election);
        }
        let pool = [self.random.byte(256), self.random.byte(256), self.random.byte(256)];
        let mut relations: Vec<(u8, Vec<u8>)> = Vec::new();
        for _ in 0..self.count(self.size.relations) {
            let length = self.random.below(5);
            let tuple = (0..length).map(|_| self.tuple_person()).collect();
            relations.push((self.random.pick(&pool), tuple));
        }
        relations.sort();
        relations.dedup();
        self.plan.facts.extend(relations.into_iter().map(Some));
    }

    fn add_node(&mut self, node: Node) {
        let used = match &node {
            Node::Literal(_) => 0,
            Node::Fact(fact) => 1 << fact,
            Node::And(children) | Node::Or(children) => {
                children.iter().fold(0, |all, &child| all | self.uses[child as usize])
            }
            Node::Not(child) => self.uses[*child as usize],
        };
        self.uses.push(used);
        self.plan.nodes.push(node);
    }

    fn nodes(&mut self) {
        self.add_node(Node::Literal(1));
        if self.random.percent(30) {
            self.add_node(Node::Literal(0));
        }
        for fact in 0..self.plan.facts.len() {
            if self.random.percent(90) {
                self.add_node(Node::Fact(fact as u8));
            }
        }
        for _ in 0..self.count(self.size.composites) {
            let node = self.composite();
            self.add_node(node);
        }
    }

    fn composite(&mut self) -> Node {
        let below = self.plan.nodes.len();
        let count = self.random.below(4);
        let children = (0..count).map(|_| self.random.byte(below)).collect();
        match self.random.below(5) {
            0 | 1 => Node::And(children),
            2 | 3 => Node::Or(children),
            _ => Node::Not(self.random.byte(below)),
        }
    }

    /// Node 0 is true: rules that always act make worlds dense.
    fn condition(&mut self) -> u8 {
        if self.random.percent(35) { 0 } else { self.random.byte(self.plan.nodes.len()) }
    }

    fn nodes_list(&mut self, chance: usize) -> List<u8> {
        if !self.random.percent(chance) {
            return None;
        }
        let count = self.random.below(3);
        Some((0..count).map(|_| self.random.byte(self.plan.nodes.len())).collect())
    }

    fn edges(&mut self) {
        if self.persons.len() < 2 {
            return;
        }
        for _ in 0..self.count(self.size.edges) {
            let left = self.person();
            let mut right = self.person();
            while right == left {
                right = self.person();
            }
            let edge = Edge {
                left,
                right,
                condition: self.condition(),
                citation: self.citation(),
                defeaters: self.nodes_list(30),
                combination: self.random.percent(50),
            };
            self.plan.edges.push(edge);
        }
    }

    /// An election on a boolean fact that the condition uses.
    fn election(&mut self, condition: u8) -> Option<Election> {
        let used = self.uses[condition as usize];
        let fitting: Vec<Election> =
            self.elections.iter().filter(|e| used >> e.fact & 1 == 1).copied().collect();
        if fitting.is_empty() || self.random.percent(30) {
            return None;
        }
        Some(self.random.pick(&fitting))
    }

    fn cuts(&mut self) {
        let count = self.count(self.size.cuts);
        let mut rank: Vec<usize> = (0..count).collect();
        self.random.shuffle(&mut rank);
        let chance = self.random.pick(&[0, 10, 30, 60]);
        let mut unresolved = 0;
        for number in 0..count {
            let members = self.cut_members();
            let condition = self.condition();
            let election = self.election(condition);
            let citation = self.citation();
            let precedes = self.precedes(&rank, number, chance);
            let decisions = self.decisions(members, &mut unresolved);
            self.plan.cuts.push(Cut {
                members,
                condition,
                citation,
                election,
                decisions,
                precedes,
            });
        }
    }

    /// Now and then the set of an earlier cut, to be merged with it.
    fn cut_members(&mut self) -> u64 {
        if !self.plan.cuts.is_empty() && self.random.percent(25) {
            let at = self.random.below(self.plan.cuts.len());
            return self.plan.cuts[at].members;
        }
        self.some_persons()
    }

    /// Along a rank, so that no cut precedes itself through others.
    fn precedes(&mut self, rank: &[usize], number: usize, chance: usize) -> List<u8> {
        let lower = (0..rank.len()).filter(|&other| rank[number] < rank[other]);
        let mut list = Vec::new();
        for other in lower {
            if list.len() < 16 && self.random.percent(chance) {
                list.push(other as u8);
            }
        }
        self.random.shuffle(&mut list);
        if list.is_empty() && self.random.percent(70) { None } else { Some(list) }
    }

    /// Every crossing Combination edge is decided, others now and then. Cuts
    /// of one set say the same of an edge: the Rust refuses to merge others.
    fn decisions(&mut self, members: u64, unresolved: &mut usize) -> List<(u8, u8)> {
        let twin = self.plan.cuts.iter().find(|cut| cut.members == members);
        let twin = twin.map(|cut| cut.decisions.clone().unwrap_or_default());
        let mut list = Vec::new();
        for number in 0..self.plan.edges.len() {
            let edge = &self.plan.edges[number];
            let crosses = (members >> edge.left ^ members >> edge.right) & 1 == 1;
            if !edge.combination || (!crosses && !self.random.percent(10)) {
                continue;
            }
            let edge = number as u8;
            let said = twin.iter().flatten().find(|(other, _)| *other == edge);
            let mut decision =
                said.map_or_else(|| self.random.between(1, 3) as u8, |(_, said)| *said);
            if decision == UNRESOLVED && *unresolved >= self.size.unresolved {
                if said.is_some() {
                    *unresolved += 1;
                } else {
                    decision = self.random.between(1, 2) as u8;
                }
            } else if decision == UNRESOLVED {
                *unresolved += 1;
            }
            list.push((edge, decision));
        }
        self.random.shuffle(&mut list);
        if list.is_empty() && self.random.percent(70) { None } else { Some(list) }
    }

    /// Attachments share no members and move no anchor.
    fn attachments(&mut self) {
        if self.persons.len() < 2 {
            return;
        }
        let mut order = self.persons.clone();
        self.random.shuffle(&mut order);
        let movable = self.random.between(1, order.len() - 1);
        let (mut free, anchors) = (order[..movable].to_vec(), order[movable..].to_vec());
        for _ in 0..self.count(self.size.attachments) {
            if free.is_empty() {
                return;
            }
            let taken = self.random.between(1, free.len().min(3));
            let members = free.drain(..taken).fold(0, |set, person| set | 1u64 << person);
            let condition = self.condition();
            let election = self.election(condition);
            let actor = election.map_or_else(|| self.random.between(1, 255) as u8, |e| e.actor);
            let anchor = self.random.pick(&anchors);
            let citation = self.citation();
            self.plan.attachments.push(Attachment {
                members,
                anchor,
                condition,
                citation,
                actor,
                election,
            });
        }
    }

    fn bars(&mut self) {
        for _ in 0..self.count(self.size.bars) {
            let attached = self.plan.attachments.first().map(|rule| rule.members);
            let members = match attached {
                Some(members) if self.random.percent(30) => members,
                _ => self.some_persons(),
            };
            let bar = Bar { members, condition: self.condition(), citation: self.citation() };
            self.plan.bars.push(bar);
        }
    }

    fn statuses(&mut self) {
        for _ in 0..self.count(self.size.statuses) {
            let (person, condition) = (self.person(), self.condition());
            let citation = self.citation();
            self.plan.statuses.push(Status { person, condition, citation });
        }
    }

    fn case(&mut self) -> Case {
        let scope = self.random.between(1, 255) as u8;
        let mut case = Case {
            relation: self.plan.relation,
            scope: Some(scope),
            segment: Some(self.random.between(1, 255) as u8),
            segment_complete: true,
            roster: self.persons.iter().fold(0, |set, &person| set | 1u64 << person),
            complete: self.random.percent(98).then(|| self.random.byte(64)),
            most_worlds: self.most_worlds(),
            ..Case::default()
        };
        self.families(&mut case, scope);
        self.booleans(&mut case);
        self.relations(&mut case);
        if self.random.percent(30) {
            for _ in 0..self.random.between(1, 3) {
                case.constraints.push(self.random.byte(self.plan.nodes.len()));
            }
        }
        case
    }

    fn most_worlds(&mut self) -> u16 {
        if self.random.percent(92) { 4096 } else { self.random.below(65) as u16 }
    }

    fn families(&mut self, case: &mut Case, scope: u8) {
        let mut numbers: Vec<u8> =
            self.plan.facts.iter().flatten().map(|(family, _)| *family).collect();
        numbers.dedup();
        if self.random.percent(10) {
            let other = self.random.byte(256);
            if !numbers.contains(&other) {
                numbers.push(other);
            }
        }
        self.random.shuffle(&mut numbers);
        for number in numbers {
            if self.random.percent(15) {
                continue;
            }
            let family_scope = match self.random.below(12) {
                0 => None,
                1 => Some(0),
                2 => Some(self.random.byte(256)),
                _ => Some(scope),
            };
            let complete = self.random.percent(60).then(|| self.random.byte(64));
            case.families.push(Family { number, scope: family_scope, complete });
        }
    }

    fn booleans(&mut self, case: &mut Case) {
        let mut facts: Vec<u8> = (0..self.elections.len() as u8).collect();
        self.random.shuffle(&mut facts);
        for fact in facts {
            if self.random.percent(self.size.open) {
                self.open_boolean(case, fact);
                continue;
            }
            let count = if self.random.percent(75) { 1 } else { self.random.between(2, 4) };
            let list = (0..count).map(|_| (self.random.byte(2), self.random.byte(6))).collect();
            case.booleans.push(Boolean { fact, unknown: None, observations: Some(list) });
        }
    }

    /// No record, one that says nothing, or an explicit unknown.
    fn open_boolean(&mut self, case: &mut Case, fact: u8) {
        let unknown = self.random.percent(50).then(|| self.random.byte(64));
        let observations = self.random.percent(20).then(Vec::new);
        if unknown.is_some() || self.random.percent(20) {
            case.booleans.push(Boolean { fact, unknown, observations });
        }
    }

    fn relations(&mut self, case: &mut Case) {
        for fact in self.elections.len()..self.plan.facts.len() {
            let family = self.plan.facts[fact].as_ref().map(|(family, _)| *family);
            let recorded = case.families.iter().any(|record| Some(record.number) == family);
            if !recorded || self.random.percent(self.size.open) {
                continue;
            }
            let count = if self.random.percent(80) { 1 } else { self.random.between(2, 3) };
            for _ in 0..count {
                let (value, evidence) = (self.random.byte(2), self.random.byte(6));
                case.relations.push(Relation { fact: fact as u8, value, evidence });
            }
        }
        self.random.shuffle(&mut case.relations);
    }
}

/// Low numbers, high ones with 63 among them, or anything between.
pub fn choose_persons(random: &mut Random, most: usize) -> Vec<u8> {
    let count = random.between(1, most);
    let mut persons: Vec<u8> = match random.below(4) {
        0 | 1 => (0..count as u8).collect(),
        2 => (64 - count as u8..64).collect(),
        _ => {
            let mut all: Vec<u8> = (0..64).collect();
            random.shuffle(&mut all);
            all.truncate(count);
            all
        }
    };
    persons.sort_unstable();
    persons
}
