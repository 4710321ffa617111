//! Households side by side, for measuring: persons of a household are joined
//! by edges, few rules reach from one household into the next.

use crate::build;
use crate::generate::Input;
use crate::random::Random;
use crate::wire::*;

/// How much of each thing there is.
#[derive(Clone, Copy, Debug)]
pub struct Shape {
    pub persons: usize,
    pub booleans: usize,
    /// Each of a family of its own.
    pub relations: usize,
    /// Nodes over facts, and how many children each has.
    pub composites: usize,
    pub children: usize,
    /// Defeaters of an edge.
    pub defeaters: usize,
    /// Combination edges between neighbours.
    pub combinations: usize,
    pub cuts: usize,
    /// Attachments; as many bars and statuses.
    pub rules: usize,
    pub unresolved: usize,
    /// Facts that the case leaves open.
    pub open: usize,
    /// Nobody is marked: chains are enough, and of cuts that overlap the
    /// earlier always precedes.
    pub calm: bool,
}

/// Edges that a plan may have.
const EDGES: usize = 64;

pub fn input(random: &mut Random, shape: Shape) -> Input {
    let mut village = Village::new(random, shape);
    village.nodes();
    village.edges();
    village.cuts();
    village.attachments();
    village.bars_and_statuses();
    let case = village.case();
    Input { plan: village.plan, case }
}

struct Village<'a> {
    random: &'a mut Random,
    shape: Shape,
    homes: Vec<Vec<u8>>,
    plan: Plan,
}

impl<'a> Village<'a> {
    fn new(random: &'a mut Random, shape: Shape) -> Village<'a> {
        let mut persons = 0..shape.persons as u8;
        let mut homes = Vec::new();
        while persons.len() > 0 {
            let size = random.pick(&[2, 3, 3, 3, 4]);
            homes.push(persons.by_ref().take(size).collect());
        }
        let relation = |number: usize| Some((number as u8, vec![(number * 3) as u8]));
        let mut plan = build::plan();
        plan.chain = shape.calm.then(|| random.byte(64));
        plan.facts = vec![None; shape.booleans];
        plan.facts.extend((0..shape.relations).map(relation));
        Village { random, shape, homes, plan }
    }

    fn fact(&mut self) -> u8 {
        self.random.byte(self.plan.facts.len())
    }

    fn citation(&mut self) -> u8 {
        self.random.byte(64)
    }

    /// Some persons of one household.
    fn some(&mut self) -> u64 {
        let home = self.random.below(self.homes.len());
        let home = &self.homes[home];
        let count = self.random.between(1, home.len());
        build::set(&home[..count])
    }

    /// Node 0 is true, then come the facts, then what is over them: by turns
    /// all of some facts, which seldom holds, and any of some.
    fn nodes(&mut self) {
        let facts = self.plan.facts.len() as u8;
        self.plan.nodes.extend((0..facts).map(Node::Fact));
        for number in 0..self.shape.composites {
            let children = (0..self.shape.children).map(|_| 1 + self.fact()).collect();
            let node = if number % 2 == 0 { Node::And(children) } else { Node::Or(children) };
            self.plan.nodes.push(node);
        }
    }

    /// A composite node that holds seldom, or else often; node 0 or a fact
    /// where there is none.
    fn composite(&mut self, often: bool) -> u8 {
        let first = 1 + self.plan.facts.len();
        let pairs = self.shape.composites / 2;
        match pairs {
            0 => 1 + self.fact(),
            _ => (first + 2 * self.random.below(pairs) + usize::from(often)) as u8,
        }
    }

    fn condition(&mut self) -> u8 {
        match self.random.below(10) {
            0..=3 => 0,
            4..=6 => 1 + self.fact(),
            _ => self.composite(true),
        }
    }

    fn edge(&mut self, left: u8, right: u8, condition: u8) -> Edge {
        let defeaters: Vec<u8> = (0..self.shape.defeaters).map(|_| self.composite(false)).collect();
        let defeaters = (!defeaters.is_empty()).then_some(defeaters);
        Edge { citation: self.citation(), defeaters, ..build::base(left, right, condition) }
    }

    /// Everybody of a household with everybody, under one condition mostly;
    /// then the Combination edges.
    fn edges(&mut self) {
        let room = EDGES - self.shape.combinations;
        for home in self.homes.clone() {
            let common = self.condition();
            for (at, &left) in home.iter().enumerate() {
                for &right in &home[at + 1..] {
                    if self.plan.edges.len() < room {
                        let own = self.random.percent(5);
                        let condition = if own { self.condition() } else { common };
                        let edge = self.edge(left, right, condition);
                        self.plan.edges.push(edge);
                    }
                }
            }
        }
        for _ in 0..self.shape.combinations {
            let at = self.random.below(self.homes.len() - 1);
            let (left, right) = (self.homes[at][0], self.homes[at + 1][0]);
            let condition = self.condition();
            let edge = self.edge(left, right, condition);
            self.plan.edges.push(Edge { combination: true, ..edge });
        }
    }

    /// An election on the fact that a condition is, if it is a boolean one.
    fn election(&self, condition: u8) -> Option<Election> {
        let fact = condition.checked_sub(1)?;
        let boolean = usize::from(fact) < self.shape.booleans;
        boolean.then_some(Election { fact, actor: fact + 1, policy: fact % 3, citation: fact % 64 })
    }

    /// Cuts of different sets.
    fn cuts(&mut self) {
        let mut unresolved = 0;
        while self.plan.cuts.len() < self.shape.cuts {
            let members = self.some();
            if self.plan.cuts.iter().any(|cut| cut.members == members) {
                continue;
            }
            self.precede(members);
            let condition = self.condition();
            let decisions = Some(self.decisions(members, &mut unresolved));
            let (citation, election) = (self.citation(), self.election(condition));
            let precedes = None;
            self.plan.cuts.push(Cut {
                members,
                condition,
                citation,
                election,
                decisions,
                precedes,
            });
        }
    }

    /// The cuts that overlap the next one precede it, or one in five does not.
    fn precede(&mut self, members: u64) {
        let number = self.plan.cuts.len() as u8;
        for cut in self.plan.cuts.iter_mut().filter(|cut| cut.members & members != 0) {
            if self.shape.calm || self.random.percent(80) {
                cut.precedes.get_or_insert_default().push(number);
            }
        }
    }

    /// On every Combination edge that crosses.
    fn decisions(&mut self, members: u64, unresolved: &mut usize) -> Vec<(u8, u8)> {
        let mut list = Vec::new();
        for (number, edge) in self.plan.edges.iter().enumerate() {
            let crosses = (members >> edge.left ^ members >> edge.right) & 1 == 1;
            if !edge.combination || !crosses {
                continue;
            }
            let decision = if *unresolved < self.shape.unresolved {
                *unresolved += 1;
                UNRESOLVED
            } else {
                self.random.between(1, 2) as u8
            };
            list.push((number as u8, decision));
        }
        list
    }

    /// Odd persons move to even ones, each at most once.
    fn attachments(&mut self) {
        let mut movers: Vec<u8> = (0..self.shape.persons as u8).skip(1).step_by(2).collect();
        self.random.shuffle(&mut movers);
        for mover in movers.into_iter().take(self.shape.rules) {
            let condition = if self.random.percent(20) { 0 } else { self.composite(false) };
            let anchor = 2 * self.random.byte(self.shape.persons / 2);
            let citation = self.citation();
            let rule = build::attachment(&[mover], anchor, condition);
            self.plan.attachments.push(Attachment { citation, ..rule });
        }
    }

    fn bars_and_statuses(&mut self) {
        for _ in 0..self.shape.rules {
            let (members, condition) = (self.some(), self.composite(false));
            let citation = self.citation();
            self.plan.bars.push(Bar { members, condition, citation });
            let person = self.random.byte(self.shape.persons);
            let (condition, citation) = (self.composite(false), self.citation());
            self.plan.statuses.push(Status { person, condition, citation });
        }
    }

    fn case(&mut self) -> Case {
        let mut facts: Vec<u8> = (0..self.plan.facts.len() as u8).collect();
        self.random.shuffle(&mut facts);
        let (open, known) = facts.split_at(self.shape.open);
        let mut case = build::case(u64::MAX >> (64 - self.shape.persons));
        for &fact in open {
            if usize::from(fact) < self.shape.booleans {
                case.booleans.push(build::unknown(fact, self.random.byte(64)));
            }
        }
        for &fact in known {
            let (value, evidence) = (self.random.byte(2), self.random.byte(64));
            match usize::from(fact).checked_sub(self.shape.booleans) {
                None => case.booleans.push(build::observe(fact, &[(value, evidence)])),
                Some(number) => {
                    let number = number as u8;
                    case.families.push(Family { number, scope: Some(1), complete: Some(evidence) });
                    case.relations.push(Relation { fact, value, evidence });
                }
            }
        }
        case
    }
}
