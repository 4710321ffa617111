//! Plans and cases as values, to bytes and back.
//!
//! The decoder trusts its bytes (the model's check is the judge of them) and
//! shares nothing with the model's reader, so that a misread field shows up
//! as a difference.

/// A list field: absent and empty are two ways to write the same.
pub type List<T> = Option<Vec<T>>;

#[derive(Clone, Debug, PartialEq, Eq)]
pub enum Node {
    Literal(u8),
    Fact(u8),
    And(Vec<u8>),
    Or(Vec<u8>),
    Not(u8),
}

#[derive(Clone, Debug, PartialEq, Eq)]
pub struct Edge {
    pub left: u8,
    pub right: u8,
    pub condition: u8,
    pub citation: u8,
    pub defeaters: List<u8>,
    pub combination: bool,
}

#[derive(Clone, Copy, Debug, PartialEq, Eq)]
pub struct Election {
    pub fact: u8,
    pub actor: u8,
    pub policy: u8,
    pub citation: u8,
}

pub const BLOCKED: u8 = 1;
pub const OVERRIDES: u8 = 2;
pub const UNRESOLVED: u8 = 3;

#[derive(Clone, Debug, PartialEq, Eq)]
pub struct Cut {
    pub members: u64,
    pub condition: u8,
    pub citation: u8,
    pub election: Option<Election>,
    pub decisions: List<(u8, u8)>,
    pub precedes: List<u8>,
}

#[derive(Clone, Debug, PartialEq, Eq)]
pub struct Attachment {
    pub members: u64,
    pub anchor: u8,
    pub condition: u8,
    pub citation: u8,
    pub actor: u8,
    pub election: Option<Election>,
}

#[derive(Clone, Debug, PartialEq, Eq)]
pub struct Bar {
    pub members: u64,
    pub condition: u8,
    pub citation: u8,
}

#[derive(Clone, Debug, PartialEq, Eq)]
pub struct Status {
    pub person: u8,
    pub condition: u8,
    pub citation: u8,
}

#[derive(Clone, Debug, Default, PartialEq, Eq)]
pub struct Plan {
    pub relation: u8,
    pub chain: Option<u8>,
    /// Family and tuple, or none for a boolean fact.
    pub facts: Vec<Option<(u8, Vec<u8>)>>,
    pub nodes: Vec<Node>,
    pub edges: Vec<Edge>,
    pub cuts: Vec<Cut>,
    pub attachments: Vec<Attachment>,
    pub bars: Vec<Bar>,
    pub statuses: Vec<Status>,
}

#[derive(Clone, Debug, PartialEq, Eq)]
pub struct Family {
    pub number: u8,
    pub scope: Option<u8>,
    pub complete: Option<u8>,
}

#[derive(Clone, Debug, PartialEq, Eq)]
pub struct Boolean {
    pub fact: u8,
    pub unknown: Option<u8>,
    pub observations: List<(u8, u8)>,
}

#[derive(Clone, Debug, PartialEq, Eq)]
pub struct Relation {
    pub fact: u8,
    pub value: u8,
    pub evidence: u8,
}

#[derive(Clone, Debug, Default, PartialEq, Eq)]
pub struct Case {
    pub relation: u8,
    pub scope: Option<u8>,
    pub segment: Option<u8>,
    pub segment_complete: bool,
    pub roster: u64,
    pub complete: Option<u8>,
    pub most_worlds: u16,
    pub families: Vec<Family>,
    pub booleans: Vec<Boolean>,
    pub relations: Vec<Relation>,
    pub constraints: Vec<u8>,
}

/// A record being written: each field sets its bit as it comes.
struct Record {
    bytes: Vec<u8>,
}

impl Record {
    fn new(kind: u8) -> Record {
        Record { bytes: vec![kind, 0] }
    }

    fn bit(mut self, bit: u8) -> Record {
        self.bytes[1] |= 1 << bit;
        self
    }

    fn put(mut self, bit: u8, bytes: &[u8]) -> Record {
        self.bytes.extend_from_slice(bytes);
        self.bit(bit)
    }

    fn option(self, bit: u8, byte: Option<u8>) -> Record {
        match byte {
            Some(byte) => self.put(bit, &[byte]),
            None => self,
        }
    }

    fn list(self, bit: u8, list: &List<u8>) -> Record {
        match list {
            Some(list) => self.put(bit, &counted(list)),
            None => self,
        }
    }

    fn pairs(self, bit: u8, list: &List<(u8, u8)>) -> Record {
        let Some(list) = list else {
            return self;
        };
        let mut bytes = vec![list.len() as u8];
        bytes.extend(list.iter().flat_map(|&(first, second)| [first, second]));
        self.put(bit, &bytes)
    }

    fn mask(self, bit: u8, mask: u64) -> Record {
        self.put(bit, &mask.to_le_bytes())
    }

    fn election(self, bit: u8, election: Option<Election>) -> Record {
        match election {
            Some(e) => self.put(bit, &[e.fact, e.actor, e.policy, e.citation]),
            None => self,
        }
    }
}

fn counted(list: &[u8]) -> Vec<u8> {
    let mut bytes = vec![list.len() as u8];
    bytes.extend_from_slice(list);
    bytes
}

fn node_record(node: &Node) -> Record {
    match node {
        Node::Literal(value) => Record::new(3).put(0, &[*value]),
        Node::Fact(fact) => Record::new(3).put(1, &[*fact]),
        Node::And(children) => Record::new(3).put(2, &counted(children)),
        Node::Or(children) => Record::new(3).put(3, &counted(children)),
        Node::Not(child) => Record::new(3).put(4, &[*child]),
    }
}

fn edge_record(edge: &Edge) -> Record {
    let record = Record::new(4)
        .put(0, &[edge.left])
        .put(1, &[edge.right])
        .put(2, &[edge.condition])
        .put(3, &[edge.citation])
        .list(4, &edge.defeaters);
    if edge.combination { record.bit(5) } else { record }
}

impl Plan {
    /// The plan's records in order, each as its bytes.
    pub fn records(&self) -> Vec<Vec<u8>> {
        let mut records = vec![Record::new(1).put(0, &[self.relation]).option(1, self.chain)];
        records.extend(self.facts.iter().map(|fact| match fact {
            None => Record::new(2),
            Some((family, tuple)) => Record::new(2).put(0, &[*family]).put(1, &counted(tuple)),
        }));
        records.extend(self.nodes.iter().map(node_record));
        records.extend(self.edges.iter().map(edge_record));
        records.extend(self.cuts.iter().map(|cut| {
            Record::new(5)
                .mask(0, cut.members)
                .put(1, &[cut.condition])
                .put(2, &[cut.citation])
                .election(3, cut.election)
                .pairs(4, &cut.decisions)
                .list(5, &cut.precedes)
        }));
        records.extend(self.attachments.iter().map(|rule| {
            Record::new(6)
                .mask(0, rule.members)
                .put(1, &[rule.anchor])
                .put(2, &[rule.condition])
                .put(3, &[rule.citation])
                .put(4, &[rule.actor])
                .election(5, rule.election)
        }));
        records.extend(self.bars.iter().map(|bar| {
            Record::new(7).mask(0, bar.members).put(1, &[bar.condition]).put(2, &[bar.citation])
        }));
        records.extend(self.statuses.iter().map(|status| {
            Record::new(8)
                .put(0, &[status.person])
                .put(1, &[status.condition])
                .put(2, &[status.citation])
        }));
        records.into_iter().map(|record| record.bytes).collect()
    }

    pub fn encode(&self) -> Vec<u8> {
        self.records().concat()
    }

    pub fn decode(bytes: &[u8]) -> Option<Plan> {
        let mut plan = Plan::default();
        let mut input = Input { bytes, at: 0 };
        while input.at < bytes.len() {
            plan.take(&mut input)?;
        }
        Some(plan)
    }

    fn take(&mut self, input: &mut Input) -> Option<()> {
        let (kind, bits) = (input.byte()?, input.byte()?);
        match kind {
            1 => {
                self.relation = input.byte()?;
                self.chain = input.option(bits, 1)?;
            }
            2 if bits == 0 => self.facts.push(None),
            2 => self.facts.push(Some((input.byte()?, input.list()?))),
            3 => self.nodes.push(match bits {
                1 => Node::Literal(input.byte()?),
                2 => Node::Fact(input.byte()?),
                4 => Node::And(input.list()?),
                8 => Node::Or(input.list()?),
                _ => Node::Not(input.byte()?),
            }),
            4 => self.edges.push(Edge {
                left: input.byte()?,
                right: input.byte()?,
                condition: input.byte()?,
                citation: input.byte()?,
                defeaters: input.optional_list(bits, 4)?,
                combination: bits & 32 != 0,
            }),
            5 => self.cuts.push(Cut {
                members: input.mask()?,
                condition: input.byte()?,
                citation: input.byte()?,
                election: input.election(bits, 3)?,
                decisions: input.pairs(bits, 4)?,
                precedes: input.optional_list(bits, 5)?,
            }),
            6 => self.attachments.push(Attachment {
                members: input.mask()?,
                anchor: input.byte()?,
                condition: input.byte()?,
                citation: input.byte()?,
                actor: input.byte()?,
                election: input.election(bits, 5)?,
            }),
            7 => self.bars.push(Bar {
                members: input.mask()?,
                condition: input.byte()?,
                citation: input.byte()?,
            }),
            8 => self.statuses.push(Status {
                person: input.byte()?,
                condition: input.byte()?,
                citation: input.byte()?,
            }),
            _ => return None,
        }
        Some(())
    }
}

impl Case {
    pub fn records(&self) -> Vec<Vec<u8>> {
        let mut heading =
            Record::new(1).put(0, &[self.relation]).option(1, self.scope).option(2, self.segment);
        if self.segment_complete {
            heading = heading.bit(3);
        }
        let heading = heading
            .mask(4, self.roster)
            .option(5, self.complete)
            .put(6, &self.most_worlds.to_le_bytes());
        let mut records = vec![heading];
        records.extend(self.families.iter().map(|family| {
            Record::new(2)
                .put(0, &[family.number])
                .option(1, family.scope)
                .option(2, family.complete)
        }));
        records.extend(self.booleans.iter().map(|boolean| {
            Record::new(3)
                .put(0, &[boolean.fact])
                .option(1, boolean.unknown)
                .pairs(2, &boolean.observations)
        }));
        records.extend(self.relations.iter().map(|relation| {
            Record::new(4)
                .put(0, &[relation.fact])
                .put(1, &[relation.value])
                .put(2, &[relation.evidence])
        }));
        records.extend(self.constraints.iter().map(|&node| Record::new(5).put(0, &[node])));
        records.into_iter().map(|record| record.bytes).collect()
    }

    pub fn encode(&self) -> Vec<u8> {
        self.records().concat()
    }

    pub fn decode(bytes: &[u8]) -> Option<Case> {
        let mut case = Case::default();
        let mut input = Input { bytes, at: 0 };
        while input.at < bytes.len() {
            case.take(&mut input)?;
        }
        Some(case)
    }

    fn take(&mut self, input: &mut Input) -> Option<()> {
        let (kind, bits) = (input.byte()?, input.byte()?);
        match kind {
            1 => {
                self.relation = input.byte()?;
                self.scope = input.option(bits, 1)?;
                self.segment = input.option(bits, 2)?;
                self.segment_complete = bits & 8 != 0;
                self.roster = input.mask()?;
                self.complete = input.option(bits, 5)?;
                self.most_worlds = u16::from_le_bytes([input.byte()?, input.byte()?]);
            }
            2 => self.families.push(Family {
                number: input.byte()?,
                scope: input.option(bits, 1)?,
                complete: input.option(bits, 2)?,
            }),
            3 => self.booleans.push(Boolean {
                fact: input.byte()?,
                unknown: input.option(bits, 1)?,
                observations: input.pairs(bits, 2)?,
            }),
            4 => self.relations.push(Relation {
                fact: input.byte()?,
                value: input.byte()?,
                evidence: input.byte()?,
            }),
            5 => self.constraints.push(input.byte()?),
            _ => return None,
        }
        Some(())
    }
}

impl Plan {
    /// Every number names a record, and a node only lower ones: what a
    /// translation needs so as not to go astray.
    pub fn is_closed(&self) -> bool {
        let node = |&number: &u8| (number as usize) < self.nodes.len();
        let fact = |number: u8| (number as usize) < self.facts.len();
        let nodes = self.nodes.iter().enumerate().all(|(number, node)| match node {
            Node::Literal(_) => true,
            Node::Fact(named) => fact(*named),
            Node::And(children) | Node::Or(children) => {
                children.iter().all(|&child| (child as usize) < number)
            }
            Node::Not(child) => (*child as usize) < number,
        });
        let edges = self
            .edges
            .iter()
            .all(|edge| node(&edge.condition) && edge.defeaters.iter().flatten().all(node));
        let cuts = self.cuts.iter().all(|cut| {
            node(&cut.condition)
                && cut
                    .decisions
                    .iter()
                    .flatten()
                    .all(|(edge, _)| (*edge as usize) < self.edges.len())
                && cut.precedes.iter().flatten().all(|&other| (other as usize) < self.cuts.len())
        });
        let attachments = self.attachments.iter().map(|rule| &rule.condition);
        let bars = self.bars.iter().map(|rule| &rule.condition);
        let statuses = self.statuses.iter().map(|rule| &rule.condition);
        nodes && edges && cuts && attachments.chain(bars).chain(statuses).all(node)
    }
}

impl Case {
    pub fn is_closed(&self, plan: &Plan) -> bool {
        let fact = |number: u8| (number as usize) < plan.facts.len();
        self.booleans.iter().all(|record| fact(record.fact))
            && self.relations.iter().all(|record| fact(record.fact))
            && self.constraints.iter().all(|&node| (node as usize) < plan.nodes.len())
    }
}

/// Bytes and a position; a field whose bit does not stand is none.
struct Input<'a> {
    bytes: &'a [u8],
    at: usize,
}

impl Input<'_> {
    fn byte(&mut self) -> Option<u8> {
        let byte = *self.bytes.get(self.at)?;
        self.at += 1;
        Some(byte)
    }

    fn option(&mut self, bits: u8, bit: u8) -> Option<Option<u8>> {
        Some(if bits >> bit & 1 == 1 { Some(self.byte()?) } else { None })
    }

    fn mask(&mut self) -> Option<u64> {
        (0..8).try_fold(0u64, |mask, at| Some(mask | u64::from(self.byte()?) << (8 * at)))
    }

    fn list(&mut self) -> Option<Vec<u8>> {
        let count = self.byte()?;
        (0..count).map(|_| self.byte()).collect()
    }

    fn optional_list(&mut self, bits: u8, bit: u8) -> Option<List<u8>> {
        Some(if bits >> bit & 1 == 1 { Some(self.list()?) } else { None })
    }

    fn pairs(&mut self, bits: u8, bit: u8) -> Option<List<(u8, u8)>> {
        if bits >> bit & 1 == 0 {
            return Some(None);
        }
        let count = self.byte()?;
        let pairs = (0..count).map(|_| Some((self.byte()?, self.byte()?)));
        pairs.collect::<Option<Vec<_>>>().map(Some)
    }

    fn election(&mut self, bits: u8, bit: u8) -> Option<Option<Election>> {
        if bits >> bit & 1 == 0 {
            return Some(None);
        }
        Some(Some(Election {
            fact: self.byte()?,
            actor: self.byte()?,
            policy: self.byte()?,
            citation: self.byte()?,
        }))
    }
}
