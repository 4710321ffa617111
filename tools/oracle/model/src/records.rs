//! Plan and case records: bytes to values, and the refusals 1 to 7.

/// A refusal's number and record.
#[derive(Clone, Copy, Debug, PartialEq, Eq)]
pub struct Refusal {
    pub number: u8,
    pub record: usize,
}

fn refuse<T>(number: u8, record: usize) -> Result<T, Refusal> {
    Err(Refusal { number, record })
}

#[derive(Clone, Debug, Default)]
pub struct Fact {
    /// Family and tuple; none for a boolean fact.
    pub relation: Option<(u8, Vec<u8>)>,
}

#[derive(Clone, Debug)]
pub enum Node {
    Literal(bool),
    Fact(u8),
    And(Vec<u8>),
    Or(Vec<u8>),
    Not(u8),
}

#[derive(Clone, Debug, Default)]
pub struct Edge {
    pub left: u8,
    pub right: u8,
    pub condition: u8,
    pub citation: u8,
    pub defeaters: Vec<u8>,
    pub combination: bool,
}

#[derive(Clone, Copy, Debug, Default, PartialEq, Eq)]
pub struct Election {
    pub fact: u8,
    pub actor: u8,
    pub policy: u8,
    pub citation: u8,
}

#[derive(Clone, Copy, Debug, PartialEq, Eq)]
pub enum Decision {
    Blocked,
    Overrides,
    Unresolved,
}

#[derive(Clone, Debug, Default)]
pub struct Cut {
    pub members: u64,
    pub condition: u8,
    pub citation: u8,
    pub election: Option<Election>,
    pub decisions: Vec<(u8, Decision)>,
    pub precedes: Vec<u8>,
}

#[derive(Clone, Debug, Default)]
pub struct Attachment {
    pub members: u64,
    pub anchor: u8,
    pub condition: u8,
    pub citation: u8,
    pub actor: u8,
    pub election: Option<Election>,
}

#[derive(Clone, Debug, Default)]
pub struct Bar {
    pub members: u64,
    pub condition: u8,
    pub citation: u8,
}

#[derive(Clone, Debug, Default)]
pub struct Status {
    pub person: u8,
    pub condition: u8,
    pub citation: u8,
}

#[derive(Clone, Debug, Default)]
pub struct Plan {
    pub relation: u8,
    pub chain: Option<u8>,
    pub facts: Vec<Fact>,
    pub nodes: Vec<Node>,
    pub edges: Vec<Edge>,
    pub cuts: Vec<Cut>,
    pub attachments: Vec<Attachment>,
    pub bars: Vec<Bar>,
    pub statuses: Vec<Status>,
}

#[derive(Clone, Debug, Default)]
pub struct Heading {
    pub relation: u8,
    /// 0 is empty.
    pub scope: u8,
    pub segment: u8,
    pub segment_complete: bool,
    pub roster: u64,
    pub complete: bool,
    pub most_worlds: u16,
}

#[derive(Clone, Debug, Default)]
pub struct Family {
    pub number: u8,
    pub scope: u8,
    pub complete: bool,
}

#[derive(Clone, Debug, Default)]
pub struct Boolean {
    pub fact: u8,
    pub unknown: Option<u8>,
    pub observations: Vec<(bool, u8)>,
}

#[derive(Clone, Debug, Default)]
pub struct Relation {
    pub fact: u8,
    pub value: bool,
    pub evidence: u8,
}

#[derive(Clone, Debug, Default)]
pub struct Case {
    pub heading: Heading,
    pub families: Vec<Family>,
    pub booleans: Vec<Boolean>,
    pub relations: Vec<Relation>,
    pub constraints: Vec<u8>,
}

/// The highest numbers of persons, citations and pieces of evidence.
pub const MOST_PERSON: u8 = 63;
pub const MOST_CITATION: u8 = 63;
const MOST_EVIDENCE: u8 = 63;

/// The bytes not yet read. Every reading answers None where refusal 1 stands.
struct Reader<'a> {
    rest: &'a [u8],
}

impl Reader<'_> {
    fn byte(&mut self) -> Option<u8> {
        let (&first, rest) = self.rest.split_first()?;
        self.rest = rest;
        Some(first)
    }

    fn within(&mut self, low: u8, high: u8) -> Option<u8> {
        self.byte().filter(|byte| (low..=high).contains(byte))
    }

    fn person(&mut self) -> Option<u8> {
        self.within(0, MOST_PERSON)
    }

    fn citation(&mut self) -> Option<u8> {
        self.within(0, MOST_CITATION)
    }

    fn evidence(&mut self) -> Option<u8> {
        self.within(0, MOST_EVIDENCE)
    }

    fn truth(&mut self) -> Option<bool> {
        self.within(0, 1).map(|byte| byte == 1)
    }

    fn mask(&mut self) -> Option<u64> {
        let (first, rest) = self.rest.split_first_chunk::<8>()?;
        self.rest = rest;
        Some(u64::from_le_bytes(*first))
    }

    fn two(&mut self) -> Option<u16> {
        let (first, rest) = self.rest.split_first_chunk::<2>()?;
        self.rest = rest;
        Some(u16::from_le_bytes(*first))
    }

    fn list<T>(
        &mut self,
        most: u8,
        mut entry: impl FnMut(&mut Self) -> Option<T>,
    ) -> Option<Vec<T>> {
        let count = self.within(0, most)?;
        (0..count).map(|_| entry(self)).collect()
    }

    fn election(&mut self) -> Option<Election> {
        Some(Election {
            fact: self.byte()?,
            actor: self.within(1, 255)?,
            policy: self.within(0, 2)?,
            citation: self.citation()?,
        })
    }

    fn decision(&mut self) -> Option<(u8, Decision)> {
        let edge = self.byte()?;
        let decision = match self.within(1, 3)? {
            1 => Decision::Blocked,
            2 => Decision::Overrides,
            _ => Decision::Unresolved,
        };
        Some((edge, decision))
    }

    /// Kind and bit map, once the kind is known, not below the last one, and
    /// every bit listed.
    fn front(&mut self, last: u8, listed: &[u8]) -> Option<(u8, u8)> {
        let kind = self.within(last.max(1), listed.len() as u8)?;
        let bits = self.byte()?;
        (bits & !listed[kind as usize - 1] == 0).then_some((kind, bits))
    }
}

fn has(bits: u8, bit: u8) -> bool {
    bits >> bit & 1 == 1
}

/// A field that is read only if its bit stands; a missing one keeps the
/// type's empty value, and refusal 3 has the last word on it.
macro_rules! field {
    ($bits:expr, $bit:expr, $read:expr) => {
        if has($bits, $bit) { $read? } else { Default::default() }
    };
}

macro_rules! optional {
    ($bits:expr, $bit:expr, $read:expr) => {
        if has($bits, $bit) { Some($read?) } else { None }
    };
}

enum PlanRecord {
    Heading(u8, Option<u8>),
    Fact(Fact),
    Node(Node),
    Edge(Edge),
    Cut(Cut),
    Attachment(Attachment),
    Bar(Bar),
    Status(Status),
}

const PLAN_LISTED: [u8; 8] = [0x03, 0x03, 0x1f, 0x3f, 0x3f, 0x3f, 0x07, 0x07];
const PLAN_REQUIRED: [u8; 8] = [0x01, 0x00, 0x00, 0x0f, 0x07, 0x1f, 0x07, 0x07];
pub const MOST_EDGES: usize = 64;
pub const MOST_STATUSES: usize = 32;
const PLAN_LIMITS: [usize; 8] = [1, 64, 256, MOST_EDGES, 16, 32, 32, MOST_STATUSES];
const MOST_UNRESOLVED: usize = 16;

fn read_fact(reader: &mut Reader, bits: u8) -> Option<Fact> {
    let family = optional!(bits, 0, reader.byte());
    let tuple = optional!(bits, 1, reader.list(4, Reader::person));
    Some(Fact { relation: family.zip(tuple) })
}

/// Reads every field whose bit stands and keeps the last: a node of several
/// bits is refused afterwards.
fn read_node(reader: &mut Reader, bits: u8) -> Option<Node> {
    let mut node = Node::Literal(false);
    if has(bits, 0) {
        node = Node::Literal(reader.truth()?);
    }
    if has(bits, 1) {
        node = Node::Fact(reader.byte()?);
    }
    if has(bits, 2) {
        node = Node::And(reader.list(16, Reader::byte)?);
    }
    if has(bits, 3) {
        node = Node::Or(reader.list(16, Reader::byte)?);
    }
    if has(bits, 4) {
        node = Node::Not(reader.byte()?);
    }
    Some(node)
}

fn read_edge(reader: &mut Reader, bits: u8) -> Option<Edge> {
    Some(Edge {
        left: field!(bits, 0, reader.person()),
        right: field!(bits, 1, reader.person()),
        condition: field!(bits, 2, reader.byte()),
        citation: field!(bits, 3, reader.citation()),
        defeaters: field!(bits, 4, reader.list(16, Reader::byte)),
        combination: has(bits, 5),
    })
}

fn read_cut(reader: &mut Reader, bits: u8) -> Option<Cut> {
    Some(Cut {
        members: field!(bits, 0, reader.mask()),
        condition: field!(bits, 1, reader.byte()),
        citation: field!(bits, 2, reader.citation()),
        election: optional!(bits, 3, reader.election()),
        decisions: field!(bits, 4, reader.list(64, Reader::decision)),
        precedes: field!(bits, 5, reader.list(16, Reader::byte)),
    })
}

fn read_attachment(reader: &mut Reader, bits: u8) -> Option<Attachment> {
    Some(Attachment {
        members: field!(bits, 0, reader.mask()),
        anchor: field!(bits, 1, reader.person()),
        condition: field!(bits, 2, reader.byte()),
        citation: field!(bits, 3, reader.citation()),
        actor: field!(bits, 4, reader.within(1, 255)),
        election: optional!(bits, 5, reader.election()),
    })
}

fn read_bar(reader: &mut Reader, bits: u8) -> Option<Bar> {
    Some(Bar {
        members: field!(bits, 0, reader.mask()),
        condition: field!(bits, 1, reader.byte()),
        citation: field!(bits, 2, reader.citation()),
    })
}

fn read_status(reader: &mut Reader, bits: u8) -> Option<Status> {
    Some(Status {
        person: field!(bits, 0, reader.person()),
        condition: field!(bits, 1, reader.byte()),
        citation: field!(bits, 2, reader.citation()),
    })
}

fn read_plan_record(reader: &mut Reader, last: u8) -> Option<(u8, u8, PlanRecord)> {
    let (kind, bits) = reader.front(last, &PLAN_LISTED)?;
    let record = match kind {
        1 => {
            let relation = field!(bits, 0, reader.byte());
            PlanRecord::Heading(relation, optional!(bits, 1, reader.citation()))
        }
        2 => PlanRecord::Fact(read_fact(reader, bits)?),
        3 => PlanRecord::Node(read_node(reader, bits)?),
        4 => PlanRecord::Edge(read_edge(reader, bits)?),
        5 => PlanRecord::Cut(read_cut(reader, bits)?),
        6 => PlanRecord::Attachment(read_attachment(reader, bits)?),
        7 => PlanRecord::Bar(read_bar(reader, bits)?),
        _ => PlanRecord::Status(read_status(reader, bits)?),
    };
    Some((kind, bits, record))
}

fn plan_bits_stand(kind: u8, bits: u8) -> bool {
    match kind {
        2 => bits == 0 || bits == 3,
        3 => bits.count_ones() == 1,
        _ => bits & PLAN_REQUIRED[kind as usize - 1] == PLAN_REQUIRED[kind as usize - 1],
    }
}

fn unresolved_in(cut: &Cut) -> usize {
    cut.decisions.iter().filter(|(_, decision)| *decision == Decision::Unresolved).count()
}

fn decides_twice(cut: &Cut) -> bool {
    let mut seen = [false; 256];
    cut.decisions.iter().any(|&(edge, _)| std::mem::replace(&mut seen[edge as usize], true))
}

/// A boolean fact may follow only booleans; a relation must rise.
fn fact_follows(before: Option<&Fact>, fact: &Fact) -> bool {
    match before {
        None => true,
        Some(before) => match (&before.relation, &fact.relation) {
            (None, _) => true,
            (Some(_), None) => false,
            (Some(before), Some(fact)) => before < fact,
        },
    }
}

impl Plan {
    /// Reads and checks a plan: refusals 1, 2, 3, 5 record by record, then 4, 6, 7.
    pub fn read(bytes: &[u8]) -> Result<Plan, Refusal> {
        let plan = Plan::read_records(bytes)?;
        plan.check_numbers()?;
        plan.check_crossings()?;
        plan.check_elections()?;
        Ok(plan)
    }

    fn read_records(bytes: &[u8]) -> Result<Plan, Refusal> {
        let mut plan = Plan::default();
        let mut reader = Reader { rest: bytes };
        let (mut last, mut count, mut unresolved, mut number) = (0, 0, 0, 0);
        while !reader.rest.is_empty() {
            let Some((kind, bits, record)) = read_plan_record(&mut reader, last) else {
                return refuse(1, number);
            };
            count = if kind == last { count + 1 } else { 1 };
            if let PlanRecord::Cut(cut) = &record {
                unresolved += unresolved_in(cut);
            }
            if count > PLAN_LIMITS[kind as usize - 1] || unresolved > MOST_UNRESOLVED {
                return refuse(2, number);
            }
            if !plan_bits_stand(kind, bits) || (number == 0 && kind != 1) {
                return refuse(3, number);
            }
            if !plan.add(record) {
                return refuse(5, number);
            }
            last = kind;
            number += 1;
        }
        if number == 0 { refuse(3, 0) } else { Ok(plan) }
    }

    /// Takes a record in; false where refusal 5 stands.
    fn add(&mut self, record: PlanRecord) -> bool {
        match record {
            PlanRecord::Heading(relation, chain) => {
                self.relation = relation;
                self.chain = chain;
            }
            PlanRecord::Fact(fact) => {
                if !fact_follows(self.facts.last(), &fact) {
                    return false;
                }
                self.facts.push(fact);
            }
            PlanRecord::Node(node) => self.nodes.push(node),
            PlanRecord::Edge(edge) => self.edges.push(edge),
            PlanRecord::Cut(cut) => {
                if decides_twice(&cut) {
                    return false;
                }
                self.cuts.push(cut);
            }
            PlanRecord::Attachment(attachment) => self.attachments.push(attachment),
            PlanRecord::Bar(bar) => self.bars.push(bar),
            PlanRecord::Status(status) => self.statuses.push(status),
        }
        true
    }

    /// Kinds never fall, so each kind's records follow one another.
    fn first_node(&self) -> usize {
        1 + self.facts.len()
    }

    fn first_edge(&self) -> usize {
        self.first_node() + self.nodes.len()
    }

    fn first_cut(&self) -> usize {
        self.first_edge() + self.edges.len()
    }

    fn first_attachment(&self) -> usize {
        self.first_cut() + self.cuts.len()
    }

    fn first_bar(&self) -> usize {
        self.first_attachment() + self.attachments.len()
    }

    fn first_status(&self) -> usize {
        self.first_bar() + self.bars.len()
    }

    pub fn is_boolean(&self, fact: u8) -> bool {
        self.facts.get(fact as usize).is_some_and(|fact| fact.relation.is_none())
    }

    fn is_node(&self, node: u8) -> bool {
        (node as usize) < self.nodes.len()
    }

    fn node_names(&self, number: usize, node: &Node) -> bool {
        let lower = |&child: &u8| (child as usize) < number;
        match node {
            Node::Literal(_) => true,
            Node::Fact(fact) => (*fact as usize) < self.facts.len(),
            Node::And(children) | Node::Or(children) => children.iter().all(lower),
            Node::Not(child) => lower(child),
        }
    }

    fn cut_names(&self, cut: &Cut) -> bool {
        self.is_node(cut.condition)
            && cut.election.is_none_or(|election| self.is_boolean(election.fact))
            && cut.decisions.iter().all(|&(edge, _)| (edge as usize) < self.edges.len())
            && cut.precedes.iter().all(|&other| (other as usize) < self.cuts.len())
    }

    fn attachment_names(&self, rule: &Attachment) -> bool {
        self.is_node(rule.condition)
            && rule.election.is_none_or(|election| self.is_boolean(election.fact))
    }

    /// Refusal 4: the first record with a number that names nothing.
    fn check_numbers(&self) -> Result<(), Refusal> {
        fn each<T>(
            rules: &[T],
            first: usize,
            holds: impl Fn(usize, &T) -> bool,
        ) -> Result<(), Refusal> {
            match rules.iter().enumerate().position(|(number, rule)| !holds(number, rule)) {
                Some(number) => refuse(4, first + number),
                None => Ok(()),
            }
        }
        each(&self.nodes, self.first_node(), |number, node| self.node_names(number, node))?;
        each(&self.edges, self.first_edge(), |_, edge| {
            self.is_node(edge.condition) && edge.defeaters.iter().all(|&node| self.is_node(node))
        })?;
        each(&self.cuts, self.first_cut(), |_, cut| self.cut_names(cut))?;
        each(&self.attachments, self.first_attachment(), |_, rule| self.attachment_names(rule))?;
        each(&self.bars, self.first_bar(), |_, bar| self.is_node(bar.condition))?;
        each(&self.statuses, self.first_status(), |_, status| self.is_node(status.condition))
    }

    /// Refusal 6: the first cut, then edge, that cross without a decision.
    fn check_crossings(&self) -> Result<(), Refusal> {
        for (number, cut) in self.cuts.iter().enumerate() {
            for (edge_number, edge) in self.edges.iter().enumerate() {
                let decided =
                    || cut.decisions.iter().any(|&(edge, _)| edge as usize == edge_number);
                if edge.combination && edge.crosses(cut.members) && !decided() {
                    return refuse(6, self.first_cut() + number);
                }
            }
        }
        Ok(())
    }

    /// Elections in order of their records, cuts before attachments.
    fn elections(&self) -> impl Iterator<Item = (usize, Election)> {
        let cuts = self.cuts.iter().enumerate();
        let attachments = self.attachments.iter().enumerate();
        let (first_cut, first_attachment) = (self.first_cut(), self.first_attachment());
        cuts.filter_map(move |(number, cut)| cut.election.map(|e| (first_cut + number, e))).chain(
            attachments.filter_map(move |(number, rule)| {
                rule.election.map(|e| (first_attachment + number, e))
            }),
        )
    }

    /// The election that speaks for a fact: all are equal once 7 is past.
    pub fn election_on(&self, fact: usize) -> Option<Election> {
        self.elections()
            .map(|(_, election)| election)
            .find(|election| election.fact as usize == fact)
    }

    /// Refusal 7: names the later of two unequal elections on one fact.
    fn check_elections(&self) -> Result<(), Refusal> {
        for (record, election) in self.elections() {
            if self.election_on(election.fact as usize) != Some(election) {
                return refuse(7, record);
            }
        }
        Ok(())
    }

    /// Every person a rule names.
    pub fn rule_persons(&self) -> u64 {
        let edges = self.edges.iter().map(Edge::ends);
        let cuts = self.cuts.iter().map(|cut| cut.members);
        let attachments = self.attachments.iter().map(Attachment::persons);
        let bars = self.bars.iter().map(|bar| bar.members);
        let statuses = self.statuses.iter().map(|status| one(status.person));
        edges
            .chain(cuts)
            .chain(attachments)
            .chain(bars)
            .chain(statuses)
            .fold(0, |all, set| all | set)
    }
}

/// The set of one person.
pub fn one(person: u8) -> u64 {
    1 << person
}

pub fn holds(set: u64, person: u8) -> bool {
    set >> person & 1 == 1
}

impl Edge {
    pub fn ends(&self) -> u64 {
        one(self.left) | one(self.right)
    }

    pub fn crosses(&self, set: u64) -> bool {
        holds(set, self.left) != holds(set, self.right)
    }
}

impl Attachment {
    pub fn persons(&self) -> u64 {
        self.members | one(self.anchor)
    }
}

enum CaseRecord {
    Heading(Heading),
    Family(Family),
    Boolean(Boolean),
    Relation(Relation),
    Constraint(u8),
}

const CASE_LISTED: [u8; 5] = [0x7f, 0x07, 0x07, 0x07, 0x01];
const CASE_REQUIRED: [u8; 5] = [0x51, 0x01, 0x01, 0x07, 0x01];
const CASE_LIMITS: [usize; 5] = [1, 16, 64, 256, 16];
const MOST_WORLDS: u16 = 4096;

fn read_heading(reader: &mut Reader, bits: u8) -> Option<Heading> {
    Some(Heading {
        relation: field!(bits, 0, reader.byte()),
        scope: field!(bits, 1, reader.byte()),
        segment: field!(bits, 2, reader.byte()),
        segment_complete: has(bits, 3),
        roster: field!(bits, 4, reader.mask()),
        complete: optional!(bits, 5, reader.evidence()).is_some(),
        most_worlds: field!(bits, 6, reader.two().filter(|&most| most <= MOST_WORLDS)),
    })
}

fn read_family(reader: &mut Reader, bits: u8) -> Option<Family> {
    Some(Family {
        number: field!(bits, 0, reader.byte()),
        scope: field!(bits, 1, reader.byte()),
        complete: optional!(bits, 2, reader.evidence()).is_some(),
    })
}

fn read_boolean(reader: &mut Reader, bits: u8) -> Option<Boolean> {
    let pair = |reader: &mut Reader| Some((reader.truth()?, reader.evidence()?));
    Some(Boolean {
        fact: field!(bits, 0, reader.byte()),
        unknown: optional!(bits, 1, reader.evidence()),
        observations: field!(bits, 2, reader.list(16, pair)),
    })
}

fn read_relation(reader: &mut Reader, bits: u8) -> Option<Relation> {
    Some(Relation {
        fact: field!(bits, 0, reader.byte()),
        value: field!(bits, 1, reader.truth()),
        evidence: field!(bits, 2, reader.evidence()),
    })
}

fn read_case_record(reader: &mut Reader, last: u8) -> Option<(u8, u8, CaseRecord)> {
    let (kind, bits) = reader.front(last, &CASE_LISTED)?;
    let record = match kind {
        1 => CaseRecord::Heading(read_heading(reader, bits)?),
        2 => CaseRecord::Family(read_family(reader, bits)?),
        3 => CaseRecord::Boolean(read_boolean(reader, bits)?),
        4 => CaseRecord::Relation(read_relation(reader, bits)?),
        _ => CaseRecord::Constraint(field!(bits, 0, reader.byte())),
    };
    Some((kind, bits, record))
}

impl Case {
    /// Reads a case against its plan: refusals 1, 2, 3 record by record, then 4.
    pub fn read(bytes: &[u8], plan: &Plan) -> Result<Case, Refusal> {
        let case = Case::read_records(bytes)?;
        case.check_numbers(plan)?;
        Ok(case)
    }

    fn read_records(bytes: &[u8]) -> Result<Case, Refusal> {
        let mut case = Case::default();
        let mut reader = Reader { rest: bytes };
        let (mut last, mut count, mut number) = (0, 0, 0);
        while !reader.rest.is_empty() {
            let Some((kind, bits, record)) = read_case_record(&mut reader, last) else {
                return refuse(1, number);
            };
            count = if kind == last { count + 1 } else { 1 };
            let at = kind as usize - 1;
            if count > CASE_LIMITS[at] {
                return refuse(2, number);
            }
            if bits & CASE_REQUIRED[at] != CASE_REQUIRED[at] || (number == 0 && kind != 1) {
                return refuse(3, number);
            }
            case.add(record);
            last = kind;
            number += 1;
        }
        if number == 0 { refuse(3, 0) } else { Ok(case) }
    }

    fn add(&mut self, record: CaseRecord) {
        match record {
            CaseRecord::Heading(heading) => self.heading = heading,
            CaseRecord::Family(family) => self.families.push(family),
            CaseRecord::Boolean(boolean) => self.booleans.push(boolean),
            CaseRecord::Relation(relation) => self.relations.push(relation),
            CaseRecord::Constraint(node) => self.constraints.push(node),
        }
    }

    fn first_boolean(&self) -> usize {
        1 + self.families.len()
    }

    fn check_numbers(&self, plan: &Plan) -> Result<(), Refusal> {
        let first_relation = self.first_boolean() + self.booleans.len();
        let first_constraint = first_relation + self.relations.len();
        if let Some(at) = self.booleans.iter().position(|item| !plan.is_boolean(item.fact)) {
            return refuse(4, self.first_boolean() + at);
        }
        if let Some(at) = self.relations.iter().position(|item| !self.relation_named(plan, item)) {
            return refuse(4, first_relation + at);
        }
        if let Some(at) = self.constraints.iter().position(|&node| !plan.is_node(node)) {
            return refuse(4, first_constraint + at);
        }
        Ok(())
    }

    fn relation_named(&self, plan: &Plan, item: &Relation) -> bool {
        let fact = plan.facts.get(item.fact as usize);
        let relation = fact.and_then(|fact| fact.relation.as_ref());
        relation.is_some_and(|(family, _)| self.family(*family).is_some())
    }

    pub fn family(&self, number: u8) -> Option<&Family> {
        self.families.iter().find(|family| family.number == number)
    }

    /// Refusals 8 and 9.
    pub fn check_heading(&self, plan: &Plan) -> Result<(), Refusal> {
        let heading = &self.heading;
        if !heading.segment_complete {
            return refuse(8, 0);
        }
        if heading.relation != plan.relation
            || heading.scope == 0
            || heading.segment == 0
            || heading.roster == 0
            || plan.rule_persons() & !heading.roster != 0
        {
            return refuse(9, 0);
        }
        Ok(())
    }

    /// Refusals 5 and 10, asked of a complete roster only.
    pub fn check_repeats(&self) -> Result<(), Refusal> {
        let mut families = [false; 256];
        for (number, family) in self.families.iter().enumerate() {
            if std::mem::replace(&mut families[family.number as usize], true) {
                return refuse(5, 1 + number);
            }
        }
        let mut facts = [false; 256];
        for (number, boolean) in self.booleans.iter().enumerate() {
            if boolean.unknown.is_some() && !boolean.observations.is_empty() {
                return refuse(10, self.first_boolean() + number);
            }
            if std::mem::replace(&mut facts[boolean.fact as usize], true) {
                return refuse(5, self.first_boolean() + number);
            }
        }
        Ok(())
    }
}
