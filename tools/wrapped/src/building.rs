//! Random plans and cases by way of the builders, with numbers out of range and past limits among them.

use inputs::random::Random;
use lukhveri::{
    Actor, Attachment, AttachmentId, Bar, BarId, BooleanId, BuildError, Case, CaseBuilder,
    Citation, Cut, CutId, Decision, Edge, EdgeId, Election, Family, Frame, Node, NodeId, Paper,
    Persons, Plan, PlanBuilder, Policy, Precedence, RelationId, RuleId, Status, StatusId,
};

/// What a random maker has got so far, and how often it was turned away.
pub struct Maker<'a> {
    random: &'a mut Random,
    plan: PlanBuilder,
    /// Persons below this number are named.
    persons: usize,
    /// About so many of each thing.
    size: usize,
    booleans: Vec<BooleanId>,
    relations: Vec<RelationId>,
    nodes: Vec<NodeId>,
    edges: Vec<EdgeId>,
    cuts: Vec<CutId>,
    attachments: Vec<AttachmentId>,
    bars: Vec<BarId>,
    statuses: Vec<StatusId>,
    pub turned_away: u64,
}

impl<'a> Maker<'a> {
    pub fn new(random: &'a mut Random) -> Maker<'a> {
        let plan = PlanBuilder::new(random.byte(256));
        let (persons, size) = (random.between(1, 64), random.pick(&[2, 4, 4, 8, 8, 20, 70]));
        Maker {
            random,
            plan,
            persons,
            size,
            booleans: Vec::new(),
            relations: Vec::new(),
            nodes: Vec::new(),
            edges: Vec::new(),
            cuts: Vec::new(),
            attachments: Vec::new(),
            bars: Vec::new(),
            statuses: Vec::new(),
            turned_away: 0,
        }
    }

    /// What was given, if it was; a builder may turn anything away.
    fn given<T>(&mut self, result: Result<T, BuildError>) -> Option<T> {
        self.turned_away += u64::from(result.is_err());
        result.ok()
    }

    /// One in a hundred is out of range.
    fn below(&mut self, bound: usize) -> u8 {
        let all = if self.random.percent(1) { 256 } else { bound };
        self.random.byte(all)
    }

    fn person(&mut self) -> u8 {
        self.below(self.persons)
    }

    fn citation(&mut self) -> Citation {
        Citation(self.below(64))
    }

    fn paper(&mut self) -> Paper {
        Paper(self.below(64))
    }

    fn members(&mut self) -> Persons {
        let count = self.random.below(self.persons.min(5));
        let numbers: Vec<u8> = (0..count).map(|_| self.random.byte(self.persons)).collect();
        Persons::of(&numbers).unwrap_or(Persons::NOBODY)
    }

    fn node(&mut self) -> Option<NodeId> {
        (!self.nodes.is_empty()).then(|| self.random.pick(&self.nodes))
    }

    fn some_nodes(&mut self, most: usize) -> Vec<NodeId> {
        let count = self.random.below(most + 1);
        (0..count).filter_map(|_| self.node()).collect()
    }

    fn add_fact(&mut self) {
        if self.random.percent(50) {
            let fact = self.plan.boolean();
            let fact = self.given(fact);
            self.booleans.extend(fact);
        } else {
            let count = self.random.below(5);
            let tuple: Vec<u8> = (0..count).map(|_| self.person()).collect();
            let family = self.random.byte(4);
            let fact = self.plan.relation(family, &tuple);
            let fact = self.given(fact);
            self.relations.extend(fact);
        }
    }

    fn add_node(&mut self) {
        let children = self.some_nodes(4);
        let node = match (self.random.below(6), children.first()) {
            (0, _) => self.plan.literal(self.random.percent(50)),
            (1, _) if !self.booleans.is_empty() => {
                self.plan.holds(self.random.pick(&self.booleans))
            }
            (2, _) if !self.relations.is_empty() => {
                self.plan.holds(self.random.pick(&self.relations))
            }
            (3, Some(&child)) => self.plan.not(child),
            (4, _) => self.plan.and(&children),
            _ => self.plan.or(&children),
        };
        let node = self.given(node);
        self.nodes.extend(node);
    }

    fn add_edge(&mut self) -> Option<()> {
        let (left, right, citation) = (self.person(), self.person(), self.citation());
        let mut edge = Edge::base(left, right, self.node()?, citation);
        edge.combination = self.random.percent(50);
        edge.defeaters = self.some_nodes(2);
        let edge = self.plan.edge(edge);
        let edge = self.given(edge);
        self.edges.extend(edge);
        Some(())
    }

    fn election(&mut self) -> Option<Election> {
        if self.booleans.is_empty() || self.random.percent(40) {
            return None;
        }
        let fact = self.random.pick(&self.booleans);
        let policy =
            self.random.pick(&[Policy::Unknown, Policy::DefaultFalse, Policy::DefaultTrue]);
        let actor = Actor(self.random.byte(3));
        Some(Election { fact, actor, policy, citation: Citation(1) })
    }

    fn add_cut(&mut self) -> Option<()> {
        let (members, citation) = (self.members(), self.citation());
        let mut cut = Cut::new(members, self.node()?, citation);
        cut.election = self.election();
        if !self.edges.is_empty() && self.random.percent(30) {
            let edge = self.random.pick(&self.edges);
            cut = cut.deciding(edge, self.decision());
        }
        if !self.cuts.is_empty() && self.random.percent(30) {
            cut = cut.preceding(self.random.pick(&self.cuts));
        }
        let cut = self.plan.cut(cut);
        let cut = self.given(cut);
        self.cuts.extend(cut);
        Some(())
    }

    fn decision(&mut self) -> Decision {
        self.random.pick(&[Decision::Blocked, Decision::Overrides, Decision::Unresolved])
    }

    fn add_attachment(&mut self) -> Option<()> {
        let (members, anchor, citation) = (self.members(), self.person(), self.citation());
        let mut rule = Attachment::new(members, anchor, self.node()?, citation, Actor(1));
        rule.actor = Actor(self.random.byte(256));
        rule.election = self.election();
        let added = self.plan.attachment(rule);
        let added = self.given(added);
        self.attachments.extend(added);
        Some(())
    }

    fn add_bar(&mut self) -> Option<()> {
        let bar = Bar::new(self.members(), self.node()?, self.citation());
        let added = self.plan.bar(bar);
        let added = self.given(added);
        self.bars.extend(added);
        Some(())
    }

    fn add_status(&mut self) -> Option<()> {
        let (person, citation) = (self.person(), self.citation());
        let status = Status::new(person, self.node()?, citation);
        let added = self.plan.status(status);
        let added = self.given(added);
        self.statuses.extend(added);
        Some(())
    }

    /// Whatever comes, in any order.
    fn add(&mut self) {
        match self.random.below(12) {
            0 | 1 => self.add_fact(),
            2..=4 => self.add_node(),
            5 | 6 => drop(self.add_edge()),
            7 => drop(self.add_cut()),
            8 => drop(self.add_attachment()),
            9 => drop(self.add_bar()),
            10 => drop(self.add_status()),
            _ if self.cuts.is_empty() => {}
            _ => {
                let (cut, other) = (self.random.pick(&self.cuts), self.random.pick(&self.cuts));
                let said = self.plan.precede(Precedence { cut, precedes: other });
                self.given(said);
            }
        }
    }

    /// Decides what crosses; where no more unresolved ones may be, blocked.
    fn decide_all(&mut self) {
        let open: Vec<(CutId, EdgeId)> = self.plan.undecided().collect();
        for (cut, edge) in open {
            let decision = self.decision();
            let said = self.plan.decide(cut, edge, decision);
            if self.given(said).is_none() {
                let said = self.plan.decide(cut, edge, Decision::Blocked);
                self.given(said);
            }
        }
    }

    /// A plan that the builder finished. Undecided crossings are turned away first.
    pub fn plan(&mut self) -> Result<Plan, BuildError> {
        for _ in 0..12 * self.random.between(1, self.size) {
            self.add();
        }
        if self.random.percent(30) {
            let citation = self.citation();
            let said = self.plan.base_chain(citation);
            self.given(said);
        }
        let finished = self.plan.finish();
        if let Some(plan) = self.given(finished) {
            return Ok(plan);
        }
        self.decide_all();
        self.plan.finish()
    }

    /// The plan opened again, with random rules, nodes, decisions and persons changed or taken out.
    pub fn changed(&mut self, plan: &Plan) -> Result<Plan, BuildError> {
        self.plan = PlanBuilder::reopen(plan);
        for _ in 0..self.random.between(1, 12) {
            self.change();
        }
        if self.random.percent(30) {
            self.plan.remove_unused();
        }
        self.decide_all();
        self.plan.finish()
    }

    fn change(&mut self) {
        let done = match self.random.below(8) {
            0 => self.remove_rule(),
            1 => self.plan.remove_person(self.random.byte(64)).map(drop),
            2 => self.replace_node(),
            3 => self.replace_edge(),
            4 => self.replace_cut(),
            5 => self.redecide(),
            6 => self.remove_node(),
            _ => {
                self.add();
                Ok(())
            }
        };
        self.given(done);
    }

    fn remove_rule(&mut self) -> Result<(), BuildError> {
        let edges = self.edges.iter().map(|edge| RuleId::Edge(*edge));
        let cuts = self.cuts.iter().map(|cut| RuleId::Cut(*cut));
        let rules = self.attachments.iter().map(|rule| RuleId::Attachment(*rule));
        let bars = self.bars.iter().map(|bar| RuleId::Bar(*bar));
        let statuses = self.statuses.iter().map(|status| RuleId::Status(*status));
        let all: Vec<RuleId> = edges.chain(cuts).chain(rules).chain(bars).chain(statuses).collect();
        if all.is_empty() { Ok(()) } else { self.plan.remove_rule(self.random.pick(&all)) }
    }

    fn replace_node(&mut self) -> Result<(), BuildError> {
        let (node, children) = (self.node(), self.some_nodes(3));
        let changed =
            if self.random.percent(50) { Node::And(children) } else { Node::Or(children) };
        node.map_or(Ok(()), |node| self.plan.replace_node(node, changed))
    }

    fn remove_node(&mut self) -> Result<(), BuildError> {
        self.node().map_or(Ok(()), |node| self.plan.remove_node(node))
    }

    fn replace_edge(&mut self) -> Result<(), BuildError> {
        let (left, right, citation) = (self.person(), self.person(), self.citation());
        let Some(node) = self.node().filter(|_| !self.edges.is_empty()) else {
            return Ok(());
        };
        let edge = Edge::combination(left, right, node, citation);
        self.plan.replace_edge(self.random.pick(&self.edges), edge)
    }

    fn replace_cut(&mut self) -> Result<(), BuildError> {
        let (members, citation, election) = (self.members(), self.citation(), self.election());
        let Some(node) = self.node().filter(|_| !self.cuts.is_empty()) else {
            return Ok(());
        };
        let mut cut = Cut::new(members, node, citation);
        cut.election = election;
        self.plan.replace_cut(self.random.pick(&self.cuts), cut)
    }

    fn redecide(&mut self) -> Result<(), BuildError> {
        if self.cuts.is_empty() || self.edges.is_empty() {
            return Ok(());
        }
        let (cut, edge) = (self.random.pick(&self.cuts), self.random.pick(&self.edges));
        let decision = self.decision();
        self.plan.redecide(cut, edge, decision)
    }

    /// A case of the plan that the builder finished, if its relations had their families.
    pub fn case(&mut self, plan: &Plan) -> Option<Case> {
        let all: Vec<u8> = (0..64).collect();
        let roster = Persons::of(&all).ok()?;
        let few = [1, 1, 1, 1, 2, 3, 255, 0];
        let (scope, segment) = (self.random.pick(&few), self.random.pick(&few));
        let made = CaseBuilder::new(plan, Frame { scope, segment }, roster);
        let mut case = self.given(made)?;
        let paper = self.paper();
        let said = case.roster_complete(paper);
        self.given(said);
        for family in 0..4 {
            let scope = self.random.pick(&[scope, scope, 0, 1]);
            let family = Family::new(family).scope(scope);
            let family = if self.random.percent(50) { family.complete(Paper(2)) } else { family };
            if self.random.percent(97) {
                let said = case.family(family);
                self.given(said);
            }
        }
        self.tell(&mut case);
        let finished = case.finish();
        self.given(finished)
    }

    fn tell(&mut self, case: &mut CaseBuilder) {
        for _ in 0..self.booleans.len() * 2 {
            let (fact, value) = (self.random.pick(&self.booleans), self.random.percent(50));
            let paper = Paper(self.random.byte(4));
            let said = match self.random.below(4) {
                0 => case.unknown(fact, paper),
                _ => case.observe(fact, value, paper),
            };
            self.given(said);
        }
        for _ in 0..self.relations.len() {
            let (fact, value) = (self.random.pick(&self.relations), self.random.percent(50));
            let paper = self.paper();
            let said = case.relate(fact, value, paper);
            self.given(said);
        }
        if let Some(node) = self.node().filter(|_| self.random.percent(20)) {
            let said = case.constrain(node);
            self.given(said);
        }
    }
}
