//! What the records of a plan say, as values.

use crate::handles::{BooleanId, CutId, EdgeId, FactId, NodeId};
use crate::numbers::{Actor, Citation};
use crate::persons::Persons;

/// A fact: a boolean one, or a relation of a family between up to four persons.
#[derive(Clone, Debug, PartialEq, Eq, PartialOrd, Ord)]
pub enum Fact {
    Boolean,
    Relation { family: u8, tuple: Vec<u8> },
}

/// A condition.
#[derive(Clone, Debug, PartialEq, Eq)]
pub enum Node {
    Literal(bool),
    Fact(FactId),
    /// True if there is nothing in it.
    And(Vec<NodeId>),
    /// False if there is nothing in it.
    Or(Vec<NodeId>),
    Not(NodeId),
}

impl Node {
    /// The nodes that it is made of.
    pub fn children(&self) -> &[NodeId] {
        match self {
            Node::Literal(_) | Node::Fact(_) => &[],
            Node::And(children) | Node::Or(children) => children,
            Node::Not(child) => std::slice::from_ref(child),
        }
    }
}

/// Two persons who belong together where the condition holds and no defeater does.
#[derive(Clone, Debug, PartialEq, Eq)]
pub struct Edge {
    pub left: u8,
    pub right: u8,
    pub condition: NodeId,
    pub citation: Citation,
    pub defeaters: Vec<NodeId>,
    /// A Combination edge; else a Base edge.
    pub combination: bool,
}

impl Edge {
    /// A Base edge without defeaters.
    pub fn base(left: u8, right: u8, condition: NodeId, citation: Citation) -> Edge {
        Edge { left, right, condition, citation, defeaters: Vec::new(), combination: false }
    }

    /// A Combination edge without defeaters.
    pub fn combination(left: u8, right: u8, condition: NodeId, citation: Citation) -> Edge {
        Edge { combination: true, ..Edge::base(left, right, condition, citation) }
    }

    /// One more defeater.
    pub fn unless(mut self, defeater: NodeId) -> Edge {
        self.defeaters.push(defeater);
        self
    }

    /// Both ends; nobody where a number is no person's.
    pub fn ends(&self) -> Persons {
        Persons::of(&[self.left, self.right]).unwrap_or(Persons::NOBODY)
    }
}

/// What holds of the election's fact when nobody has elected.
#[derive(Clone, Copy, Debug, PartialEq, Eq)]
pub enum Policy {
    Unknown,
    DefaultFalse,
    DefaultTrue,
}

/// Who may elect, by which fact, and what silence means. All elections on one fact are equal.
///
/// ```
/// use lukhveri::{Actor, Citation, Cut, Election, Persons, PlanBuilder, Policy};
///
/// # fn main() -> Result<(), Box<dyn std::error::Error>> {
/// // Person 2 is counted apart if she asks for it; who has not asked has not (paragraph 4).
/// let mut plan = PlanBuilder::new(1);
/// let asked = plan.boolean()?;
/// let condition = plan.holds(asked)?;
/// let (actor, policy) = (Actor(1), Policy::DefaultFalse);
/// let election = Election { fact: asked, actor, policy, citation: Citation(4) };
/// plan.cut(Cut::new(Persons::of(&[2])?, condition, Citation(3)).elected(election))?;
/// # Ok(())
/// # }
/// ```
#[derive(Clone, Copy, Debug, PartialEq, Eq)]
pub struct Election {
    pub fact: BooleanId,
    /// 1 to 255.
    pub actor: Actor,
    pub policy: Policy,
    pub citation: Citation,
}

/// Whether a Combination edge that crosses a cut stops it.
#[derive(Clone, Copy, Debug, PartialEq, Eq)]
pub enum Decision {
    /// The edge blocks the cut.
    Blocked,
    /// The cut overrides the edge.
    Overrides,
    /// Open: false blocks, true does not.
    Unresolved,
}

/// Persons who are cut out into a block of their own.
#[derive(Clone, Debug, PartialEq, Eq)]
pub struct Cut {
    pub members: Persons,
    pub condition: NodeId,
    pub citation: Citation,
    pub election: Option<Election>,
    pub decisions: Vec<(EdgeId, Decision)>,
    pub precedes: Vec<CutId>,
}

impl Cut {
    /// A cut without election, decisions and preceded cuts.
    pub fn new(members: Persons, condition: NodeId, citation: Citation) -> Cut {
        let (election, decisions, precedes) = (None, Vec::new(), Vec::new());
        Cut { members, condition, citation, election, decisions, precedes }
    }

    /// It is applied for by an election: events name actor and evidence.
    pub fn elected(self, election: Election) -> Cut {
        Cut { election: Some(election), ..self }
    }

    /// One more decision; [`decide`](crate::PlanBuilder::decide) adds one afterwards.
    pub fn deciding(mut self, edge: EdgeId, decision: Decision) -> Cut {
        self.decisions.push((edge, decision));
        self
    }

    /// One more cut that it precedes; [`precede`](crate::PlanBuilder::precede) adds one afterwards.
    pub fn preceding(mut self, cut: CutId) -> Cut {
        self.precedes.push(cut);
        self
    }
}

/// That a cut precedes another: where both hold and overlap, the other drops, unless it precedes this one, too.
#[derive(Clone, Copy, Debug, PartialEq, Eq)]
pub struct Precedence {
    pub cut: CutId,
    pub precedes: CutId,
}

/// Members who move to the block of the anchor.
#[derive(Clone, Debug, PartialEq, Eq)]
pub struct Attachment {
    pub members: Persons,
    pub anchor: u8,
    pub condition: NodeId,
    pub citation: Citation,
    /// 1 to 255.
    pub actor: Actor,
    pub election: Option<Election>,
}

impl Attachment {
    pub fn new(
        members: Persons,
        anchor: u8,
        condition: NodeId,
        citation: Citation,
        actor: Actor,
    ) -> Attachment {
        Attachment { members, anchor, condition, citation, actor, election: None }
    }

    /// It is applied for by an election: events name its evidence.
    pub fn elected(self, election: Election) -> Attachment {
        Attachment { election: Some(election), ..self }
    }

    /// Members and anchor.
    pub fn persons(&self) -> Persons {
        self.members.union(Persons::of(&[self.anchor]).unwrap_or(Persons::NOBODY))
    }
}

/// Persons who are barred, unless all of them are attached.
#[derive(Clone, Debug, PartialEq, Eq)]
pub struct Bar {
    pub members: Persons,
    pub condition: NodeId,
    pub citation: Citation,
}

impl Bar {
    pub fn new(members: Persons, condition: NodeId, citation: Citation) -> Bar {
        Bar { members, condition, citation }
    }
}

/// A person who is excluded.
#[derive(Clone, Debug, PartialEq, Eq)]
pub struct Status {
    pub person: u8,
    pub condition: NodeId,
    pub citation: Citation,
}

impl Status {
    pub fn new(person: u8, condition: NodeId, citation: Citation) -> Status {
        Status { person, condition, citation }
    }

    /// The set of that person.
    pub fn persons(&self) -> Persons {
        Persons::of(&[self.person]).unwrap_or(Persons::NOBODY)
    }
}

/// All records of a plan. Facts stand here in the order in which they came; the plan's bytes have them sorted.
#[derive(Clone, Debug, PartialEq, Eq)]
pub struct Records {
    pub relation: u8,
    /// The base-chain citation.
    pub chain: Option<Citation>,
    pub facts: Vec<Fact>,
    pub nodes: Vec<Node>,
    pub edges: Vec<Edge>,
    pub cuts: Vec<Cut>,
    pub attachments: Vec<Attachment>,
    pub bars: Vec<Bar>,
    pub statuses: Vec<Status>,
}

impl Records {
    pub(crate) fn new(relation: u8) -> Records {
        Records {
            relation,
            chain: None,
            facts: Vec::new(),
            nodes: Vec::new(),
            edges: Vec::new(),
            cuts: Vec::new(),
            attachments: Vec::new(),
            bars: Vec::new(),
            statuses: Vec::new(),
        }
    }

    /// Elections in order of their records, cuts before attachments.
    pub(crate) fn elections(&self) -> impl Iterator<Item = &Election> {
        let cuts = self.cuts.iter().filter_map(|cut| cut.election.as_ref());
        cuts.chain(self.attachments.iter().filter_map(|rule| rule.election.as_ref()))
    }

    /// The nodes that rules use: conditions and defeaters.
    pub(crate) fn rule_nodes(&self) -> impl Iterator<Item = NodeId> {
        let edges = self.edges.iter().map(|edge| edge.condition);
        let defeaters = self.edges.iter().flat_map(|edge| edge.defeaters.iter().copied());
        let cuts = self.cuts.iter().map(|cut| cut.condition);
        let rules = self.attachments.iter().map(|rule| rule.condition);
        let bars = self.bars.iter().map(|bar| bar.condition);
        let statuses = self.statuses.iter().map(|status| status.condition);
        edges.chain(defeaters).chain(cuts).chain(rules).chain(bars).chain(statuses)
    }

    /// Everyone whom a rule names: a roster has to hold them.
    pub fn rule_persons(&self) -> Persons {
        let edges = self.edges.iter().map(Edge::ends);
        let cuts = self.cuts.iter().map(|cut| cut.members);
        let attachments = self.attachments.iter().map(Attachment::persons);
        let bars = self.bars.iter().map(|bar| bar.members);
        let statuses = self.statuses.iter().map(Status::persons);
        let all = edges.chain(cuts).chain(attachments).chain(bars).chain(statuses);
        all.fold(Persons::NOBODY, Persons::union)
    }
}
