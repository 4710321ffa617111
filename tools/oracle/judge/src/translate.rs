//! Document 01's bytes to the Rust's plan and input.

use std::collections::BTreeSet;

use inputs::wire::{self, Case, Node, Plan};
use reference::unit_derivation::EXPERIMENTAL_SEMANTICS_VERSION;
use reference::unit_derivation::types::*;

/// A plan and a case as the Rust takes them.
pub struct Translated {
    pub plan: ConstitutionPlan,
    pub input: ConstitutionInput,
    pub config: UnitDerivationConfig,
    /// The key that the Rust gives each fact.
    pub keys: Vec<String>,
}

pub fn translate(plan: &Plan, case: &Case) -> Translated {
    let facts: Vec<FactRef> = plan.facts.iter().enumerate().map(fact_ref).collect();
    let keys = facts.iter().map(fact_key).collect();
    let expressions = Expressions { nodes: &plan.nodes, facts };
    Translated {
        plan: rust_plan(plan, &expressions),
        input: rust_input(plan, case, &expressions),
        config: UnitDerivationConfig {
            enabled: true,
            semantics_version: EXPERIMENTAL_SEMANTICS_VERSION.to_string(),
            max_admissible_worlds: usize::from(case.most_worlds),
        },
        keys,
    }
}

/// Ids of one width, a letter and three digits: they sort as their numbers.
pub fn id(letter: char, number: u8) -> String {
    format!("{letter}{number:03}")
}

pub fn number(id: &str) -> u8 {
    id[1..].parse().expect("an id of this module")
}

/// 0 or absent is empty.
fn free_text(letter: char, number: Option<u8>) -> String {
    number.filter(|&number| number != 0).map_or_else(String::new, |number| id(letter, number))
}

pub fn citation(number: u8) -> Citation {
    Citation::new(id('q', number), "authority")
}

pub fn evidence(number: u8) -> Evidence {
    Evidence { id: id('v', number), citation: citation(number) }
}

fn persons(mask: u64) -> impl Iterator<Item = u8> {
    (0..64).filter(move |person| mask >> person & 1 == 1)
}

fn person_ids<C: FromIterator<String>>(mask: u64) -> C {
    persons(mask).map(|person| id('p', person)).collect()
}

pub fn mask_of<'a>(ids: impl IntoIterator<Item = &'a String>) -> u64 {
    ids.into_iter().fold(0, |mask, id| mask | 1 << number(id))
}

pub fn citation_mask(citations: &BTreeSet<Citation>) -> u64 {
    mask_of(citations.iter().map(|citation| &citation.provision))
}

/// Composite nodes of odd number become derived names, all others stand where
/// they are used: both of the Rust's forms are walked.
struct Expressions<'a> {
    nodes: &'a [Node],
    facts: Vec<FactRef>,
}

impl Expressions<'_> {
    fn is_derived(&self, node: u8) -> bool {
        let composite = !matches!(self.nodes[node as usize], Node::Literal(_) | Node::Fact(_));
        node % 2 == 1 && composite
    }

    fn expr(&self, node: u8) -> BoolExpr {
        if self.is_derived(node) { BoolExpr::Derived(id('n', node)) } else { self.body(node) }
    }

    fn body(&self, node: u8) -> BoolExpr {
        let all = |children: &[u8]| children.iter().map(|&child| self.expr(child)).collect();
        match &self.nodes[node as usize] {
            Node::Literal(value) => BoolExpr::Literal(*value == 1),
            Node::Fact(fact) => BoolExpr::fact(self.facts[*fact as usize].clone()),
            Node::And(children) => BoolExpr::And(all(children)),
            Node::Or(children) => BoolExpr::Or(all(children)),
            Node::Not(child) => BoolExpr::Not(Box::new(self.expr(*child))),
        }
    }

    fn derived(&self) -> Vec<DerivedBool> {
        let numbers = (0..self.nodes.len()).map(|number| number as u8);
        let derived = numbers.filter(|&number| self.is_derived(number));
        let rule = |number| DerivedBool {
            id: id('n', number),
            stratum: Stratum::Person,
            expr: self.body(number),
        };
        derived.map(rule).collect()
    }
}

fn fact_ref((number, fact): (usize, &Option<(u8, Vec<u8>)>)) -> FactRef {
    match fact {
        None => FactRef::Bool(id('f', number as u8)),
        Some((family, tuple)) => FactRef::Relation {
            family: id('a', *family),
            tuple: tuple.iter().map(|&person| id('p', person)).collect(),
        },
    }
}

/// `FactRef::key` is private to the Rust's crate.
fn fact_key(fact: &FactRef) -> String {
    match fact {
        FactRef::Bool(name) => format!("bool:{name}"),
        FactRef::Relation { family, tuple } => {
            format!("relation:{family}:{}", tuple.join("\u{1f}"))
        }
    }
}

fn election(election: &Option<wire::Election>) -> Option<ElectionRequirement> {
    let missing = |e: &wire::Election| match e.policy {
        0 => MissingElectionPolicy::Unknown,
        policy => MissingElectionPolicy::AuthorityDefault {
            value: policy == 2,
            citation: citation(e.citation),
        },
    };
    election.as_ref().map(|e| ElectionRequirement {
        fact: id('f', e.fact),
        actor: id('r', e.actor),
        missing: missing(e),
    })
}

fn decision(&(edge, decision): &(u8, u8)) -> CutEdgePrecedence {
    CutEdgePrecedence {
        edge_rule: id('e', edge),
        decision: match decision {
            wire::BLOCKED => CutEdgeDecision::Blocked { citation: citation(0) },
            wire::OVERRIDES => CutEdgeDecision::Overrides { citation: citation(0) },
            _ => CutEdgeDecision::Unresolved { issue: id('i', edge) },
        },
    }
}

fn edge_rule(number: usize, edge: &wire::Edge, expressions: &Expressions) -> EdgeRule {
    let defeaters = edge.defeaters.iter().flatten().enumerate();
    EdgeRule {
        id: id('e', number as u8),
        kind: if edge.combination { EdgeKind::Combination } else { EdgeKind::Base },
        left: id('p', edge.left),
        right: id('p', edge.right),
        when: expressions.expr(edge.condition),
        citation: citation(edge.citation),
        defeaters: defeaters
            .map(|(number, &node)| EdgeDefeater {
                id: id('d', number as u8),
                when: expressions.expr(node),
                citation: citation(0),
            })
            .collect(),
    }
}

fn cut_rule(number: usize, cut: &wire::Cut, expressions: &Expressions) -> CutRule {
    let order =
        |&other: &u8| CutOrder { lower_priority_cut: id('c', other), citation: citation(0) };
    CutRule {
        id: id('c', number as u8),
        members: person_ids(cut.members),
        when: expressions.expr(cut.condition),
        citation: citation(cut.citation),
        election: election(&cut.election),
        edge_precedence: cut.decisions.iter().flatten().map(decision).collect(),
        precedes: cut.precedes.iter().flatten().map(order).collect(),
    }
}

fn rust_plan(plan: &Plan, expressions: &Expressions) -> ConstitutionPlan {
    let edges = plan.edges.iter().enumerate();
    let cuts = plan.cuts.iter().enumerate();
    let attachments = plan.attachments.iter().enumerate();
    let bars = plan.bars.iter().enumerate();
    let statuses = plan.statuses.iter().enumerate();
    ConstitutionPlan {
        id: "plan".to_string(),
        entity_type: "unit".to_string(),
        roster_relation: id('g', plan.relation),
        relations: EmissionRelations {
            unit_constituent: "constituent".to_string(),
            participating_member: "participating".to_string(),
        },
        derived_bools: expressions.derived(),
        edges: edges.map(|(number, edge)| edge_rule(number, edge, expressions)).collect(),
        cuts: cuts.map(|(number, cut)| cut_rule(number, cut, expressions)).collect(),
        attachments: attachments
            .map(|(number, rule)| AttachmentRule {
                id: id('t', number as u8),
                members: person_ids(rule.members),
                target_anchor: id('p', rule.anchor),
                when: expressions.expr(rule.condition),
                actor: id('r', rule.actor),
                election: election(&rule.election),
                citation: citation(rule.citation),
            })
            .collect(),
        bars: bars
            .map(|(number, bar)| BarRule {
                id: id('b', number as u8),
                members: person_ids(bar.members),
                when: expressions.expr(bar.condition),
                citation: citation(bar.citation),
            })
            .collect(),
        statuses: statuses
            .map(|(number, status)| StatusRule {
                id: id('s', number as u8),
                person: id('p', status.person),
                when: expressions.expr(status.condition),
                citation: citation(status.citation),
            })
            .collect(),
        base_chain_policy: plan.chain.map(citation),
    }
}

fn observed(value: u8, number: u8) -> ObservedBool {
    ObservedBool { value: value == 1, evidence: evidence(number) }
}

/// A relation record belongs to the family that its fact names.
fn family_facts(plan: &Plan, case: &Case, family: u8) -> Vec<RelationFact> {
    let records = case.relations.iter();
    records
        .filter_map(|record| match &plan.facts[record.fact as usize] {
            Some((number, tuple)) if *number == family => Some(RelationFact {
                tuple: tuple.iter().map(|&person| id('p', person)).collect(),
                observation: observed(record.value, record.evidence),
            }),
            _ => None,
        })
        .collect()
}

fn rust_input(plan: &Plan, case: &Case, expressions: &Expressions) -> ConstitutionInput {
    let families = case.families.iter();
    let booleans = case.booleans.iter();
    let constraints = case.constraints.iter().enumerate();
    ConstitutionInput {
        roster: RosterInput {
            relation: id('g', case.relation),
            scope: free_text('z', case.scope),
            persons: person_ids(case.roster),
            completeness: case.complete.map(evidence),
        },
        segment: free_text('y', case.segment),
        segment_complete: case.segment_complete,
        relation_families: families
            .map(|family| RelationFamilyInput {
                name: id('a', family.number),
                scope: free_text('z', family.scope),
                completeness: family.complete.map(evidence),
                facts: family_facts(plan, case, family.number),
            })
            .collect(),
        bool_facts: booleans
            .map(|boolean| BoolFactInput {
                name: id('f', boolean.fact),
                observations: boolean
                    .observations
                    .iter()
                    .flatten()
                    .map(|&(v, e)| observed(v, e))
                    .collect(),
                explicit_unknown: boolean.unknown.map(evidence),
            })
            .collect(),
        supplied_entities: Vec::new(),
        integrity_constraints: constraints
            .map(|(number, &node)| IntegrityConstraint {
                id: id('k', number as u8),
                expr: expressions.expr(node),
                citation: citation(0),
            })
            .collect(),
    }
}

/// Nodes walked if every use of a shared node is walked anew, for all rules,
/// derived names and constraints together.
fn walk(plan: &Plan, case: &Case) -> u64 {
    let mut sizes: Vec<u64> = Vec::new();
    for node in &plan.nodes {
        let of = |child: &u8| sizes[*child as usize];
        let below = match node {
            Node::Literal(_) | Node::Fact(_) => 0,
            Node::And(children) | Node::Or(children) => {
                children.iter().fold(0u64, |all, child| all.saturating_add(of(child)))
            }
            Node::Not(child) => of(child),
        };
        sizes.push(below.saturating_add(1));
    }
    let edges = plan.edges.iter();
    let edges = edges.flat_map(|edge| edge.defeaters.iter().flatten().chain([&edge.condition]));
    let cuts = plan.cuts.iter().map(|rule| &rule.condition);
    let attachments = plan.attachments.iter().map(|rule| &rule.condition);
    let bars = plan.bars.iter().map(|rule| &rule.condition);
    let statuses = plan.statuses.iter().map(|rule| &rule.condition);
    let roots = edges.chain(cuts).chain(attachments).chain(bars).chain(statuses);
    let roots = roots.chain(&case.constraints).map(|&node| sizes[node as usize]);
    roots.chain(sizes.iter().copied()).fold(0u64, u64::saturating_add)
}

/// Walks for binding and influence, and one for each world that may come.
pub fn steps(plan: &Plan, case: &Case) -> u64 {
    let variables = plan.facts.len() as u64 + 16;
    walk(plan, case).saturating_mul(2 * variables + u64::from(case.most_worlds.min(256)))
}
