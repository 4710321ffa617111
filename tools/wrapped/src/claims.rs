//! What single sentences claim of rules and facts, held to every world of the whole case.

use inputs::generate::Input;
use inputs::wire::{Node, Plan};
use lukhveri::{Answer, Event};

/// A sort of rule with a number, as sentences call it.
type Named = (&'static str, usize);

const SORTS: [&str; 5] = ["edge", "cut", "attachment", "bar", "status"];

/// Every rule that a text names by its number, such as "edge 3 ".
fn rules(text: &str) -> Vec<Named> {
    let words: Vec<&str> = text.split([' ', ',', '.', ';', '(', ')']).collect();
    let pairs = words.windows(2).filter_map(|pair| {
        let sort = SORTS.into_iter().find(|sort| *sort == pair[0])?;
        Some((sort, pair[1].parse().ok()?))
    });
    pairs.collect()
}

fn acts(world: &Answer, (sort, number): Named) -> bool {
    world.events.iter().any(|event| match *event {
        Event::Frozen { edge, .. } => sort == "edge" && usize::from(edge) == number,
        Event::Applied { cut, .. } => sort == "cut" && usize::from(cut) == number,
        Event::Attached { attachment, .. } => {
            sort == "attachment" && usize::from(attachment) == number
        }
        Event::Barred { bar } => sort == "bar" && usize::from(bar) == number,
        Event::Excluded { status, .. } => sort == "status" && usize::from(status) == number,
        _ => false,
    })
}

/// All whom a rule names.
fn persons(plan: &Plan, (sort, number): Named) -> u64 {
    match sort {
        "edge" => 1 << plan.edges[number].left | 1 << plan.edges[number].right,
        "cut" => plan.cuts[number].members,
        "attachment" => plan.attachments[number].members | 1 << plan.attachments[number].anchor,
        "bar" => plan.bars[number].members,
        _ => 1 << plan.statuses[number].person,
    }
}

fn nodes(plan: &Plan, (sort, number): Named) -> (u8, Vec<u8>) {
    match sort {
        "edge" => {
            let edge = &plan.edges[number];
            (edge.condition, edge.defeaters.iter().flatten().copied().collect())
        }
        "cut" => (plan.cuts[number].condition, Vec::new()),
        "attachment" => (plan.attachments[number].condition, Vec::new()),
        "bar" => (plan.bars[number].condition, Vec::new()),
        _ => (plan.statuses[number].condition, Vec::new()),
    }
}

/// The value of a node that these facts alone give it.
fn value(plan: &Plan, node: u8, known: &[(u8, bool)]) -> Option<bool> {
    let of = |child: &u8| value(plan, *child, known);
    match &plan.nodes[usize::from(node)] {
        Node::Literal(value) => Some(*value == 1),
        Node::Fact(fact) => known.iter().find(|(own, _)| own == fact).map(|(_, value)| *value),
        Node::Not(child) => of(child).map(|value| !value),
        Node::And(children) if children.iter().any(|child| of(child) == Some(false)) => Some(false),
        Node::And(children) => children.iter().all(|child| of(child) == Some(true)).then_some(true),
        Node::Or(children) if children.iter().any(|child| of(child) == Some(true)) => Some(true),
        Node::Or(children) => {
            children.iter().all(|child| of(child) == Some(false)).then_some(false)
        }
    }
}

/// The one value that a fact can have by the case.
fn only(input: &Input, fact: u8) -> Option<bool> {
    let mut values: Vec<bool> = match &input.plan.facts[usize::from(fact)] {
        None => {
            let record = input.case.booleans.iter().find(|record| record.fact == fact);
            if record.is_some_and(|record| record.unknown.is_some()) {
                return None;
            }
            let told = record.iter().flat_map(|record| record.observations.iter().flatten());
            let told: Vec<bool> = told.map(|pair| pair.0 == 1).collect();
            if told.is_empty() { default(&input.plan, fact).into_iter().collect() } else { told }
        }
        Some((family, _)) => {
            let family = input.case.families.iter().find(|record| record.number == *family)?;
            if family.scope != input.case.scope {
                return None;
            }
            let told = input.case.relations.iter().filter(|record| record.fact == fact);
            let told: Vec<bool> = told.map(|record| record.value == 1).collect();
            if told.is_empty() {
                family.complete.map(|_| false).into_iter().collect()
            } else {
                told
            }
        }
    };
    values.sort();
    values.dedup();
    (values.len() == 1).then(|| values[0])
}

fn default(plan: &Plan, fact: u8) -> Option<bool> {
    let cuts = plan.cuts.iter().filter_map(|cut| cut.election);
    let mut all = cuts.chain(plan.attachments.iter().filter_map(|rule| rule.election));
    let policy = all.find(|election| election.fact == fact)?.policy;
    (policy != 0).then_some(policy == 2)
}

/// The facts with their answers in "fact 3, family 1 of person 0: no, by evidence 4".
fn answers(text: &str) -> Vec<(u8, bool)> {
    let parts: Vec<&str> = text.split("fact ").skip(1).collect();
    let of = |part: &&str| {
        let number = part.split([',', ':']).next()?.parse().ok()?;
        let (_, answer) = part.split_once(": ")?;
        Some((number, answer.starts_with("yes")))
    };
    parts.iter().filter_map(of).collect()
}

/// The facts behind "does not hold" or "does not act" have that value by the case and make it so.
fn reason(input: &Input, text: &str) -> bool {
    let ends = [" does not hold: ", " does not act: "];
    let Some((rule, why)) = ends.iter().find_map(|end| text.split_once(end)) else {
        return true;
    };
    let stopped = ["gives way", "blocked by", "whatever the open"];
    if stopped.iter().any(|word| why.contains(word)) {
        return true;
    }
    let known = answers(why);
    let (condition, defeaters) = nodes(&input.plan, rules(rule)[0]);
    let defeated = defeaters.iter().any(|node| value(&input.plan, *node, &known) == Some(true));
    let is_so = match why.contains("is defeated") {
        true => defeated,
        false => value(&input.plan, condition, &known) == Some(false),
    };
    is_so && known.iter().all(|(fact, value)| only(input, *fact) == Some(*value))
}

/// In which worlds rules do what a sentence claims of them.
fn doing(input: &Input, worlds: &[Answer], person: u8, text: &str) -> bool {
    let always = |rule: &Named| worlds.iter().all(|world| acts(world, *rule));
    let never = |rule: &Named| worlds.iter().all(|world| !acts(world, *rule));
    let both = |rule: &Named| !always(rule) && !never(rule);
    let named = rules(text);
    let own = named.iter().all(|rule| persons(&input.plan, *rule) >> person & 1 == 1);
    let first = named.first();
    if text.contains(", as the open answers turn out, by ") {
        let each = worlds.iter().all(|world| named.iter().any(|rule| acts(world, *rule)));
        return own && each && named.iter().all(both);
    }
    let is_done = ["barred", "excluded", "attached", "set apart"];
    if is_done.iter().any(|word| text.starts_with(&format!("person {person} is {word} by "))) {
        return own && named.iter().all(always);
    }
    if text.starts_with("whether cut ") {
        return first.is_some_and(both);
    }
    if text.contains(" holds by some of the open answers, but ") {
        return first.is_some_and(both) && parted(input, worlds, &named);
    }
    if text.contains(" holds, but ") || text.contains(" has others, too, but ") {
        return first.is_some_and(always) && parted(input, worlds, &named);
    }
    if text.contains(" acts, but a later ") {
        return first.is_some_and(always);
    }
    !(text.contains(" spares ") || text.contains(" does not ")) || first.is_some_and(never)
}

/// In each world in which the first rule acts, so does one of those that part.
fn parted(_: &Input, worlds: &[Answer], named: &[Named]) -> bool {
    let (first, rest) = (named[0], &named[1..]);
    let own = worlds.iter().filter(|world| acts(world, first));
    let all = own.map(|world| rest.iter().any(|rule| acts(world, *rule)));
    all.into_iter().all(|is| is) && !rest.is_empty()
}

/// That no rule names a person, or none that joins.
fn unnamed(plan: &Plan, person: u8, text: &str) -> bool {
    let counts = [
        ("edge", plan.edges.len()),
        ("attachment", plan.attachments.len()),
        ("cut", plan.cuts.len()),
        ("bar", plan.bars.len()),
        ("status", plan.statuses.len()),
    ];
    let own = |(sort, count): &(&'static str, usize)| {
        (0..*count)
            .map(|number| persons(plan, (sort, number)))
            .any(|all| all >> person & 1 == 1 && (!text.contains("joins") || all != 1 << person))
    };
    match (text.starts_with("no rule "), text.starts_with("no edge and no attachment ")) {
        (true, _) => !counts.iter().any(own),
        (_, true) => !counts[..2].iter().any(own),
        _ => true,
    }
}

/// Whether a sentence on a person is so.
pub fn sentence(input: &Input, worlds: &[Answer], person: u8, text: &str) -> Result<(), String> {
    let lower = text.to_lowercase();
    let open = ["possible: ", "it waits", "what is known", "begin with", "open as well"];
    if open.iter().any(|start| lower.starts_with(start)) {
        return Ok(());
    }
    let is_so = reason(input, &lower)
        && unnamed(&input.plan, person, &lower)
        && doing(input, worlds, person, &lower);
    if is_so { Ok(()) } else { Err(format!("person {person}, untrue: {text}")) }
}
