//! What Ticket 2 of document 02 promises of an accepted table, looked up in the plan's records. No field of such a table holds a quote, a comma or a
//! row's end, so its text without the quotes is parted by commas and row ends alone: no automaton is needed.

use model::records::{Node, Plan};

/// A row under the header. A status has no right.
#[derive(Clone, Debug, PartialEq, Eq)]
struct Rule {
    word: String,
    left: u8,
    right: Option<u8>,
    citation: u8,
}

fn rule(row: &str) -> Option<Rule> {
    let [word, left, right, citation] = row.split(',').collect::<Vec<_>>().try_into().ok()?;
    let right = match right {
        "" => None,
        number => Some(number.parse().ok()?),
    };
    Some(Rule {
        word: word.to_string(),
        left: left.parse().ok()?,
        right,
        citation: citation.parse().ok()?,
    })
}

/// The rows under the header; none if some row is no rule.
fn rules(table: &[u8]) -> Option<Vec<Rule>> {
    let text = String::from_utf8(table.to_vec()).ok()?.replace('"', "");
    let text = text.strip_suffix("\r\n").unwrap_or(&text);
    text.split("\r\n").skip(1).map(rule).collect()
}

/// The rules that a plan's records are, edges before statuses; none if a record has something that no rule of a table has.
fn records(plan: &Plan) -> Option<Vec<Rule>> {
    let edges = plan.edges.iter().map(|edge| {
        let word = if edge.combination {
            "combination"
        } else {
            "base"
        };
        let rule = Rule {
            word: word.to_string(),
            left: edge.left,
            right: Some(edge.right),
            citation: edge.citation,
        };
        (edge.condition == 0 && edge.defeaters.is_empty()).then_some(rule)
    });
    let statuses = plan.statuses.iter().map(|status| {
        let rule = Rule {
            word: "status".to_string(),
            left: status.person,
            right: None,
            citation: status.citation,
        };
        (status.condition == 0).then_some(rule)
    });
    edges.chain(statuses).collect()
}

/// Relation 1, no chain citation, one node, the literal 1, and nothing but edges and statuses beside.
fn bare(plan: &Plan) -> bool {
    plan.relation == 1
        && plan.chain.is_none()
        && matches!(plan.nodes[..], [Node::Literal(true)])
        && plan.facts.is_empty()
        && plan.cuts.is_empty()
        && plan.attachments.is_empty()
        && plan.bars.is_empty()
}

/// What does not hold of the plan that an accepted table gave.
pub fn check(table: &[u8], plan: &[u8]) -> Result<(), &'static str> {
    let Ok(plan) = Plan::read(plan) else {
        return Err("a plan is made that the model's check refuses");
    };
    if !bare(&plan) {
        return Err(
            "a plan is made with another heading, another node or more than edges and statuses",
        );
    }
    let Some(rows) = rules(table) else {
        return Err("a table is accepted with a row that is no rule");
    };
    let (mut wanted, statuses): (Vec<Rule>, Vec<Rule>) =
        rows.into_iter().partition(|rule| rule.word != "status");
    wanted.extend(statuses);
    if records(&plan) != Some(wanted) {
        return Err("the plan's rules are not the table's rows, edges before statuses");
    }
    Ok(())
}

#[cfg(test)]
mod tests {
    use super::*;

    const TABLE: &[u8] =
        b"kind,\"left\",right,citation\r\nstatus,3,\"\",4\r\n\"base\",1,2,3\r\ncombination,5,6,7";
    const FRONT: [u8; 6] = [1, 1, 1, 3, 1, 1];
    const BASE: [u8; 6] = [4, 15, 1, 2, 0, 3];
    const COMBINATION: [u8; 6] = [4, 47, 5, 6, 0, 7];
    const STATUS: [u8; 5] = [8, 7, 3, 0, 4];

    #[test]
    fn what_is_promised_holds() {
        let plan = [&FRONT[..], &BASE, &COMBINATION, &STATUS].concat();
        assert_eq!(check(TABLE, &plan), Ok(()));
        let ended = [TABLE, b"\r\n"].concat();
        assert_eq!(check(&ended, &plan), Ok(()));
        assert_eq!(check(b"kind,left,right,citation", &FRONT), Ok(()));
    }

    /// One of each sort of wrong plans.
    #[test]
    fn what_is_not_promised_is_found() {
        let whole = [&FRONT[..], &BASE, &COMBINATION, &STATUS];
        for (at, byte) in [
            (2, 0),
            (5, 0),
            (8, 2),
            (9, 1),
            (11, 2),
            (13, 15),
            (20, 2),
            (22, 5),
        ] {
            let mut plan = whole.concat();
            plan[at] = byte;
            assert!(check(TABLE, &plan).is_err(), "{at}");
        }
        let wrong: [Vec<&[u8]>; 9] = [
            vec![],
            vec![&FRONT],
            vec![&FRONT, &COMBINATION, &BASE, &STATUS],
            vec![&FRONT, &BASE, &COMBINATION],
            vec![&FRONT, &BASE, &COMBINATION, &STATUS, &STATUS],
            vec![&[1, 3, 1, 0, 3, 1, 1], &BASE, &COMBINATION, &STATUS],
            vec![&FRONT, &[3, 1, 1], &BASE, &COMBINATION, &STATUS],
            vec![&[1, 1, 1, 2, 0, 3, 1, 1], &BASE, &COMBINATION, &STATUS],
            vec![&FRONT, &[4, 31, 1, 2, 0, 3, 1, 0], &COMBINATION, &STATUS],
        ];
        for plan in wrong {
            assert!(check(TABLE, &plan.concat()).is_err(), "{plan:?}");
        }
        let plan = whole.concat();
        for table in [
            &b""[..],
            b"kind\r\n\r\n",
            &[TABLE, b"\r\nbase,1,2"].concat(),
        ] {
            assert!(check(table, &plan).is_err());
        }
    }
}
