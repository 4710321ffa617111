//! What Ticket 1 of document 02 promises of pools, looked up person by person: each unit's mask is walked, where the model goes from line to line.

use model::Unit;
use model::report::LINE;

/// A roster person: what the line says, and the amount.
#[derive(Clone, Copy)]
struct Person {
    kind: u8,
    role: u8,
    block: u64,
    cents: u128,
}

/// By number; nobody where the roster has none.
fn persons(lines: &[u8], amounts: &[u32]) -> [Option<Person>; 64] {
    let mut all = [None; 64];
    for (line, &cents) in lines.chunks_exact(LINE).zip(amounts) {
        let block = (0..8).rfold(0, |block, at| block << 8 | u64::from(line[3 + at]));
        all[line[0] as usize] = Some(Person {
            kind: line[1],
            role: line[2],
            block,
            cents: u128::from(cents),
        });
    }
    all
}

fn within(block: u64) -> impl Iterator<Item = usize> + Clone {
    (0..64).filter(move |person| block >> person & 1 == 1)
}

/// A unit's persons report it, its pool is that of its own persons, and it is open if one of them has kind 2.
fn of_unit(unit: &Unit, all: &[Option<Person>; 64]) -> Result<(), &'static str> {
    let (mut pool, mut open) = (0, false);
    for number in within(unit.block) {
        let Some(person) = all[number] else {
            return Err("a unit holds somebody off the roster");
        };
        if person.block != unit.block {
            return Err("a person of a unit has another block");
        }
        open |= person.kind == 2;
        if person.kind == 0 && [1, 3].contains(&person.role) {
            pool += person.cents;
        }
    }
    if pool != u128::from(unit.cents) {
        return Err("a pool is not that of its unit's persons");
    }
    if open != unit.open {
        return Err("a mark is not that of its unit's persons");
    }
    Ok(())
}

/// What does not hold of an answer with these lines.
pub fn check(
    lines: &[u8],
    amounts: &[u32],
    units: &[Unit],
    unplaced: u64,
) -> Result<(), &'static str> {
    let all = persons(lines, amounts);
    units.iter().try_for_each(|unit| of_unit(unit, &all))?;
    let lowest: Vec<usize> = units
        .iter()
        .filter_map(|unit| within(unit.block).next())
        .collect();
    if lowest.len() != units.len() || !lowest.is_sorted_by(|one, next| one < next) {
        return Err("units do not rise by their lowest persons");
    }
    let listed: Vec<u64> = units.iter().map(|unit| unit.block).collect();
    let blocks = all.iter().flatten().map(|person| person.block);
    if blocks
        .filter(|&block| block != 0)
        .any(|block| !listed.contains(&block))
    {
        return Err("a block is not among the units");
    }
    let pools: u128 = units.iter().map(|unit| u128::from(unit.cents)).sum();
    let sum: u128 = amounts.iter().map(|&cents| u128::from(cents)).sum();
    if pools + u128::from(unplaced) != sum {
        return Err("pools and unplaced amounts are not the list's sum");
    }
    if all.iter().flatten().any(|person| person.kind > 4) && !units.is_empty() {
        return Err("a roster without worlds has units");
    }
    Ok(())
}

#[cfg(test)]
mod tests {
    use super::*;

    fn line(person: u8, kind: u8, role: u8, block: u64) -> Vec<u8> {
        let mut line = [&[person, kind, role][..], &block.to_le_bytes()].concat();
        line.resize(LINE, 0);
        line
    }

    fn unit(block: u64, cents: u64, open: bool) -> Unit {
        Unit { block, cents, open }
    }

    /// 0 of kind 2 beside 3 in a unit, 1 excluded, 2 without a block.
    fn lines() -> Vec<u8> {
        [
            line(0, 2, 0, 9),
            line(1, 0, 2, 2),
            line(2, 1, 0, 0),
            line(3, 0, 3, 9),
        ]
        .concat()
    }

    const AMOUNTS: [u32; 4] = [1, 10, 100, 1000];

    #[test]
    fn what_is_promised_holds() {
        let units = [unit(9, 1000, true), unit(2, 0, false)];
        assert_eq!(check(&lines(), &AMOUNTS, &units, 111), Ok(()));
    }

    /// One of each sort of wrong units.
    #[test]
    fn what_is_not_promised_is_found() {
        let (pair, alone) = (unit(9, 1000, true), unit(2, 0, false));
        let wrong = [
            (vec![pair, alone], 112),
            (vec![alone, pair], 111),
            (vec![pair], 111),
            (vec![pair, alone, alone], 111),
            (vec![unit(9, 1001, true), alone], 110),
            (vec![unit(9, 1000, false), alone], 111),
            (vec![pair, unit(2, 0, true)], 111),
            (vec![pair, unit(2, 10, false)], 101),
            (vec![pair, alone, unit(4, 0, false)], 111),
            (vec![pair, alone, unit(16, 0, false)], 111),
            (vec![pair, alone, unit(0, 0, false)], 111),
        ];
        for (units, unplaced) in wrong {
            assert!(
                check(&lines(), &AMOUNTS, &units, unplaced).is_err(),
                "{units:?}"
            );
        }
        let incomplete = [line(0, 5, 0, 1), line(1, 5, 0, 0)].concat();
        assert!(check(&incomplete, &[1, 2], &[unit(1, 0, false)], 3).is_err());
    }
}
