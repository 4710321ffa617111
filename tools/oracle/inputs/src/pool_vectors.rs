//! Vectors of the operation `pool`: the fields of an answer's, and three more, as said in vectors/README.md:
//! pool plan case 0 lines_len events_len refusal .. eventbytes amounts pools unplaced

use crate::vectors::{Call, Expected, Op, Vector, from_hex, to_hex};

/// A unit: its block, its pool, whether it is open.
pub type Unit = (u64, u64, bool);

/// Bytes of a unit: block, cents, mark.
const UNIT: usize = 17;

/// The answer that is asked for first, and the amounts.
#[derive(Clone, Debug, PartialEq, Eq)]
pub struct PoolCall {
    pub answer: Call,
    pub amounts: Vec<u32>,
}

#[derive(Clone, Debug, Default, PartialEq, Eq)]
pub struct PoolExpected {
    pub answer: Expected,
    pub units: Vec<Unit>,
    pub unplaced: u64,
}

#[derive(Clone, Debug, PartialEq, Eq)]
pub struct PoolVector {
    pub call: PoolCall,
    pub expected: PoolExpected,
}

/// Four bytes each, the lowest first.
pub fn amount_bytes(amounts: &[u32]) -> Vec<u8> {
    amounts.iter().flat_map(|cents| cents.to_le_bytes()).collect()
}

fn amounts_of(bytes: &[u8]) -> Option<Vec<u32>> {
    let amounts = bytes.chunks(4).map(|cents| Some(u32::from_le_bytes(cents.try_into().ok()?)));
    amounts.collect()
}

fn unit_bytes((block, cents, open): Unit) -> Vec<u8> {
    [&block.to_le_bytes()[..], &cents.to_le_bytes(), &[u8::from(open)]].concat()
}

fn unit_of(bytes: &[u8]) -> Option<Unit> {
    let number =
        |from: usize| Some(u64::from_le_bytes(bytes.get(from..from + 8)?.try_into().ok()?));
    match bytes.get(16)? {
        &mark @ 0..=1 => Some((number(0)?, number(8)?, mark == 1)),
        _ => None,
    }
}

fn units_of(bytes: &[u8]) -> Option<Vec<Unit>> {
    bytes.chunks(UNIT).map(unit_of).collect()
}

impl PoolVector {
    pub fn parse(line: &str) -> Option<PoolVector> {
        let fields = line.strip_prefix("pool ")?;
        let mut last = fields.rsplitn(4, ' ');
        let (unplaced, pools, amounts) = (last.next()?, last.next()?, last.next()?);
        let Vector { call, expected } = Vector::parse_rest(Op::Answer, last.next()?)?;
        let call = PoolCall { answer: call, amounts: amounts_of(&from_hex(amounts)?)? };
        let units = units_of(&from_hex(pools)?)?;
        let expected = PoolExpected { answer: expected, units, unplaced: unplaced.parse().ok()? };
        Some(PoolVector { call, expected })
    }

    pub fn print(&self) -> String {
        let pools: Vec<u8> = self.expected.units.iter().copied().flat_map(unit_bytes).collect();
        format!(
            "pool {} {} {} {}",
            self.answer().print_rest(),
            to_hex(&amount_bytes(&self.call.amounts)),
            to_hex(&pools),
            self.expected.unplaced
        )
    }

    /// The same without amounts, units and unplaced sum, as if an answer alone had been asked for.
    pub fn answer(&self) -> Vector {
        Vector { call: self.call.answer.clone(), expected: self.expected.answer.clone() }
    }
}
