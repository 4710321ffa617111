//! Units and households of the wrapper, beside the last row of the lister.

use lukhveri::{Answer, Buffers};

/// How many inputs were listed, and in how many of them fewer units were households than there were units.
#[derive(Clone, Copy, Debug, Default)]
pub struct Listed {
    pub all: u64,
    pub fewer: u64,
}

impl Listed {
    /// Whether the wrapper has as many households as the last row, and the same units in a lent answer as in one that stands by itself.
    pub fn agree(&mut self, plan: &[u8], case: &[u8], buffers: &mut Buffers) -> bool {
        let Some(counted) = lukhveri::list(plan, case).households() else {
            return true;
        };
        let Ok(answered) = buffers.answer(plan, case) else {
            return false;
        };
        let answer: Answer = answered.to_answer();
        let (units, households) = (answer.units(), answer.households());
        self.all += 1;
        self.fewer += u64::from(households.len() < units.len());
        counted == households.len() as u64
            && answered.units().eq(units)
            && answered.households().eq(households)
    }
}
