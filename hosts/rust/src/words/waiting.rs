//! What an open line waits for, and what to ask first.

use crate::near::{Outcome, Settling, Variable};
use crate::words::{Telling, either};

impl Telling<'_> {
    fn all_open(&self, variables: &[Variable]) -> String {
        let all: Vec<String> = variables.iter().map(|variable| self.variable(*variable)).collect();
        all.join("; ")
    }

    /// What decides, what moves it, what does not matter, and what to ask first.
    pub(crate) fn waits(&self, outcome: &Outcome) -> Vec<String> {
        let mut said = Vec::new();
        if !outcome.decides.is_empty() {
            said.push(format!("It waits for {}.", self.all_open(&outcome.decides)));
        }
        if !outcome.moves.is_empty() {
            let all = self.all_open(&outcome.moves);
            said.push(match outcome.decides.is_empty() {
                true => format!("What is known of {all} can change it."),
                false => format!("What is known of {all} can change it, too."),
            });
        }
        said.extend(self.first(outcome));
        let idle = match outcome.idle.len() {
            0 => return said,
            1 => "changing nothing as things stand",
            _ => "none of these changes anything by itself as things stand",
        };
        said.push(format!("Open as well, but {idle}: {}.", self.all_open(&outcome.idle)));
        said
    }

    /// Where more than one thing is open that counts, and one answer settles it.
    pub(crate) fn first(&self, outcome: &Outcome) -> Option<String> {
        if outcome.decides.len() + outcome.moves.len() < 2 || outcome.settling.is_empty() {
            return None;
        }
        let sure: Vec<&Settling> =
            outcome.settling.iter().filter(|settling| settling.always).collect();
        if !sure.is_empty() {
            let all = either(sure.iter().map(|settling| self.called(settling.variable)));
            return Some(format!("Begin with {all}: whatever comes out, it settles the rest."));
        }
        let ends = ["settles the rest"].into_iter().chain(std::iter::repeat("does"));
        let all =
            outcome.settling.iter().zip(ends).map(|(settling, end)| self.settles(settling, end));
        Some(format!("Begin with {}.", all.collect::<Vec<String>>().join(", or with ")))
    }

    fn settles(&self, settling: &Settling, end: &str) -> String {
        let word = if settling.answers.contains(&true) { "yes" } else { "no" };
        format!("{}, where a {word} {end}", self.called(settling.variable))
    }
}
