//! masks: every person, and every ordered pair of persons, in each place where a person's mask is made or a person is sought in one, by the proved
//! code and by the model: plans checked, cases answered, every world shown and one past the last, in dirty buffers that just suffice, and circles.
//! Numbers from 64 on in each place of a person's byte. Each input must be answered or refused as it is made to be, and each person must have lines
//! of all kinds that worlds give where just those named are on the roster, so that no place is passed over.

use std::process::ExitCode;

use inputs::persons::{PERSONS, PLACES, Place, Placed, out_of_range, pairs};
use inputs::random::Random;
use inputs::samples::Sample;
use inputs::smallest::smallest;
use inputs::vectors::to_hex;
use port::alike::{Asked, Tally, compare_all};

/// The kinds of lines that worlds give: decided, membership, role, overlap, discretion.
const KINDS: usize = 5;

/// What was compared.
struct Run {
    random: Random,
    inputs: u64,
    circles: u64,
    /// Answers where just those named are on the roster, and all others.
    named: Tally,
    others: Tally,
    shown: Tally,
}

fn checks_differ(plan: &[u8]) -> bool {
    port::check(plan) != model::check(plan)
}

/// Whether some number's circle differs. Nobody is in one where plan or case is not read, nor in that of a number from 64 on.
fn circles_differ(plan: &[u8], case: &[u8], numbers: impl IntoIterator<Item = u8>) -> bool {
    let circles = model::circles(plan, case).unwrap_or([0; PERSONS as usize]);
    let wanted = |number: u8| circles.get(number as usize).copied().unwrap_or(0);
    let mut numbers = numbers.into_iter();
    numbers.any(|number| port::circle(plan, case, number) != wanted(number))
}

/// What differs, whatever buffers are lent and whosever circle is asked for.
fn difference(plan: &[u8], case: &[u8]) -> Option<String> {
    if checks_differ(plan) {
        return Some("the checks".to_string());
    }
    if let Err(difference) = compare_all(plan, case) {
        return Some(difference.to_string());
    }
    circles_differ(plan, case, 0..=255).then(|| "circles".to_string())
}

/// The smallest input found that differs.
fn smallest_text(sample: Sample, place: &str) -> String {
    let (plan, case) = smallest(sample, |plan, case| difference(plan, case).is_some());
    let what = difference(&plan, &case).unwrap_or_else(|| "something, once,".to_string());
    let (plan, case) = (to_hex(&plan), to_hex(&case));
    format!("{place}: {what} differ: plan {plan} case {case}")
}

impl Run {
    fn new() -> Run {
        Run {
            random: Random::new(1),
            inputs: 0,
            circles: 0,
            named: Tally::default(),
            others: Tally::default(),
            shown: Tally::default(),
        }
    }

    /// Compares an input with the circles of some numbers.
    fn take(&mut self, place: &str, placed: Placed, numbers: &[u8]) -> Result<(), String> {
        let sample = Sample::of(placed.input);
        let (plan, case) = (&sample.plan[..], &sample.case[..]);
        let answer = Asked::answer(plan, case);
        let expected = answer.expected();
        if expected.refusal != placed.refusal {
            let (refusal, made) = (expected.refusal, placed.refusal);
            let (plan, case) = (to_hex(plan), to_hex(case));
            return Err(format!(
                "{place}: the model refuses with {refusal} what is made for {made}: plan {plan} case {case}"
            ));
        }
        if checks_differ(plan)
            || !self.answers_alike(answer, expected.worlds, placed.only_named)
            || circles_differ(plan, case, numbers.iter().copied())
        {
            return Err(smallest_text(sample, place));
        }
        self.inputs += 1;
        self.circles += numbers.len() as u64;
        Ok(())
    }

    /// Whether the answer, each of so many worlds and one past the last are alike.
    fn answers_alike(&mut self, answer: Asked, worlds: u64, only_named: bool) -> bool {
        let random = &mut self.random;
        let answers = if only_named {
            &mut self.named
        } else {
            &mut self.others
        };
        let alike = answer.compare_fitting(random, answers).is_ok();
        let shown = &mut self.shown;
        let mut worlds = (0..=worlds).map(|number| answer.show(number));
        alike && worlds.all(|world| world.compare_fitting(random, shown).is_ok())
    }

    /// Every pair in every place; then every number from 64 on.
    fn compare(&mut self) -> Result<(), String> {
        for (p, q) in pairs() {
            for place in &PLACES {
                self.take_place(place, p, q)?;
            }
        }
        for number in PERSONS..=255 {
            for placed in out_of_range(number) {
                self.take("number out of range", placed, &[number, number % PERSONS])?;
            }
        }
        Ok(())
    }

    /// With the circles of both, and of numbers that would be the first of them if their upper bits were lost.
    fn take_place(&mut self, place: &Place, p: u8, q: u8) -> Result<(), String> {
        let numbers = [p, q, p + PERSONS, p + 2 * PERSONS, p + 3 * PERSONS];
        let mut inputs = place.inputs(p, q).into_iter();
        inputs.try_for_each(|placed| self.take(place.name, placed, &numbers))
    }

    /// The fewest lines of a kind that a person has, by kind; an error where somebody has none.
    fn fewest(&self) -> Result<[u64; KINDS], String> {
        let mut fewest = [u64::MAX; KINDS];
        for person in 0..PERSONS {
            let lines = self.named.lines_of(person);
            for (kind, least) in fewest.iter_mut().enumerate() {
                if lines[kind] == 0 {
                    return Err(format!("person {person} never has a line of kind {kind}"));
                }
                *least = lines[kind].min(*least);
            }
        }
        Ok(fewest)
    }

    /// The closing line, or what is wrong.
    fn close(&mut self) -> Result<String, String> {
        self.compare()?;
        let fewest = self.fewest()?;
        let refused = self.named.refused() + self.others.refused();
        Ok(format!(
            "{} inputs alike: {PERSONS} persons in {} places, {refused} refused; {} worlds shown, {} circles; fewest lines of a person by kind {fewest:?}",
            self.inputs,
            PLACES.len(),
            self.shown.calls() - self.shown.refused(),
            self.circles,
        ))
    }
}

fn main() -> ExitCode {
    match Run::new().close() {
        Ok(line) => {
            println!("{line}");
            ExitCode::SUCCESS
        }
        Err(wrong) => {
            println!("{wrong}");
            ExitCode::FAILURE
        }
    }
}
