//! bench: time of an answer by the Rust, by the model and by the proved code, and of the proved code's check and pool, for classes of inputs; then
//! of plans made from two tables.
//! `tools/bench --help` has more.

use std::hint::black_box;
use std::process::{Command, exit};

use inputs::classes::Class;
use inputs::random::Random;
use judge::compare::{Covered, MODEL, Voice, compare_voices};
use judge::measured::{Measured, inputs_of};
use judge::rust::Oracle;
use model::Citing;
use model::report::{EVENT, LINE};
use port::Port;
use port::clock::{Clock, median};
use port::import_times;
use port::pools::{Arrays, Pooled, pool};
use port::settings::{fail, settings};

/// The lister's buffers.
const LENT: (usize, usize) = (64 * LINE, 4096 * EVENT);

/// An input, the buffers lent for it, and its times.
struct Timed {
    plan: Vec<u8>,
    case: Vec<u8>,
    amounts: Vec<u32>,
    worlds: u64,
    lines: Vec<u8>,
    events: Vec<u8>,
    arrays: Arrays,
    rust: Clock,
    model: Clock,
    port: Clock,
    model_check: Clock,
    port_check: Clock,
    port_pool: Clock,
}

impl Timed {
    /// Once all agree on it.
    fn new(class: &Class, input: Measured) -> Timed {
        let Measured { plan, case, known } = input;
        compare(class, &plan, &case);
        let fitting = (LINE * known.lines as usize, EVENT * known.events as usize);
        let (lines, events) = if class.fit { fitting } else { LENT };
        let mut timed = Timed {
            plan,
            case,
            amounts: (1..=known.lines as u32).collect(),
            worlds: known.worlds,
            lines: vec![0; lines],
            events: vec![0; events],
            arrays: Arrays::new(&mut Random::new(1)),
            rust: Clock::new(),
            model: Clock::new(),
            port: Clock::new(),
            model_check: Clock::new(),
            port_check: Clock::new(),
            port_pool: Clock::new(),
        };
        timed.compare_pools(class);
        timed
    }

    /// The model's pools and the port's.
    fn compare_pools(&mut self, class: &Class) {
        let (plan, case, amounts) = (&self.plan, &self.case, &self.amounts);
        let (mut lines, mut events) = (self.lines.clone(), self.events.clone());
        let wanted = model::pool(plan, case, amounts, &mut lines, &mut events);
        let (room, event_room) = (&mut self.lines, &mut self.events);
        let told = pool(plan, case, amounts, room, event_room, &mut self.arrays);
        let alike = told == Pooled::from(&wanted) && self.arrays.hold(&wanted.units);
        if !alike || (&lines, &events) != (&self.lines, &self.events) {
            eprintln!("bench: the pools of an input of {} differ", class.name);
            exit(1);
        }
    }

    fn round(&mut self) {
        let (plan, case) = (black_box(&self.plan[..]), black_box(&self.case[..]));
        let (lines, events) = (&mut self.lines[..], &mut self.events[..]);
        self.rust.sample(|| {
            let oracle = Oracle::new(plan, case);
            let _ = black_box(oracle.and_then(|oracle| oracle.answer()));
        });
        self.model.sample(|| {
            black_box(model::answer(plan, case, lines, events));
        });
        self.port.sample(|| {
            black_box(port::answer(plan, case, lines, events));
        });
        self.model_check.sample(|| {
            black_box(model::check(plan));
        });
        self.port_check.sample(|| {
            black_box(port::check(plan));
        });
        let (amounts, arrays) = (black_box(&self.amounts[..]), &mut self.arrays);
        self.port_pool.sample(|| {
            black_box(pool(plan, case, amounts, lines, events, arrays));
        });
    }
}

/// The Rust, the model under either citing rule and the port: the same bytes.
fn compare(class: &Class, plan: &[u8], case: &[u8]) {
    let [by_person, by_block] = MODEL;
    let port = Voice {
        name: "port",
        citing: Citing::ByBlock,
        side: &Port,
    };
    let voices = [by_person, by_block, port];
    if let Err(difference) = compare_voices(&voices, plan, case, &mut Covered::default()) {
        eprintln!("bench: an input of {} differs: {difference:#?}", class.name);
        exit(1);
    }
}

/// Kilobytes that an answer copies and clears. Counting takes time, so another program counts, which is built beside this one.
fn touched(class: &Class) -> u64 {
    let own = std::env::current_exe().expect("the system knows this program's file");
    let counted = Command::new(own.with_file_name("copies"))
        .args(["touched", class.name])
        .output();
    let told = counted.map(|output| {
        String::from_utf8_lossy(&output.stdout)
            .trim()
            .parse::<u64>()
    });
    match told {
        Ok(Ok(bytes)) => bytes / 1000,
        _ => fail("bench", "the program copies, which counts, does not run"),
    }
}

/// One row of the table.
fn row(class: &Class, rounds: u32) {
    let mut inputs: Vec<Timed> = inputs_of(class)
        .map(|input| Timed::new(class, input))
        .collect();
    for _ in 0..rounds {
        inputs.iter_mut().for_each(Timed::round);
    }
    let rust = median(inputs.iter().map(|input| input.rust.best));
    let model = median(inputs.iter().map(|input| input.model.best));
    let port = median(inputs.iter().map(|input| input.port.best));
    let model_check = median(inputs.iter().map(|input| input.model_check.best));
    let port_check = median(inputs.iter().map(|input| input.port_check.best));
    let port_pool = median(inputs.iter().map(|input| input.port_pool.best));
    let worlds: u64 = inputs.iter().map(|input| input.worlds).sum();
    let seconds: f64 = inputs.iter().map(|input| input.port.best / 1e9).sum();
    println!(
        "{:<10} {:>6} {rust:>13.0} {model:>11.0} {port:>11.0} {:>9.1} {:>10.2} {:>10.0} {port_check:>9.0} {:>10.2} {port_pool:>11.0} {:>11.3} {:>10}",
        class.name,
        inputs.len(),
        rust / port,
        port / model,
        worlds as f64 / seconds,
        port_check / model_check,
        port_pool / port,
        touched(class),
    );
}

fn main() {
    let settings = settings("bench", std::env::args().skip(1));
    println!("median nanoseconds, best of {} rounds", settings.rounds);
    println!(
        "{:<10} {:>6} {:>13} {:>11} {:>11} {:>9} {:>10} {:>10} {:>9} {:>10} {:>11} {:>11} {:>10}",
        "class",
        "inputs",
        "Rust",
        "model",
        "port",
        "Rust/port",
        "port/model",
        "worlds/s",
        "check",
        "over model",
        "pool",
        "over answer",
        "KB touched"
    );
    for class in settings.classes {
        row(class, settings.rounds);
    }
    if !import_times::print(settings.rounds) {
        eprintln!("bench: the plans made from a table differ");
        exit(1);
    }
}
