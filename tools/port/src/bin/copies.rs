//! copies: how much the proved code copies and clears, by class of inputs; `copies touched CLASS` prints for one class the bytes of both together
//! that an answer takes, for bench. Where the code calls memcpy, memmove or memset, the linker sends it through the functions below (build.rs).
//! A slow copy is long and its target lies a few bytes behind its source, modulo 4,096: one such was seen to take twenty times as long. Where such
//! copies stand depends on how the compiler lays out the stack, so a change anywhere may bring one.

use std::process::exit;
use std::sync::atomic::{AtomicU64, Ordering::Relaxed};

use inputs::classes::{ALL, Class};
use inputs::random::Random;
use judge::measured::{Measured, inputs_of};
use model::report::{EVENT, LINE};
use port::pools::Arrays;

/// Calls and bytes so far.
struct Tally {
    calls: AtomicU64,
    bytes: AtomicU64,
}

static COPIED: Tally = Tally::none();
static SLOW: Tally = Tally::none();
static CLEARED: Tally = Tally::none();

impl Tally {
    const fn none() -> Tally {
        Tally {
            calls: AtomicU64::new(0),
            bytes: AtomicU64::new(0),
        }
    }

    fn note(&self, length: usize) {
        self.calls.fetch_add(1, Relaxed);
        self.bytes.fetch_add(length as u64, Relaxed);
    }

    fn read(&self) -> [u64; 2] {
        [self.calls.load(Relaxed), self.bytes.load(Relaxed)]
    }
}

fn note_copy(to: *mut u8, from: *const u8, length: usize) {
    let behind = (to as usize).wrapping_sub(from as usize) % 4096;
    COPIED.note(length);
    if length >= 2048 && (1..64).contains(&behind) {
        SLOW.note(length);
    }
}

unsafe extern "C" {
    fn __real_memcpy(to: *mut u8, from: *const u8, length: usize) -> *mut u8;
    fn __real_memmove(to: *mut u8, from: *const u8, length: usize) -> *mut u8;
    fn __real_memset(to: *mut u8, value: i32, length: usize) -> *mut u8;
}

// Each notes the length and does what was asked, by the rules of the function for which it stands.
#[unsafe(no_mangle)]
unsafe extern "C" fn __wrap_memcpy(to: *mut u8, from: *const u8, length: usize) -> *mut u8 {
    note_copy(to, from, length);
    unsafe { __real_memcpy(to, from, length) }
}

#[unsafe(no_mangle)]
unsafe extern "C" fn __wrap_memmove(to: *mut u8, from: *const u8, length: usize) -> *mut u8 {
    note_copy(to, from, length);
    unsafe { __real_memmove(to, from, length) }
}

#[unsafe(no_mangle)]
unsafe extern "C" fn __wrap_memset(to: *mut u8, value: i32, length: usize) -> *mut u8 {
    CLEARED.note(length);
    unsafe { __real_memset(to, value, length) }
}

/// Copies, bytes copied, slow copies, clearings and bytes cleared.
type Counts = [u64; 5];

fn so_far() -> Counts {
    let ([copies, copied], [slow, _], [clearings, cleared]) =
        (COPIED.read(), SLOW.read(), CLEARED.read());
    [copies, copied, slow, clearings, cleared]
}

/// What a call adds.
fn counted(call: impl FnOnce()) -> Counts {
    let before = so_far();
    call();
    let after = so_far();
    std::array::from_fn(|what| after[what] - before[what])
}

/// Of a check of the plan, of an answer, of a pool.
fn of_input(class: &Class, input: &Measured) -> [Counts; 3] {
    let (plan, case) = (&input.plan, &input.case);
    let fitting = (
        LINE * input.known.lines as usize,
        EVENT * input.known.events as usize,
    );
    let lent = (64 * LINE, 4096 * EVENT);
    let (lines, events) = if class.fit { fitting } else { lent };
    let (mut lines, mut events) = (vec![0; lines], vec![0; events]);
    let check = counted(|| _ = port::check(plan));
    let answer = counted(|| _ = port::answer(plan, case, &mut lines, &mut events));
    let amounts: Vec<u32> = (1..=input.known.lines as u32).collect();
    let mut arrays = Arrays::new(&mut Random::new(1));
    let pool = counted(|| {
        _ = port::pools::pool(plan, case, &amounts, &mut lines, &mut events, &mut arrays);
    });
    [check, answer, pool]
}

/// The same, mean of the class's inputs.
fn means(class: &Class) -> (usize, [Counts; 3]) {
    let all: Vec<_> = inputs_of(class)
        .map(|input| of_input(class, &input))
        .collect();
    let mean = |call: usize, what: usize| {
        let sum: u64 = all.iter().map(|found| found[call][what]).sum();
        sum / all.len() as u64
    };
    let means = [0, 1, 2].map(|call| std::array::from_fn(|what| mean(call, what)));
    (all.len(), means)
}

fn row(class: &Class) {
    let (inputs, means) = means(class);
    print!("{:<10} {inputs:>6}", class.name);
    for [copies, copied, slow, clearings, cleared] in means {
        print!("   {copies:>7} {copied:>9} {slow:>5} {clearings:>9} {cleared:>9}");
    }
    println!();
}

fn table() {
    println!("mean of a class's inputs: of a check of the plan, of an answer, of a pool");
    print!("{:<10} {:>6}", "class", "inputs");
    for _ in 0..3 {
        print!(
            "   {:>7} {:>9} {:>5} {:>9} {:>9}",
            "copies", "bytes", "slow", "clearings", "bytes"
        );
    }
    println!();
    ALL.iter().for_each(row);
}

fn fail(what: &str) -> ! {
    eprintln!("copies: {what}");
    exit(2)
}

fn touched(name: &str) {
    let class = ALL.iter().find(|class| class.name == name);
    let class = class.unwrap_or_else(|| fail("no such class"));
    let (_, [_, [_, copied, _, _, cleared], _]) = means(class);
    println!("{}", copied + cleared);
}

fn main() {
    let words: Vec<String> = std::env::args().skip(1).collect();
    let words: Vec<&str> = words.iter().map(String::as_str).collect();
    match words[..] {
        [] => table(),
        ["touched", name] => touched(name),
        _ => fail("no words, or touched and the name of a class"),
    }
}
