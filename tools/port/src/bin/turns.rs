//! turns: two libraries of the proved code, timed in turns. `tools/turns --help` has more.

use std::ffi::{CString, c_char, c_int, c_void};
use std::hint::black_box;
use std::process::exit;

use inputs::classes::Class;
use judge::measured::{Measured, inputs_of};
use model::report::{EVENT, LINE};
use port::clock::{Clock, median};
use port::settings::{fail, settings};

/// The lister's buffers.
const LENT: (usize, usize) = (64 * LINE, 4096 * EVENT);

type Told = [u64; 7];
type Check = unsafe extern "C" fn(*const u8, usize, *mut Told) -> u8;
type Answer = unsafe extern "C" fn(
    *const u8,
    usize,
    *const u8,
    usize,
    *mut u8,
    usize,
    *mut u8,
    usize,
    *mut Told,
) -> u8;

type Show = unsafe extern "C" fn(
    *const u8,
    usize,
    *const u8,
    usize,
    u64,
    *mut u8,
    usize,
    *mut u8,
    usize,
    *mut Told,
) -> u8;

unsafe extern "C" {
    fn dlopen(file: *const c_char, how: c_int) -> *mut c_void;
    fn dlsym(library: *mut c_void, name: *const c_char) -> *mut c_void;
}

struct Library {
    check: Check,
    answer: Answer,
    show: Show,
}

impl Library {
    fn open(path: &str) -> Library {
        const NOW: c_int = 2;
        let file = CString::new(path).expect("a path has no zero");
        // The file is one that tools/turns has linked from a library of the proved code.
        let library = unsafe { dlopen(file.as_ptr(), NOW) };
        if library.is_null() {
            fail("turns", &format!("{path} is no library that can be loaded"));
        }
        let symbol = |name: &str| {
            let text = CString::new(name).expect("a name has no zero");
            let found = unsafe { dlsym(library, text.as_ptr()) };
            if found.is_null() {
                fail("turns", &format!("{path} has no function {name}"));
            }
            found
        };
        // The three names stand for these types in every such library: hosts/lukhveri.h.
        unsafe {
            Library {
                check: std::mem::transmute::<*mut c_void, Check>(symbol("lukhveri_check")),
                answer: std::mem::transmute::<*mut c_void, Answer>(symbol("lukhveri_answer")),
                show: std::mem::transmute::<*mut c_void, Show>(symbol("lukhveri_show")),
            }
        }
    }

    fn check(&self, plan: &[u8]) -> Told {
        let mut told = [u64::MAX; 7];
        // The function takes a slice and seven numbers, and keeps neither.
        unsafe { (self.check)(plan.as_ptr(), plan.len(), &mut told) };
        told
    }

    fn answer(&self, plan: &[u8], case: &[u8], lines: &mut [u8], events: &mut [u8]) -> Told {
        let mut told = [u64::MAX; 7];
        // It takes slices and seven numbers, writes within the last three, and keeps none of them.
        unsafe {
            (self.answer)(
                plan.as_ptr(),
                plan.len(),
                case.as_ptr(),
                case.len(),
                lines.as_mut_ptr(),
                lines.len(),
                events.as_mut_ptr(),
                events.len(),
                &mut told,
            )
        };
        told
    }

    fn show(
        &self,
        plan: &[u8],
        case: &[u8],
        world: u64,
        lines: &mut [u8],
        events: &mut [u8],
    ) -> Told {
        let mut told = [u64::MAX; 7];
        // As for an answer.
        unsafe {
            (self.show)(
                plan.as_ptr(),
                plan.len(),
                case.as_ptr(),
                case.len(),
                world,
                lines.as_mut_ptr(),
                lines.len(),
                events.as_mut_ptr(),
                events.len(),
                &mut told,
            )
        };
        told
    }
}

/// An input, the world that is shown of it, the buffers lent for it, and the times of both libraries.
struct Timed {
    plan: Vec<u8>,
    case: Vec<u8>,
    world: u64,
    lines: Vec<u8>,
    events: Vec<u8>,
    answers: [Clock; 2],
    checks: [Clock; 2],
    shown: [Clock; 2],
}

/// All that a library hands back of an input.
#[derive(PartialEq)]
struct Handed {
    checked: Told,
    answered: Told,
    shown: Told,
    lines: [Vec<u8>; 2],
    events: [Vec<u8>; 2],
}

impl Timed {
    fn new(class: &Class, input: Measured) -> Timed {
        let fitting = (
            LINE * input.known.lines as usize,
            EVENT * input.known.events as usize,
        );
        let (lines, events) = if class.fit { fitting } else { LENT };
        Timed {
            plan: input.plan,
            case: input.case,
            world: input.known.worlds / 2,
            lines: vec![0; lines],
            events: vec![0; events],
            answers: [Clock::new(), Clock::new()],
            checks: [Clock::new(), Clock::new()],
            shown: [Clock::new(), Clock::new()],
        }
    }

    fn handed(&self, library: &Library) -> Handed {
        let dirty = |length| [vec![0xa5; length], vec![0xa5; length]];
        let (mut lines, mut events) = (dirty(self.lines.len()), dirty(self.events.len()));
        Handed {
            checked: library.check(&self.plan),
            answered: library.answer(&self.plan, &self.case, &mut lines[0], &mut events[0]),
            shown: library.show(
                &self.plan,
                &self.case,
                self.world,
                &mut lines[1],
                &mut events[1],
            ),
            lines,
            events,
        }
    }

    fn round(&mut self, libraries: &[Library; 2], first: usize) {
        for side in [first, 1 - first] {
            let library = &libraries[side];
            let (plan, case) = (black_box(&self.plan[..]), black_box(&self.case[..]));
            let (lines, events) = (&mut self.lines[..], &mut self.events[..]);
            self.answers[side].sample(|| {
                black_box(library.answer(plan, case, lines, events));
            });
            self.checks[side].sample(|| {
                black_box(library.check(plan));
            });
            self.shown[side].sample(|| {
                black_box(library.show(plan, case, self.world, lines, events));
            });
        }
    }
}

fn ratio(clocks: &[Clock; 2]) -> f64 {
    clocks[1].best / clocks[0].best
}

fn row(class: &Class, rounds: u32, libraries: &[Library; 2]) {
    let mut inputs: Vec<Timed> = inputs_of(class)
        .map(|input| Timed::new(class, input))
        .collect();
    let [old, new] = libraries;
    if let Some(at) = inputs.iter().position(|i| i.handed(old) != i.handed(new)) {
        eprintln!(
            "turns: the libraries differ on input {at} of {}",
            class.name
        );
        exit(1);
    }
    for round in 0..rounds as usize {
        inputs
            .iter_mut()
            .for_each(|input| input.round(libraries, round % 2));
    }
    let answers = || inputs.iter().map(|input| ratio(&input.answers));
    println!(
        "{:<10} {:>6} {:>8.3} {:>8.3} {:>8.3} {:>8.3} {:>8.3} {:>11.0} {:>11.0}",
        class.name,
        inputs.len(),
        median(answers()),
        median(inputs.iter().map(|input| ratio(&input.checks))),
        median(inputs.iter().map(|input| ratio(&input.shown))),
        answers().fold(f64::INFINITY, f64::min),
        answers().fold(0.0, f64::max),
        median(inputs.iter().map(|input| input.answers[0].best)),
        median(inputs.iter().map(|input| input.answers[1].best)),
    );
}

fn main() {
    let mut words = std::env::args().skip(1).peekable();
    let mut file = || words.next_if(|word| !word.starts_with("--"));
    let files = [file(), file()];
    let settings = settings("turns", words);
    let [Some(old), Some(new)] = files else {
        fail("turns", "two libraries are wanted");
    };
    let libraries = [Library::open(&old), Library::open(&new)];
    println!("new over old, best of {} rounds", settings.rounds);
    println!(
        "{:<10} {:>6} {:>8} {:>8} {:>8} {:>8} {:>8} {:>11} {:>11}",
        "class", "inputs", "answer", "check", "show", "lowest", "highest", "old ns", "new ns"
    );
    for class in settings.classes {
        row(class, settings.rounds, &libraries);
    }
}
