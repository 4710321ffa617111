//! oracle answer PLAN CASE | oracle show N PLAN CASE: what the Rust says of
//! document 01's bytes, in document 01's encoding. With `model` in front, what
//! the model says.

use inputs::vectors::{Expected, Op, to_hex};
use judge::compare::{by_block, roomy};
use judge::rust::{Answer, NoAnswer, Oracle};
use judge::sides::model_answers;
use model::Citing;

fn read(path: Option<&String>) -> Vec<u8> {
    let path = path.unwrap_or_else(|| usage());
    std::fs::read(path).unwrap_or_else(|error| {
        eprintln!("{path}: {error}");
        std::process::exit(2)
    })
}

fn usage() -> ! {
    eprintln!("oracle [model] answer PLAN CASE | oracle [model] show N PLAN CASE");
    std::process::exit(2)
}

fn print(answer: &Expected) {
    println!("lines {} events {} worlds {}", answer.lines, answer.events, answer.worlds);
    answer.line_bytes.chunks(29).for_each(|line| println!("{}", to_hex(line)));
    answer.event_bytes.chunks(12).for_each(|event| println!("{}", to_hex(event)));
}

fn rust(plan: &[u8], case: &[u8], shown: Option<u64>) -> Result<(Answer, Expected), NoAnswer> {
    let oracle = Oracle::new(plan, case)?;
    let own = match shown {
        None => oracle.answer()?,
        Some(world) => oracle.show(world)?,
    };
    Ok((own, by_block(&oracle, shown)?))
}

fn print_rust(plan: &[u8], case: &[u8], shown: Option<u64>) {
    match rust(plan, case, shown) {
        Ok((own, answer)) => {
            print(&answer);
            if own.lines != answer.line_bytes {
                println!("the Rust's own citations, bars and statuses by person:");
                own.lines.chunks(29).for_each(|line| println!("{}", to_hex(line)));
            }
        }
        Err(NoAnswer::WouldNotEnd(steps)) => {
            println!("not asked: shared nodes walked at each use, {steps} steps");
        }
        Err(NoAnswer::NoRecords) => println!("not asked: no plan and case of document 01"),
        Err(NoAnswer::NoWorld) => println!("no such world"),
        Err(NoAnswer::Plan(error)) => println!("the Rust refuses the plan: {error}"),
        Err(NoAnswer::Case(error)) => println!("the Rust refuses the case: {error}"),
    }
}

fn print_model(plan: &[u8], case: &[u8], shown: Option<u64>) {
    let op = if shown.is_some() { Op::Show } else { Op::Answer };
    let found = model_answers(Citing::ByBlock, &roomy(op, plan, case, shown.unwrap_or(0)));
    match found.refusal {
        0 => print(&found),
        11 => println!("refused 11 {} {} {}", found.record, found.count, found.maximum),
        number => println!("refused {number} {}", found.record),
    }
}

fn main() {
    let mut arguments: Vec<String> = std::env::args().skip(1).collect();
    let model = arguments.first().is_some_and(|first| first == "model");
    if model {
        arguments.remove(0);
    }
    let (shown, files) = match arguments.first().map(String::as_str) {
        Some("answer") => (None, &arguments[1..]),
        Some("show") if arguments.len() > 1 => {
            (Some(arguments[1].parse().unwrap_or_else(|_| usage())), &arguments[2..])
        }
        _ => usage(),
    };
    let (plan, case) = (read(files.first()), read(files.get(1)));
    if model { print_model(&plan, &case, shown) } else { print_rust(&plan, &case, shown) }
}
