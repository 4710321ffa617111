//! replay FILE: runs every vector of a list on the model.

use inputs::list_vectors::ListVector;
use inputs::pool_vectors::PoolVector;
use inputs::table_vectors::TableVector;
use inputs::vectors::Vector;
use judge::sides::{model_answers, model_imports, model_lists, model_pools};
use model::Citing;

/// A vector as it prints, and as it would with what the model finds.
fn printed_and_found(line: &str) -> Option<(String, String)> {
    if let Some(vector) = PoolVector::parse(line) {
        let expected = model_pools(&vector.call);
        return Some((vector.print(), PoolVector { expected, ..vector }.print()));
    }
    if let Some(vector) = TableVector::parse(line) {
        let expected = model_imports(&vector.call);
        return Some((vector.print(), TableVector { expected, ..vector }.print()));
    }
    if let Some(vector) = ListVector::parse(line) {
        let text = model_lists(&vector.call);
        return Some((vector.print(), ListVector { text, ..vector }.print()));
    }
    let vector = Vector::parse(line)?;
    let expected = model_answers(Citing::ByBlock, &vector.call);
    Some((vector.print(), Vector { expected, ..vector }.print()))
}

fn main() {
    let path = std::env::args().nth(1).expect("replay FILE");
    let text = std::fs::read_to_string(&path).expect("a list of vectors");
    let (mut agree, mut differ) = (0, 0);
    for (number, line) in text.lines().enumerate() {
        let number = number + 1;
        let vector = printed_and_found(line);
        let (printed, found) = vector.unwrap_or_else(|| panic!("line {number} is no vector"));
        assert_eq!(printed, line, "line {number} is not in the printed form");
        if found == line {
            agree += 1;
        } else {
            differ += 1;
            println!("line {number}: {line}");
            println!("found {found}");
        }
    }
    println!("{agree} agree, {differ} differ");
    std::process::exit(i32::from(differ != 0));
}
