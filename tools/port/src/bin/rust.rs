//! rust N SEED: N random inputs of the domain that document 01 compares, on the Rust, the model and the proved code: whole answers, and every
//! world of cases that have 64 or fewer, by every number and every byte of both lent buffers. The model answers under either rule of citing
//! bars and statuses, the proved code under document 01's.

use judge::compare::{MODEL, Voice};
use judge::trial;
use model::Citing;
use port::Port;

fn main() {
    let (count, seed) = trial::count_and_seed("rust");
    let [by_person, by_block] = MODEL;
    let port = Voice {
        name: "proved code",
        citing: Citing::ByBlock,
        side: &Port,
    };
    trial::run(&[by_person, by_block, port], count, seed);
}
