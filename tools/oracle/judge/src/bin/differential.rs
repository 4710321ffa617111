//! differential N SEED: N random inputs of the compared domain on the Rust
//! and on the model. Needs no Rattle kit; tools/differential has the proved
//! code beside them.

use judge::compare::MODEL;
use judge::trial;

fn main() {
    let (count, seed) = trial::count_and_seed("differential");
    trial::run(&MODEL, count, seed);
}
