//! calls N SEED: at least N random calls of check, answer and show, good and damaged bytes, buffers of all lengths, through the wrapper of hosts/rust
//! and the model: the same refusal, record and counts, and the same bytes of lines and events. Of each input that the lister lists, the wrapper has as
//! many households as the last row.

use std::time::Instant;

use inputs::calls;
use inputs::random::Random;
use inputs::vectors::Op;
use lukhveri::Buffers;
use wrapped::households::Listed;

fn differ(call: String) -> ! {
    println!("differ: {call}");
    std::process::exit(1);
}

fn main() {
    let (count, seed) = wrapped::count_and_seed("calls N SEED");
    let (start, mut done, mut refusals) = (Instant::now(), 0, [0u64; 15]);
    let (mut listed, mut buffers) = (Listed::default(), Buffers::new());
    for number in 0.. {
        if done >= count {
            break;
        }
        for call in calls::random(&mut Random::stream(seed, number)) {
            let refusal = wrapped::same::agree(&call).unwrap_or_else(|call| differ(call));
            refusals[usize::from(refusal)] += 1;
            if call.op == Op::Answer && !listed.agree(&call.plan, &call.case, &mut buffers) {
                differ(format!("households of {call:?}"));
            }
            done += 1;
        }
    }
    let (seconds, Listed { all, fewer }) = (start.elapsed().as_secs_f64(), listed);
    println!("{done} calls alike in {seconds:.1} s; by refusal number {refusals:?}");
    println!(
        "as many households as the lister counts in {all} inputs, in {fewer} of them fewer than units"
    );
}
