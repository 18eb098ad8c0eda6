//! The least time of many short rounds: what else runs on the machine can only add to a round.

use std::time::Instant;

/// How long a round has to be for the clock's own cost to vanish in it.
const ROUND: f64 = 200e-6;
const ROUNDS: usize = 6000;

fn seconds(passes: usize, pass: &mut dyn FnMut()) -> f64 {
    let start = Instant::now();
    for _ in 0..passes {
        pass();
    }
    start.elapsed().as_secs_f64()
}

fn passes_of_a_round(pass: &mut dyn FnMut()) -> usize {
    let mut passes = 1;
    while seconds(passes, pass) < ROUND {
        passes *= 2;
    }
    passes
}

/// The least seconds of a pass of each, in rounds that alternate between the two.
pub fn least(mut sides: [&mut dyn FnMut(); 2]) -> [f64; 2] {
    let passes = sides.each_mut().map(|side| passes_of_a_round(*side));
    let mut least = [f64::INFINITY; 2];
    for _ in 0..ROUNDS {
        for ((least, side), &passes) in least.iter_mut().zip(&mut sides).zip(&passes) {
            *least = least.min(seconds(passes, *side) / passes as f64);
        }
    }
    least
}
