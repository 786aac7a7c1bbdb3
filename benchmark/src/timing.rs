//! Nanoseconds a call, the contestants taking turns so that the machine's moods meet all alike.

use std::time::{Duration, Instant};

const ROUNDS: usize = 21;
const BATCH: Duration = Duration::from_micros(800);

/// A call that the machine kept waiting must not pass for a slow one.
fn takes_a_batch(call: &mut dyn FnMut(), times: u32) -> bool {
    (0..3).all(|_| elapsed(call, times) >= BATCH)
}

fn elapsed(call: &mut dyn FnMut(), times: u32) -> Duration {
    let began = Instant::now();
    for _ in 0..times {
        call();
    }
    began.elapsed()
}

/// The median over the rounds for each contestant.
pub fn measured(contestants: &mut [Box<dyn FnMut() + '_>]) -> Vec<f64> {
    rounds(contestants).iter().map(|figures| figures[ROUNDS / 2]).collect()
}

/// The least of the rounds for each contestant, where many that differ little are to be told apart.
pub fn least(contestants: &mut [Box<dyn FnMut() + '_>]) -> Vec<f64> {
    rounds(contestants).iter().map(|figures| figures[0]).collect()
}

/// The figures of all rounds for each contestant, in ascending order.
fn rounds(contestants: &mut [Box<dyn FnMut() + '_>]) -> Vec<Vec<f64>> {
    let times: Vec<u32> = contestants
        .iter_mut()
        .map(|call| {
            let mut times = 1;
            while !takes_a_batch(call, times) && times < 1 << 20 {
                times *= 2;
            }
            times
        })
        .collect();
    let mut rounds = vec![Vec::new(); contestants.len()];
    for _ in 0..ROUNDS {
        for (i, call) in contestants.iter_mut().enumerate() {
            rounds[i].push(elapsed(call, times[i]).as_nanos() as f64 / times[i] as f64);
        }
    }
    rounds.iter_mut().for_each(|figures| figures.sort_by(f64::total_cmp));
    rounds
}
