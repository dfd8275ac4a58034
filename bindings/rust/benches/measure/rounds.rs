//! A whole round written to a lent output, by the slot: the library's `round` beside the cheapest schedulers, each called once for all C names.
use crate::clock::{median, now};
use crate::schedulers::Scheduler;
use crate::{all, calls};
use paper::random::Random;
use std::hint::black_box;

/// Those that are timed, by their names among all schedulers; the first is left out where the library is not linked.
pub const TIMED: [&str; 4] = ["slot board by rounds", "slot board by hand", "weighted turn", "smoothed (SRR)"];

/// Nanoseconds of a slot of a round at a capacity and a number of streams, in the order of `TIMED`.
pub struct Line {
    pub capacity: usize,
    pub streams: usize,
    pub costs: [Option<f64>; TIMED.len()],
}

/// Every stream has its weight in a round, whichever scheduler writes it.
fn is_round(names: &[u16], weights: &[u32]) {
    let mut counts = vec![0; weights.len()];
    names.iter().for_each(|&name| counts[usize::from(name) - 1] += 1);
    assert_eq!(counts, weights);
}

/// Nanoseconds of a slot, by one timing of whole rounds.
fn once(scheduler: &mut dyn Scheduler, names: &mut [u16]) -> f64 {
    let many = 8192 / names.len();
    let start = now();
    for _ in 0..many {
        scheduler.fill(black_box(names));
    }
    (now() - start) / (many * names.len()) as f64
}

fn line(capacity: usize, streams: usize) -> Line {
    let weights = calls::weights(streams, capacity, &mut Random::new(streams as u64));
    let mut schedulers = all(&weights);
    let mut names = vec![0; capacity];
    let mut costs: [Vec<f64>; TIMED.len()] = Default::default();
    for repeat in 0..26 {
        for (name, costs) in TIMED.iter().zip(&mut costs) {
            let Some((_, scheduler)) = schedulers.iter_mut().find(|(other, _)| other == name) else {
                continue;
            };
            // The first round of each is looked at, and its first timing only warms.
            if repeat == 0 {
                scheduler.fill(&mut names);
                is_round(&names, &weights);
            }
            let ns = once(scheduler.as_mut(), &mut names);
            if repeat > 0 {
                costs.push(ns);
            }
        }
    }
    Line {
        capacity,
        streams,
        costs: costs.map(|costs| (!costs.is_empty()).then(|| median(costs))),
    }
}

pub fn table() -> Vec<Line> {
    let mut lines = Vec::new();
    for capacity in [15, 255, 4095] {
        let fits = [1, 10, 200, 4000].into_iter().filter(|&streams| streams <= capacity);
        lines.extend(fits.map(|streams| line(capacity, streams)));
    }
    lines
}
