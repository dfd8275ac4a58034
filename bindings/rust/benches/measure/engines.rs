//! The two engines side by side: a slot by the sequences and a slot by the tree walk, for capacities that are powers of two.
use crate::clock::{median, now};
use paper::tree::{walk_by_hand, Version};
use paper::trial::Calls;
use paper::waiting::LENGTH;
use paper::{at, hand};
use std::hint::black_box;

/// Nanoseconds of a slot at a capacity: the library's two engines, left out where it is not linked, and the two by hand.
pub struct Line {
    pub capacity: u16,
    pub slot: Option<f64>,
    pub walk: Option<f64>,
    pub slot_by_hand: f64,
    pub walk_by_hand: f64,
}

/// As many slots as are timed at once: whole rounds.
fn many(c: u16) -> usize {
    usize::from(c).max(4096)
}

fn timed(many: usize, mut slot: impl FnMut()) -> f64 {
    let start = now();
    for _ in 0..many {
        slot();
    }
    (now() - start) / many as f64
}

fn by_slot(calls: &dyn Calls, c: u16, board: &mut [u16]) -> f64 {
    let (mut list, mut record) = ([0; LENGTH], at(c, 1));
    timed(many(c), || {
        record = black_box(calls.slot(record.into(), black_box(board), &mut list)).record;
    })
}

fn by_hand(c: u16, board: &[u16]) -> f64 {
    let slot: fn(paper::Record, &[u16]) -> paper::Answer = black_box(hand::slot);
    let mut record = at(c, 1);
    timed(many(c), || record = black_box(slot(record, black_box(board))).record)
}

fn by_walk(walk: Version, c: u16, board: &[u16]) -> f64 {
    let walk = black_box(walk);
    let mut marks = vec![0; usize::from(c) - 1];
    timed(many(c), || {
        black_box(walk(c, black_box(board), &mut marks));
    })
}

/// A line for each power of two; the engines by turns, the first timing of each thrown away.
pub fn table(ours: Option<(&dyn Calls, Version)>) -> Vec<Line> {
    (0..12)
        .map(|k| {
            let c = 1 << k;
            let mut board: Vec<u16> = (1..=c).collect();
            let mut times: [Vec<f64>; 4] = Default::default();
            for repeat in 0..26 {
                let library = ours.map(|(calls, walk)| [by_slot(calls, c, &mut board), by_walk(walk, c, &board)]);
                let plain = [by_hand(c, &board), by_walk(walk_by_hand, c, &board)];
                if repeat > 0 {
                    for (times, ns) in times.iter_mut().zip(plain.into_iter().chain(library.into_iter().flatten())) {
                        times.push(ns);
                    }
                }
            }
            let [slot_by_hand, walk_by_hand, slot, walk] = times;
            let library = |times| ours.map(|_| median(times));
            Line {
                capacity: c,
                slot: library(slot),
                walk: library(walk),
                slot_by_hand: median(slot_by_hand),
                walk_by_hand: median(walk_by_hand),
            }
        })
        .collect()
}
