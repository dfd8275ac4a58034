//! The two forms of sheet side by side: what the library takes to save, to read and to convert each, on boards of streams of one weight, C = 4,095.
use crate::clock::{median, now};
use crate::{boundary, C};
use mandrozsi::{to_leaves, to_pieces, Drive, LIST};
use paper::{at, hand};
use std::hint::black_box;

/// What is timed, of each call the form of leaves before that of pieces.
pub const TIMED: [&str; 6] = ["save", "save_pieces", "read", "read_pieces", "to_pieces", "to_leaves"];

/// How many streams, and the weight of each.
const BOARDS: [(u16, u16); 5] = [(1, 1), (10, 300), (200, 18), (600, 6), (4000, 1)];

/// Nanoseconds of a call at a number of streams of one weight, in the order of `TIMED`.
pub struct Line {
    pub streams: u16,
    pub weight: u16,
    pub costs: [f64; TIMED.len()],
}

/// Nanoseconds of a call, by one timing of many.
fn once(mut call: impl FnMut()) -> f64 {
    const MANY: u32 = 32;
    let start = now();
    for _ in 0..MANY {
        call();
    }
    (now() - start) / f64::from(MANY)
}

fn board(streams: u16, weight: u16) -> Vec<u16> {
    let mut board = vec![0; C];
    for name in 1..=streams {
        assert_eq!(hand::add(at(C as u16, 1), &mut board, name, weight).number, 0);
    }
    board
}

fn line(streams: u16, weight: u16) -> Line {
    let (board, drive) = (board(streams, weight), boundary::drive(at(C as u16, 1)));
    let mut leaves = vec![0; drive.sheet_bytes()];
    let mut pieces = vec![0; C.div_ceil(Drive::PIECES_PER_BLOCK) * Drive::BLOCK_BYTES];
    let written = drive.save_pieces(&board, &mut pieces).expect("a good board");
    pieces.truncate(written);
    let (mut other, mut list) = (vec![0; C], [0; LIST]);
    let (mut from_pieces, mut from_leaves) = (leaves.clone(), pieces.clone());
    let mut costs: [Vec<f64>; TIMED.len()] = Default::default();
    for repeat in 0..26 {
        let times = [
            once(|| assert_eq!(drive.save(black_box(&board), &mut leaves), Ok(leaves.len()))),
            once(|| assert_eq!(drive.save_pieces(black_box(&board), &mut pieces), Ok(written))),
            once(|| assert_eq!(Drive::read(black_box(&leaves), &mut other, &mut list), Ok(drive))),
            once(|| assert_eq!(Drive::read_pieces(black_box(&pieces), &mut other, &mut list), Ok(drive))),
            once(|| assert_eq!(to_pieces(black_box(&leaves), &mut from_leaves), Ok(written))),
            once(|| assert_eq!(to_leaves(black_box(&pieces), &mut from_pieces), Ok(leaves.len()))),
        ];
        assert_eq!((&other, &from_leaves, &from_pieces), (&board, &pieces, &leaves));
        // The first timing of each only warms.
        if repeat > 0 {
            costs.iter_mut().zip(times).for_each(|(costs, ns)| costs.push(ns));
        }
    }
    Line {
        streams,
        weight,
        costs: costs.map(median),
    }
}

pub fn table() -> Vec<Line> {
    BOARDS.iter().map(|&(streams, weight)| line(streams, weight)).collect()
}
