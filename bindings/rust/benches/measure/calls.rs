//! What each call costs, version beside version, on the same boards.
use crate::clock::{median, now};
use paper::random::Random;
use paper::trial::{Calls, Hand, Letter};
use paper::waiting::{self, LENGTH, PLACES};
use paper::{at, hand, letter, Records};
use std::hint::black_box;

/// "pair" is a slot where two drives share the board, "start" one at the start of a round with nothing waiting, "run" one that carries out as many
/// orders as can wait, half of them adds.
pub const CALLS: [&str; 10] = ["slot", "pair", "start", "run", "add", "remove", "round", "report", "save", "read"];

/// Weights of n streams that sum to `total`: a few large, many small, each at least 1.
pub fn weights(n: usize, total: usize, random: &mut Random) -> Vec<u32> {
    let mut weights = vec![1u32; n];
    for _ in n..total {
        let i = random.below(n);
        weights[random.below(i + 1)] += 1;
    }
    weights
}

/// A board of n streams that hold seven eighths of it, reached by churn: the board, and the names on it.
fn board(c: usize, n: usize) -> (Vec<u16>, Vec<u16>) {
    let mut random = Random::new((c * 5000 + n) as u64);
    let weights = weights(n, (c * 7 / 8).max(n), &mut random);
    let mut board = vec![0; c];
    let record = at(c as u16, 1);
    for (i, &w) in weights.iter().enumerate() {
        assert_eq!(hand::add(record, &mut board, i as u16 + 1, w as u16).number, 0);
    }
    for _ in 0..n.min(300) {
        let i = random.below(n);
        hand::remove(record, &mut board, i as u16 + 1);
        assert_eq!(hand::add(record, &mut board, i as u16 + 1, weights[i] as u16).number, 0);
    }
    (board, (1..=n as u16).collect())
}

/// A list with as many orders as can wait: by turns a stream of the board is removed and one of its weight added under a new name.
fn orders(c: usize, board: &mut [u16], names: &[u16]) -> [u64; LENGTH] {
    let mut list = [0; LENGTH];
    let away = at(c as u16, 2);
    for i in 0..PLACES / 2 {
        let name = names[i * 7919 % names.len()];
        let weight = board.iter().filter(|&&x| x == name).count().max(1) as u16;
        waiting::remove::<Hand>(away, board, &mut list, name);
        waiting::add::<Hand>(away, board, &mut list, 50000 + i as u16, weight);
    }
    list
}

/// Copies of a board, made before the clock starts, so that each timed call has one of its own.
const COPIES: usize = 32;

/// Nanoseconds of one call, by one timing of many.
fn once(calls: &dyn Calls, call: &str, board: &[u16], names: &[u16], few: bool) -> f64 {
    let c = board.len();
    let record = at(c as u16, 1);
    let copies = if few { 4 } else { COPIES };
    let name = |i: usize| names[i * 7919 % names.len()];
    let mut boards: Vec<Vec<u16>> = (0..copies).map(|_| board.to_vec()).collect();
    let mut list = [0; LENGTH];
    let mut output = vec![0u16; c];
    let mut bytes = letter::sheet(board);
    let idle = board.iter().filter(|&&x| x == 0).count();
    let weight = (idle.max(1) - idle / 3).max(1) as u16;
    let timed = |many: usize, run: &mut dyn FnMut()| {
        let start = now();
        run();
        (now() - start) / many as f64
    };
    match call {
        "slot" => {
            let many = if few { c.min(64) } else { (4 * c).max(4000) };
            let mut at = record;
            timed(many, &mut || {
                for _ in 0..many {
                    at = black_box(calls.slot(at.into(), black_box(&mut boards[0]), &mut list)).record;
                }
            })
        }
        "pair" => {
            let many = if few { c.min(64) } else { (4 * c).max(4000) };
            let (mut own, mut other) = (record, record);
            timed(many, &mut || {
                for _ in 0..many {
                    let records = Records { own, other: Some(other) };
                    own = other;
                    other = black_box(calls.slot(records, black_box(&mut boards[0]), &mut list)).record;
                }
            })
        }
        "start" => timed(4000, &mut || {
            for _ in 0..4000 {
                black_box(calls.slot(record.into(), black_box(&mut boards[0]), &mut list));
            }
        }),
        "run" => {
            let mut lists: Vec<[u64; LENGTH]> = boards.iter_mut().map(|b| orders(c, b, names)).collect();
            timed(copies, &mut || {
                for (b, l) in boards.iter_mut().zip(&mut lists) {
                    black_box(calls.slot(record.into(), b, l));
                }
            })
        }
        "add" => timed(copies, &mut || {
            for b in &mut boards {
                black_box(calls.add(record.into(), b, &mut list, 60000, weight));
            }
        }),
        "remove" => timed(copies, &mut || {
            for (i, b) in boards.iter_mut().enumerate() {
                black_box(calls.remove(record.into(), b, &mut list, name(i)));
            }
        }),
        "round" => timed(copies, &mut || {
            for _ in 0..copies {
                black_box(calls.round(record.into(), black_box(board), &mut output));
            }
        }),
        "report" => timed(copies, &mut || {
            for i in 0..copies {
                black_box(calls.report(record.into(), black_box(board), name(i)));
            }
        }),
        "save" => timed(copies, &mut || {
            for _ in 0..copies {
                black_box(calls.save(record.into(), black_box(board), &mut bytes));
            }
        }),
        _ => timed(copies, &mut || {
            for b in &mut boards {
                black_box(calls.read(black_box(&bytes), b, &mut list));
            }
        }),
    }
}

/// One line of the table: what each version takes, in nanoseconds; the library's is left out where it is not linked.
pub struct Line {
    pub capacity: usize,
    pub streams: usize,
    pub call: &'static str,
    pub ours: Option<f64>,
    pub hand: f64,
    pub letter: f64,
}

pub fn table(ours: Option<&dyn Calls>) -> Vec<Line> {
    let mut lines = Vec::new();
    for capacity in [15, 255, 4095] {
        for streams in [1, 10, 200, 4000] {
            if streams > capacity {
                continue;
            }
            let (board, names) = board(capacity, streams);
            for call in CALLS {
                let one = |calls: &dyn Calls, few| once(calls, call, &board, &names, few);
                let (mut library, mut hand) = (Vec::new(), Vec::new());
                for repeat in 0..26 {
                    let a = ours.map(|calls| one(calls, false));
                    let b = one(&Hand, false);
                    // The first timing of each only warms.
                    if repeat > 0 {
                        library.extend(a);
                        hand.push(b);
                    }
                }
                let letter = (0..4).map(|_| one(&Letter, true)).skip(1).collect();
                lines.push(Line {
                    capacity,
                    streams,
                    call,
                    ours: ours.map(|_| median(library)),
                    hand: median(hand),
                    letter: median(letter),
                });
            }
        }
    }
    lines
}
