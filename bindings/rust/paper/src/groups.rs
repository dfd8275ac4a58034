//! Document 02, No. 11, by the letter of its source (document 000, section III): a neighbour's table of groups, its round, and its streams as adds to an opened
//! board; and the comparison of any version with it.
use crate::letter;
use crate::random::Random;
use crate::trial::{some_list, some_number, Tally};
use crate::waiting::{empty, LENGTH};
use crate::{at, Answer};

const SHORT: u16 = 2;
const OUTPUT: u16 = 11;
const POWER: u16 = 16;
const GROUP: u16 = 18;

/// What is lent to be written: the board, the list and the output.
#[derive(Clone, Debug, PartialEq, Eq)]
pub struct Lent {
    pub board: Vec<u16>,
    pub list: Vec<u64>,
    pub output: Vec<u16>,
}

/// The call, of any version.
pub trait Import {
    fn import(&self, capacity: u16, starts: &[u16], names: &[u16], lent: &mut Lent) -> Answer;
}

/// The version by the papers' words.
pub struct Letter;

/// "List i holds (start i+1 less start i) over its rate": each list's rate and names; `None` where starts and names are no table.
fn lists(k: usize, starts: &[u16], names: &[u16]) -> Option<Vec<(usize, Vec<u16>)>> {
    let starts: Vec<usize> = starts.iter().map(|&s| s.into()).collect();
    if starts.len() != k + 1 || starts[0] != 0 || starts[k] > 1 << k {
        return None;
    }
    let mut left = names.iter().copied();
    let mut lists = Vec::new();
    for i in 0..k {
        let rate = 1 << (k - i - 1);
        let range = starts[i + 1].checked_sub(starts[i])?;
        if range % rate != 0 {
            return None;
        }
        let list: Vec<u16> = left.by_ref().take(range / rate).collect();
        if list.len() < range / rate {
            return None;
        }
        lists.push((rate, list));
    }
    let mut sorted = names.to_vec();
    sorted.sort_unstable();
    sorted.dedup();
    let sound = left.next().is_none() && sorted.len() == names.len() && !names.contains(&0);
    sound.then_some(lists)
}

/// "We first select the CLL whose range contains" the reversed counter, "then schedule the flow pointed by SP", which goes on to the next.
fn round(k: usize, lists: &[(usize, Vec<u16>)]) -> Vec<u16> {
    let mut pointers = vec![0; lists.len()];
    let reversed = |t: usize| (0..k).filter(|bit| t >> bit & 1 == 1).map(|bit| 1 << (k - 1 - bit)).sum::<usize>();
    (0..1 << k)
        .map(|t| {
            let (v, mut end) = (reversed(t), 0);
            for (i, (rate, list)) in lists.iter().enumerate() {
                end += rate * list.len();
                if v < end {
                    let name = list[pointers[i]];
                    pointers[i] = (pointers[i] + 1) % list.len();
                    return name;
                }
            }
            0
        })
        .collect()
}

impl Import for Letter {
    /// "Order 1, 16, 2, 18, 11"; "a fault leaves board and output as they were".
    fn import(&self, capacity: u16, starts: &[u16], names: &[u16], lent: &mut Lent) -> Answer {
        let refused = |number| Answer::refused(at(0, 0), number);
        if letter::open(capacity, &mut [0; 4095]).number != 0 {
            return refused(1);
        }
        if !capacity.is_power_of_two() {
            return refused(POWER);
        }
        if lent.board.len() < capacity.into() || lent.list.len() < LENGTH {
            return refused(SHORT);
        }
        let k = capacity.trailing_zeros() as usize;
        let Some(lists) = lists(k, starts, names) else {
            return refused(GROUP);
        };
        if lent.output.len() < capacity.into() {
            return refused(OUTPUT);
        }
        lent.output[..capacity.into()].copy_from_slice(&round(k, &lists));
        let opened = letter::open(capacity, &mut lent.board);
        for (rate, list) in lists {
            for name in list {
                assert_eq!(letter::add(opened.record, &mut lent.board, name, rate as u16).number, 0);
            }
        }
        empty(&mut lent.list);
        opened
    }
}

const MAY: [(&str, &[usize]); 1] = [("import", &[0, 1, 2, 11, 16, 18])];

/// A table of 2^k slots: its starts and its names.
fn some_table(random: &mut Random, k: usize) -> (Vec<u16>, Vec<u16>) {
    let (mut starts, mut names) = (vec![0u16], Vec::new());
    for i in 0..k {
        let rate = 1 << (k - i - 1);
        let room = ((1 << k) - usize::from(starts[i])) / rate;
        let most = if random.one_in(3) { room } else { room.min(2) };
        let many = random.below(most + 1);
        starts.push(starts[i] + (many * rate) as u16);
        for _ in 0..many {
            names.push(1 + 3 * names.len() as u16 + random.below(3) as u16);
        }
    }
    if random.one_in(2) {
        names.reverse();
    }
    (starts, names)
}

/// A fault of a table, or none.
fn spoil(random: &mut Random, starts: &mut Vec<u16>, names: &mut Vec<u16>) {
    let at = random.below(starts.len());
    match random.below(10) {
        0 => starts[at] = starts[at].wrapping_add(1),
        1 => starts[at] = starts[at].wrapping_sub(1),
        2 => starts[at] = some_number(random),
        3 => starts.push(starts[starts.len() - 1]),
        4 => starts.truncate(at),
        5 => names.push(65000),
        6 => names.truncate(names.len().saturating_sub(1)),
        7 if !names.is_empty() => {
            let at = random.below(names.len());
            names[at] = random.pick(&[0, names[0], names[names.len() - 1]]);
        }
        _ => {}
    }
}

fn same(calls: &impl Import, tally: &mut Tally<1>, capacity: u16, starts: &[u16], names: &[u16], lent: &Lent) {
    let made = |calls: &dyn Import| {
        let mut lent = lent.clone();
        (calls.import(capacity, starts, names, &mut lent), lent)
    };
    let got = made(calls);
    assert_eq!(got, made(&Letter), "import {capacity} {starts:?} {names:?} of {lent:?}");
    tally.count(0, got.0.number);
}

/// The source's example, and a table whose round is not the imported board's.
fn worked(calls: &impl Import) {
    let lent = |c: usize| Lent {
        board: vec![9; c],
        list: vec![0; LENGTH],
        output: vec![9; c],
    };
    let mut sixteen = lent(16);
    assert_eq!(calls.import(16, &[0, 0, 8, 12, 13], &[1, 2, 3, 4, 5], &mut sixteen).number, 0);
    assert_eq!(sixteen.output, [1, 3, 2, 5, 1, 4, 2, 0, 1, 3, 2, 0, 1, 4, 2, 0]);
    assert_eq!(sixteen.board, [1, 1, 1, 1, 2, 2, 2, 2, 3, 3, 4, 4, 5, 0, 0, 0]);
    let mut four = lent(4);
    assert_eq!(calls.import(4, &[0, 0, 3], &[1, 2, 3], &mut four).number, 0);
    assert_eq!((four.output, four.board), (vec![1, 2, 3, 0], vec![1, 2, 3, 0]));
}

/// The whole comparison: how many calls were compared.
pub fn compare(calls: &impl Import, seeds: u64) -> usize {
    worked(&Letter);
    worked(calls);
    let mut tally = Tally::new(MAY);
    for seed in 0..seeds {
        let mut random = Random::new(seed);
        let large = random.one_in(8);
        let k = random.below(if large { 12 } else { 7 });
        let (mut starts, mut names) = some_table(&mut random, k);
        if random.one_in(2) {
            spoil(&mut random, &mut starts, &mut names);
        }
        let odd = some_number(&mut random);
        let capacity = if random.one_in(9) { odd } else { 1 << k };
        let length = |random: &mut Random| ((1 << k) + 2usize).saturating_sub(random.below(3));
        let lent = Lent {
            board: vec![8; length(&mut random) - usize::from(random.one_in(5))],
            list: some_list(&mut random, &[]),
            output: vec![7; length(&mut random) - usize::from(random.one_in(5))],
        };
        same(calls, &mut tally, capacity, &starts, &names, &lent);
        let mut short = lent.clone();
        short.list.truncate(LENGTH - 1);
        same(calls, &mut tally, capacity, &starts, &names, &short);
    }
    tally.is_whole(0..1);
    tally.calls()
}
