//! Document 01 by the letter, with what document 02 amends: sequences as the lists that the recursion gives, pieces by looking at every aligned run, tidying by listing all
//! pieces anew after each move. Slow, and meant to be believed at sight.
use crate::{at, Answer, Record};

const CAPACITY: u16 = 1;
const SHORT: u16 = 2;
const POSITION: u16 = 3;
const MIDROUND: u16 = 4;
const DAMAGED: u16 = 5;
const NAME: u16 = 6;
const WEIGHT: u16 = 7;
const TAKEN: u16 = 8;
const ABSENT: u16 = 9;
const ROOM: u16 = 10;
const OUTPUT: u16 = 11;
const BLOCK: u16 = 12;

/// The number of binary digits of C.
fn digits(c: usize) -> usize {
    (0..).find(|&k| c < 1 << k).unwrap()
}

/// "The weight spread sequence of order 1 is 1; order k is order k-1, then k, then order k-1 again."
pub fn spread(k: usize) -> Vec<usize> {
    if k == 0 {
        return Vec::new();
    }
    let inner = spread(k - 1);
    [inner.as_slice(), &[k], inner.as_slice()].concat()
}

/// "RB reverses i as a number of j bits; RB(0, 0) is 0."
fn reversed(i: usize, j: usize) -> usize {
    (0..j).filter(|bit| i >> bit & 1 == 1).map(|bit| 1 << (j - 1 - bit)).sum()
}

/// The first leaf of tree j: trees lie end to end, largest first.
fn tree_start(c: usize, j: usize) -> usize {
    (j + 1..16).filter(|bit| c >> bit & 1 == 1).map(|bit| 1 << bit).sum()
}

/// What a slot call gives from position p: the leaf, the terms passed over, and the position after it.
pub fn slot_from(c: usize, p: usize) -> (usize, usize, usize) {
    let k = digits(c);
    let terms = spread(k);
    let mut at = p;
    while c >> (k - terms[at - 1]) & 1 == 0 {
        at += 1;
    }
    let term = terms[at - 1];
    let earlier = terms[..at - 1].iter().filter(|&&t| t == term).count();
    let leaf = tree_start(c, k - term) + reversed(earlier, k - term);
    (leaf, at - p, if at == terms.len() { 1 } else { at + 1 })
}

/// Request No. 6: "one more each time p returns to 1, and 0 again after the largest."
fn round_after(number: u64) -> u64 {
    if number == u64::MAX {
        0
    } else {
        number + 1
    }
}

/// The leaves of a full round, from p = 1: the list is walked once, with a counter for each tree.
pub fn round_leaves(c: usize) -> Vec<usize> {
    let k = digits(c);
    let mut counters = vec![0; k + 1];
    let mut leaves = Vec::new();
    for term in spread(k) {
        let j = k - term;
        if c >> j & 1 == 1 {
            leaves.push(tree_start(c, j) + reversed(counters[term], j));
            counters[term] += 1;
        }
    }
    leaves
}

/// A piece: its start, its size, and the name of all its leaves.
#[derive(Clone, Copy, Debug, PartialEq, Eq)]
pub struct Piece {
    pub start: usize,
    pub size: usize,
    pub name: u16,
}

/// The pieces of a board: every aligned run of one name, largest first, that lies in none found before.
pub fn pieces(leaves: &[u16]) -> Vec<Piece> {
    let mut covered = vec![false; leaves.len()];
    let mut found = Vec::new();
    for l in (0..13).rev() {
        let size = 1 << l;
        let mut start = 0;
        while start + size <= leaves.len() {
            let name = leaves[start];
            if !covered[start] && leaves[start..start + size].iter().all(|&x| x == name) {
                covered[start..start + size].fill(true);
                found.push(Piece { start, size, name });
            }
            start += size;
        }
    }
    found.sort_by_key(|piece| piece.start);
    found
}

/// "A board is good if no two pieces of the same name, idle included, have equal size."
pub fn good(leaves: &[u16]) -> bool {
    let mut kinds: Vec<_> = pieces(leaves).iter().map(|piece| (piece.name, piece.size)).collect();
    let all = kinds.len();
    kinds.sort_unstable();
    kinds.dedup();
    kinds.len() == all
}

fn idle_pieces(leaves: &[u16]) -> Vec<Piece> {
    pieces(leaves).into_iter().filter(|piece| piece.name == 0).collect()
}

fn weight_of(leaves: &[u16], name: u16) -> usize {
    leaves.iter().filter(|&&x| x == name).count()
}

/// "The weight is cut into its powers of two, largest first. Each takes the low end of the smallest idle piece that is large enough."
pub fn place(leaves: &mut [u16], name: u16, weight: u16) {
    for bit in (0..16).rev() {
        let power = 1 << bit;
        if usize::from(weight) & power != 0 {
            let taken = idle_pieces(leaves)
                .into_iter()
                .filter(|piece| piece.size >= power)
                .min_by_key(|piece| piece.size)
                .unwrap();
            leaves[taken.start..taken.start + power].fill(name);
        }
    }
}

/// "While two idle pieces have equal size" ..
pub fn tidy(leaves: &mut [u16]) {
    loop {
        let idle = idle_pieces(leaves);
        let pair = (0..13).map(|l| 1 << l).find_map(|size| {
            let starts: Vec<_> = idle.iter().filter(|piece| piece.size == size).map(|piece| piece.start).collect();
            (starts.len() >= 2).then(|| (size, starts[0], starts[1]))
        });
        let Some((size, u, v)) = pair else { return };
        let twin = v ^ size;
        let (from, to) = if twin + size <= leaves.len() { (twin, u) } else { (u ^ size, v) };
        leaves.copy_within(from..from + size, to);
        leaves[from..from + size].fill(0);
    }
}

/// The record, the board and what else a call was given, for the table of refusals.
struct Asked<'a> {
    capacity: usize,
    position: usize,
    board: &'a [u16],
    name: u16,
    weight: u16,
    output: usize,
    needed: usize,
}

fn asked(record: Record, board: &[u16]) -> Asked<'_> {
    Asked {
        capacity: record.capacity.into(),
        position: record.position.into(),
        board,
        name: 0,
        weight: 0,
        output: 0,
        needed: 0,
    }
}

impl Asked<'_> {
    fn leaves(&self) -> &[u16] {
        &self.board[..self.capacity]
    }

    /// "Given exactly when."
    fn applies(&self, number: u16) -> bool {
        match number {
            CAPACITY => self.capacity == 0 || self.capacity > 4095,
            SHORT => self.board.len() < self.capacity,
            POSITION => self.position == 0 || self.position > (1 << digits(self.capacity)) - 1,
            MIDROUND => self.position != 1,
            DAMAGED => !good(self.leaves()),
            NAME => self.name == 0,
            WEIGHT => self.weight == 0,
            TAKEN => self.leaves().contains(&self.name),
            ABSENT => !self.leaves().contains(&self.name),
            ROOM => usize::from(self.weight) > weight_of(self.leaves(), 0),
            OUTPUT => self.output < self.needed,
            _ => unreachable!(),
        }
    }

    /// "The lowest number that applies is answered."
    fn lowest(&self, may: &[u16]) -> Option<u16> {
        may.iter().copied().find(|&number| self.applies(number))
    }
}

pub fn open(capacity: u16, board: &mut [u16]) -> Answer {
    if let Some(number) = asked(at(capacity, 1), board).lowest(&[CAPACITY, SHORT]) {
        return Answer::refused(at(0, 0), number);
    }
    board[..capacity.into()].fill(0);
    Answer::done(at(capacity, 1), [0; 4])
}

pub fn add(record: Record, board: &mut [u16], name: u16, weight: u16) -> Answer {
    let given = Asked {
        name,
        weight,
        ..asked(record, board)
    };
    match given.lowest(&[CAPACITY, SHORT, POSITION, MIDROUND, DAMAGED, NAME, WEIGHT, TAKEN, ROOM]) {
        Some(ROOM) => return Answer::no_room(record, weight_of(given.leaves(), 0) as u16),
        Some(number) => return Answer::refused(record, number),
        None => {}
    }
    let leaves = &mut board[..record.capacity.into()];
    place(leaves, name, weight);
    Answer::done(record, [weight_of(leaves, 0) as u64, 0, 0, 0])
}

pub fn remove(record: Record, board: &mut [u16], name: u16) -> Answer {
    let given = Asked {
        name,
        ..asked(record, board)
    };
    if let Some(number) = given.lowest(&[CAPACITY, SHORT, POSITION, MIDROUND, DAMAGED, NAME, ABSENT]) {
        return Answer::refused(record, number);
    }
    let leaves = &mut board[..record.capacity.into()];
    for leaf in leaves.iter_mut() {
        if *leaf == name {
            *leaf = 0;
        }
    }
    tidy(leaves);
    Answer::done(record, [weight_of(leaves, 0) as u64, 0, 0, 0])
}

/// Document 02, No. 12: "rebuilds the board as if every stream had been added to an opened board by falling weight, then rising name".
pub fn fresh(record: Record, board: &mut [u16]) -> Answer {
    if let Some(number) = asked(record, board).lowest(&[CAPACITY, SHORT, POSITION, MIDROUND, DAMAGED]) {
        return Answer::refused(record, number);
    }
    let leaves = &mut board[..record.capacity.into()];
    let mut names: Vec<u16> = leaves.iter().copied().filter(|&name| name != 0).collect();
    names.sort_unstable();
    names.dedup();
    let mut streams: Vec<(usize, u16)> = names.into_iter().map(|name| (weight_of(leaves, name), name)).collect();
    streams.sort_by_key(|&(weight, name)| (std::cmp::Reverse(weight), name));
    leaves.fill(0);
    for (weight, name) in streams {
        place(leaves, name, weight as u16);
    }
    Answer::done(record, [0; 4])
}

pub fn slot(record: Record, board: &[u16]) -> Answer {
    if let Some(number) = asked(record, board).lowest(&[CAPACITY, SHORT, POSITION]) {
        return Answer::refused(record, number);
    }
    let (leaf, passed, next) = slot_from(record.capacity.into(), record.position.into());
    let after = Record {
        position: next as u16,
        round: if next == 1 { round_after(record.round) } else { record.round },
        ..record
    };
    Answer::done(after, [board[leaf].into(), leaf as u64, passed as u64, record.round])
}

pub fn round(record: Record, board: &[u16], output: &mut [u16]) -> Answer {
    let given = Asked {
        output: output.len(),
        needed: record.capacity.into(),
        ..asked(record, board)
    };
    if let Some(number) = given.lowest(&[CAPACITY, SHORT, POSITION, OUTPUT]) {
        return Answer::refused(record, number);
    }
    for (entry, leaf) in output.iter_mut().zip(round_leaves(record.capacity.into())) {
        *entry = board[leaf];
    }
    Answer::done(record, [0; 4])
}

/// Document 02, No. 1: "the largest distance from one serve to the next over two rounds of the same board, end of round included".
pub(crate) fn spacing(round: &[u16], name: u16) -> usize {
    let two = [round, round].concat();
    let serves: Vec<usize> = (0..two.len()).filter(|&slot| two[slot] == name).collect();
    serves.windows(2).map(|pair| pair[1] - pair[0]).max().unwrap()
}

pub fn report(record: Record, board: &[u16], name: u16) -> Answer {
    let given = Asked {
        name,
        ..asked(record, board)
    };
    if let Some(number) = given.lowest(&[CAPACITY, SHORT, POSITION, DAMAGED, NAME, ABSENT]) {
        return Answer::refused(record, number);
    }
    let leaves = &board[..record.capacity.into()];
    let weight = weight_of(leaves, name);
    let number = pieces(leaves).iter().filter(|piece| piece.name == name).count();
    let round: Vec<u16> = round_leaves(leaves.len()).into_iter().map(|leaf| leaves[leaf]).collect();
    Answer::done(record, [weight as u64, number as u64, spacing(&round, name) as u64, 0])
}

/// The bytes of a sheet.
pub fn sheet(leaves: &[u16]) -> Vec<u8> {
    let mut bytes = Vec::new();
    for (number, part) in leaves.chunks(253).enumerate() {
        let mut block = vec![number as u16, leaves.len() as u16];
        block.extend_from_slice(part);
        block.resize(255, 0);
        let sum = block.iter().fold(0u16, |sum, &x| sum.wrapping_add(x));
        block.push(0u16.wrapping_sub(sum));
        bytes.extend(block.iter().flat_map(|x| x.to_le_bytes()));
    }
    bytes
}

pub fn save(record: Record, board: &[u16], output: &mut [u8]) -> Answer {
    let needed = usize::from(record.capacity).div_ceil(253) * 512;
    let given = Asked {
        output: output.len(),
        needed,
        ..asked(record, board)
    };
    if let Some(number) = given.lowest(&[CAPACITY, SHORT, POSITION, MIDROUND, DAMAGED, OUTPUT]) {
        return Answer::refused(record, number);
    }
    output[..needed].copy_from_slice(&sheet(&board[..record.capacity.into()]));
    Answer::done(record, [needed as u64, 0, 0, 0])
}

pub fn read(bytes: &[u8], board: &mut [u16]) -> Answer {
    let refused = |number| Answer::refused(at(0, 0), number);
    if bytes.len() < 512 {
        return refused(BLOCK);
    }
    let words: Vec<u16> = bytes.chunks_exact(2).map(|two| u16::from_le_bytes([two[0], two[1]])).collect();
    let c = words[1];
    if let Some(number) = asked(at(c, 1), board).lowest(&[CAPACITY, SHORT]) {
        return refused(number);
    }
    if bytes.len() != usize::from(c).div_ceil(253) * 512 {
        return refused(BLOCK);
    }
    let mut leaves = Vec::new();
    for (number, block) in words.chunks(256).enumerate() {
        let sum = block.iter().fold(0u16, |sum, &x| sum.wrapping_add(x));
        if usize::from(block[0]) != number || block[1] != c || sum != 0 {
            return refused(BLOCK);
        }
        leaves.extend_from_slice(&block[2..255]);
    }
    let rest = leaves.split_off(c.into());
    if rest.iter().any(|&x| x != 0) {
        return refused(BLOCK);
    }
    if !good(&leaves) {
        return refused(DAMAGED);
    }
    board[..c.into()].copy_from_slice(&leaves);
    Answer::done(at(c, 1), [0; 4])
}
