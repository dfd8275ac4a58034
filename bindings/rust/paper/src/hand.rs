//! Document 01 as one would write it by hand for speed: bit operations in place of sequences and tables, pieces read off the stretches of equal
//! leaves, one pass for the idle pieces of a whole placing. No heap. The benchmark sets the proved library beside it.
use crate::{at, Answer, Record};

/// Calls `f` with the start, the exponent and the name of each piece, in order of starts: a stretch of one name is cut into the largest aligned
/// runs that it has.
#[inline]
fn each_piece(leaves: &[u16], mut f: impl FnMut(usize, u32, u16) -> bool) -> bool {
    let mut start = 0;
    while start < leaves.len() {
        let name = leaves[start];
        let end = leaves[start..].iter().position(|&x| x != name).map_or(leaves.len(), |n| start + n);
        while start < end {
            let e = (start | 4096).trailing_zeros().min((end - start).ilog2());
            if !f(start, e, name) {
                return false;
            }
            start += 1 << e;
        }
    }
    true
}

/// No two pieces of one name have equal size: a mask of sizes for each name.
pub fn good(leaves: &[u16]) -> bool {
    let mut sizes = [0u16; 65536];
    each_piece(leaves, |_, e, name| {
        let mask = &mut sizes[usize::from(name)];
        let fresh = *mask >> e & 1 == 0;
        *mask |= 1 << e;
        fresh
    })
}

fn weigh(leaves: &[u16], name: u16) -> usize {
    leaves.iter().map(|&x| usize::from(x == name)).sum()
}

const NONE: usize = usize::MAX;

/// The idle pieces are listed once; what is left of one that is cut joins the list.
fn place(leaves: &mut [u16], name: u16, weight: u16) {
    let mut idle = [NONE; 13];
    each_piece(leaves, |start, e, x| {
        if x == 0 {
            idle[e as usize] = start;
        }
        true
    });
    for n in (0..12).rev() {
        if weight >> n & 1 == 1 {
            let e = (n..13).find(|&e| idle[e] != NONE).unwrap();
            let start = idle[e];
            idle[e] = NONE;
            for (part, left) in idle.iter_mut().enumerate().take(e).skip(n) {
                *left = start + (1 << part);
            }
            leaves[start..start + (1 << n)].fill(name);
        }
    }
}

fn tidy(leaves: &mut [u16]) {
    loop {
        let (mut first, mut second) = ([NONE; 13], [NONE; 13]);
        each_piece(leaves, |start, e, x| {
            let e = e as usize;
            if x == 0 {
                if first[e] == NONE {
                    first[e] = start;
                } else if second[e] == NONE {
                    second[e] = start;
                }
            }
            true
        });
        let Some(e) = (0..13).find(|&e| second[e] != NONE) else { return };
        let (size, u, v) = (1 << e, first[e], second[e]);
        let (from, to) = if (v ^ size) + size <= leaves.len() {
            (v ^ size, u)
        } else {
            (u ^ size, v)
        };
        leaves.copy_within(from..from + size, to);
        leaves[from..from + size].fill(0);
    }
}

fn check_open(c: u16, board: &[u16]) -> u16 {
    if c == 0 || c > 4095 {
        1
    } else if board.len() < c.into() {
        2
    } else {
        0
    }
}

#[inline]
fn check_slot(record: Record, board: &[u16]) -> u16 {
    let (c, p) = (record.capacity, record.position);
    match check_open(c, board) {
        0 if p == 0 || p.leading_zeros() < c.leading_zeros() => 3,
        number => number,
    }
}

fn check_change(record: Record, board: &[u16]) -> u16 {
    match check_slot(record, board) {
        0 if record.position != 1 => 4,
        0 if !good(&board[..record.capacity.into()]) => 5,
        number => number,
    }
}

pub fn open(capacity: u16, board: &mut [u16]) -> Answer {
    let number = check_open(capacity, board);
    if number != 0 {
        return Answer::refused(at(0, 0), number);
    }
    board[..capacity.into()].fill(0);
    Answer::done(at(capacity, 1), [0; 4])
}

pub fn add(record: Record, board: &mut [u16], name: u16, weight: u16) -> Answer {
    let mut number = check_change(record, board);
    if number != 0 {
        return Answer::refused(record, number);
    }
    let leaves = &mut board[..record.capacity.into()];
    let idle = weigh(leaves, 0) as u16;
    number = if name == 0 {
        6
    } else if weight == 0 {
        7
    } else if leaves.contains(&name) {
        8
    } else if weight > idle {
        return Answer::no_room(record, idle);
    } else {
        place(leaves, name, weight);
        return Answer::done(record, [u64::from(idle - weight), 0, 0, 0]);
    };
    Answer::refused(record, number)
}

pub fn remove(record: Record, board: &mut [u16], name: u16) -> Answer {
    let number = check_change(record, board);
    if number != 0 {
        return Answer::refused(record, number);
    }
    let leaves = &mut board[..record.capacity.into()];
    if name == 0 {
        return Answer::refused(record, 6);
    }
    if !leaves.contains(&name) {
        return Answer::refused(record, 9);
    }
    for leaf in leaves.iter_mut() {
        if *leaf == name {
            *leaf = 0;
        }
    }
    tidy(leaves);
    Answer::done(record, [weigh(leaves, 0) as u64, 0, 0, 0])
}

pub fn fresh(record: Record, board: &mut [u16]) -> Answer {
    let number = check_change(record, board);
    if number != 0 {
        return Answer::refused(record, number);
    }
    let leaves = &mut board[..record.capacity.into()];
    let mut names = leaves.to_vec();
    names.sort_unstable();
    let mut streams: Vec<(u16, u16)> = Vec::new();
    for name in names {
        match streams.last_mut() {
            Some((weight, last)) if *last == name => *weight += 1,
            _ => streams.push((1, name)),
        }
    }
    streams.retain(|&(_, name)| name != 0);
    streams.sort_by(|a, b| b.0.cmp(&a.0).then(a.1.cmp(&b.1)));
    leaves.fill(0);
    for (weight, name) in streams {
        place(leaves, name, weight);
    }
    Answer::done(record, [0; 4])
}

/// The leaf served at position p, the terms passed over, the position after.
#[inline]
fn pick(c: u16, p: u16) -> (u16, u16, u16) {
    let k = 16 - c.leading_zeros();
    let column = |p: u16| k - 1 - p.trailing_zeros();
    let passed = 1 - (c >> column(p) & 1);
    let p = p + passed;
    let j = column(p);
    let i = u32::from(p) >> (k - j);
    let start = c & !((2 << j) - 1);
    let leaf = start + (u64::from(i.reverse_bits()) >> (32 - j)) as u16;
    (leaf, passed, if p + 1 == 1 << k { 1 } else { p + 1 })
}

#[inline]
pub fn slot(record: Record, board: &[u16]) -> Answer {
    let number = check_slot(record, board);
    if number != 0 {
        return Answer::refused(record, number);
    }
    let (leaf, passed, next) = pick(record.capacity, record.position);
    let after = Record {
        position: next,
        round: record.round.wrapping_add(u64::from(next == 1)),
        ..record
    };
    Answer::done(after, [board[usize::from(leaf)].into(), leaf.into(), passed.into(), record.round])
}

pub fn round(record: Record, board: &[u16], output: &mut [u16]) -> Answer {
    let c = record.capacity;
    let mut number = check_slot(record, board);
    if number == 0 && output.len() < c.into() {
        number = 11;
    }
    if number != 0 {
        return Answer::refused(record, number);
    }
    let mut p = 1;
    for entry in &mut output[..c.into()] {
        let (leaf, _, next) = pick(c, p);
        *entry = board[usize::from(leaf)];
        p = next;
    }
    Answer::done(record, [0; 4])
}

/// The widest gap of one round, and the one from its last serve over its end to the first of the next.
fn spacing(leaves: &[u16], name: u16) -> usize {
    let c = leaves.len() as u16;
    let (mut p, mut first, mut last, mut widest) = (1, NONE, 0, 0);
    for slot in 0..leaves.len() {
        let (leaf, _, next) = pick(c, p);
        if leaves[usize::from(leaf)] == name {
            if first == NONE {
                first = slot;
            } else {
                widest = widest.max(slot - last);
            }
            last = slot;
        }
        p = next;
    }
    widest.max(first + leaves.len() - last)
}

pub fn report(record: Record, board: &[u16], name: u16) -> Answer {
    let mut number = check_slot(record, board);
    if number == 0 && !good(&board[..record.capacity.into()]) {
        number = 5;
    }
    if number == 0 && name == 0 {
        number = 6;
    }
    if number != 0 {
        return Answer::refused(record, number);
    }
    let leaves = &board[..record.capacity.into()];
    let weight = weigh(leaves, name);
    if weight == 0 {
        return Answer::refused(record, 9);
    }
    Answer::done(record, [weight as u64, weight.count_ones().into(), spacing(leaves, name) as u64, 0])
}

pub fn save(record: Record, board: &[u16], output: &mut [u8]) -> Answer {
    let c = usize::from(record.capacity);
    let needed = c.div_ceil(253) * 512;
    let mut number = check_change(record, board);
    if number == 0 && output.len() < needed {
        number = 11;
    }
    if number != 0 {
        return Answer::refused(record, number);
    }
    for (b, (part, block)) in board[..c].chunks(253).zip(output.chunks_exact_mut(512)).enumerate() {
        let mut sum = (b as u16).wrapping_add(record.capacity);
        block[..2].copy_from_slice(&(b as u16).to_le_bytes());
        block[2..4].copy_from_slice(&record.capacity.to_le_bytes());
        for (two, &leaf) in block[4..].chunks_exact_mut(2).zip(part) {
            two.copy_from_slice(&leaf.to_le_bytes());
            sum = sum.wrapping_add(leaf);
        }
        block[4 + 2 * part.len()..510].fill(0);
        block[510..].copy_from_slice(&0u16.wrapping_sub(sum).to_le_bytes());
    }
    Answer::done(record, [needed as u64, 0, 0, 0])
}

pub fn read(bytes: &[u8], board: &mut [u16]) -> Answer {
    let refused = |number| Answer::refused(at(0, 0), number);
    let word = |at: usize| u16::from_le_bytes([bytes[at], bytes[at + 1]]);
    if bytes.len() < 512 {
        return refused(12);
    }
    let c = word(2);
    let number = check_open(c, board);
    if number != 0 {
        return refused(number);
    }
    let capacity = usize::from(c);
    if bytes.len() != capacity.div_ceil(253) * 512 {
        return refused(12);
    }
    let mut leaves = [0u16; 4096];
    for (b, block) in bytes.chunks_exact(512).enumerate() {
        let words = || block.chunks_exact(2).map(|two| u16::from_le_bytes([two[0], two[1]]));
        let sum = words().fold(0u16, u16::wrapping_add);
        if word(512 * b) != b as u16 || word(512 * b + 2) != c || sum != 0 {
            return refused(12);
        }
        let first = 253 * b;
        let many = (capacity - first).min(253);
        for (leaf, x) in leaves[first..first + many].iter_mut().zip(words().skip(2)) {
            *leaf = x;
        }
        if block[4 + 2 * many..510].iter().any(|&x| x != 0) {
            return refused(12);
        }
    }
    if !good(&leaves[..capacity]) {
        return refused(5);
    }
    board[..capacity].copy_from_slice(&leaves[..capacity]);
    Answer::done(at(c, 1), [0; 4])
}
