//! Other ways to share slots by weight, each as small as its paper has it. A stream is its index; weights are given once.
use std::cmp::Reverse;
use std::collections::BinaryHeap;

pub trait Scheduler {
    /// The stream that the next slot serves.
    fn next(&mut self) -> usize;

    /// Writes as many slots as there is room for, each as its stream's index and one more. Each scheduler has this loop compiled with its own `next`.
    fn fill(&mut self, names: &mut [u16]) {
        for name in names {
            *name = self.next() as u16 + 1;
        }
    }
}

/// Plain weighted turn: each stream in turn, as many slots in a row as it has weight.
pub struct Turn {
    weights: Vec<u32>,
    at: usize,
    left: u32,
}

impl Turn {
    pub fn new(weights: &[u32]) -> Turn {
        Turn {
            weights: weights.to_vec(),
            at: 0,
            left: weights[0],
        }
    }
}

impl Scheduler for Turn {
    fn next(&mut self) -> usize {
        if self.left == 0 {
            self.at = if self.at + 1 == self.weights.len() { 0 } else { self.at + 1 };
            self.left = self.weights[self.at];
        }
        self.left -= 1;
        self.at
    }
}

/// Smoothed round robin: the weight spread sequence picks a column of the weights' bits, and every stream with that bit is served once.
pub struct Smoothed {
    columns: Vec<Vec<usize>>,
    position: usize,
    column: usize,
    at: usize,
}

impl Smoothed {
    pub fn new(weights: &[u32]) -> Smoothed {
        let order = weights.iter().max().unwrap().ilog2() as usize + 1;
        let columns = (0..order)
            .map(|bit| (0..weights.len()).filter(|&i| weights[i] >> bit & 1 == 1).collect())
            .collect();
        Smoothed {
            columns,
            position: 0,
            column: 0,
            at: usize::MAX,
        }
    }
}

impl Scheduler for Smoothed {
    fn next(&mut self) -> usize {
        while self.at >= self.columns[self.column].len() {
            self.position = if self.position + 1 == 1 << self.columns.len() {
                1
            } else {
                self.position + 1
            };
            self.column = self.columns.len() - 1 - self.position.trailing_zeros() as usize;
            self.at = 0;
        }
        self.at += 1;
        self.columns[self.column][self.at - 1]
    }
}

/// Weighted tree walk (recursive round robin): a binary tree with a stream's powers of two at the depths that fit them; each node takes its
/// two sides in turn. The leaves that no stream holds are walked over.
pub struct Walk {
    /// A node is two children: a node's index, or a stream's with `STREAM` added, or `NOBODY`.
    nodes: Vec<[usize; 2]>,
    turn: Vec<u8>,
}

const STREAM: usize = 1 << 32;
const NOBODY: usize = usize::MAX;

impl Walk {
    pub fn new(weights: &[u32]) -> Walk {
        let total: u32 = weights.iter().sum();
        let k = total.next_power_of_two().ilog2();
        let mut parts: Vec<(u32, usize)> = Vec::new();
        for (i, &w) in weights.iter().enumerate() {
            parts.extend((0..=k).filter(|&bit| w >> bit & 1 == 1).map(|bit| (bit, i)));
        }
        parts.sort_by_key(|&(bit, i)| (Reverse(bit), i));
        let mut walk = Walk {
            nodes: Vec::new(),
            turn: Vec::new(),
        };
        let root = walk.build(k, &mut parts.into_iter().peekable());
        if root >= STREAM {
            walk.nodes.push([root, root]);
            walk.turn.push(0);
        }
        walk
    }

    /// A run of 2^k leaves, filled with the largest parts left: the node's index. The root comes first.
    fn build(&mut self, k: u32, parts: &mut std::iter::Peekable<impl Iterator<Item = (u32, usize)>>) -> usize {
        match parts.peek() {
            None => NOBODY,
            Some(&(bit, stream)) if bit == k => {
                parts.next();
                STREAM + stream
            }
            Some(_) => {
                let node = self.nodes.len();
                self.nodes.push([NOBODY; 2]);
                self.turn.push(0);
                for side in 0..2 {
                    self.nodes[node][side] = self.build(k - 1, parts);
                }
                node
            }
        }
    }
}

impl Scheduler for Walk {
    fn next(&mut self) -> usize {
        let mut node = 0;
        loop {
            let side = self.turn[node];
            self.turn[node] = 1 - side;
            match self.nodes[node][usize::from(side)] {
                NOBODY => node = 0,
                stream if stream >= STREAM => return stream - STREAM,
                inner => node = inner,
            }
        }
    }
}

/// Smooth weighted round robin, as nginx has it: every stream gains its weight, the one ahead is served and pays the total.
pub struct Nginx {
    weights: Vec<i64>,
    current: Vec<i64>,
    total: i64,
}

impl Nginx {
    pub fn new(weights: &[u32]) -> Nginx {
        let weights: Vec<i64> = weights.iter().map(|&w| w.into()).collect();
        Nginx {
            current: vec![0; weights.len()],
            total: weights.iter().sum(),
            weights,
        }
    }
}

impl Scheduler for Nginx {
    fn next(&mut self) -> usize {
        let mut best = 0;
        for i in 0..self.weights.len() {
            self.current[i] += self.weights[i];
            if self.current[i] > self.current[best] {
                best = i;
            }
        }
        self.current[best] -= self.total;
        best
    }
}

/// Stride: a heap of virtual times; the earliest is served and put back a stride later.
pub struct Stride {
    strides: Vec<u64>,
    heap: BinaryHeap<Reverse<(u64, usize)>>,
}

impl Stride {
    pub fn new(weights: &[u32]) -> Stride {
        let strides: Vec<u64> = weights.iter().map(|&w| (1 << 40) / u64::from(w)).collect();
        let heap = strides.iter().enumerate().map(|(i, &s)| Reverse((s, i))).collect();
        Stride { strides, heap }
    }
}

impl Scheduler for Stride {
    fn next(&mut self) -> usize {
        let mut first = self.heap.peek_mut().unwrap();
        let i = first.0 .1;
        first.0 .0 += self.strides[i];
        i
    }
}

/// Deficit round robin with blocks of one length: in each turn a stream's credit grows by its weight over the least weight, and it is served
/// while its credit lasts.
pub struct Deficit {
    quanta: Vec<u64>,
    credit: Vec<u64>,
    at: usize,
}

/// What one block costs.
const BLOCK: u64 = 1 << 20;

impl Deficit {
    pub fn new(weights: &[u32]) -> Deficit {
        let least = u64::from(*weights.iter().min().unwrap());
        let quanta: Vec<u64> = weights.iter().map(|&w| BLOCK * u64::from(w) / least).collect();
        let mut credit = vec![0; quanta.len()];
        credit[0] = quanta[0];
        Deficit { quanta, credit, at: 0 }
    }
}

impl Scheduler for Deficit {
    fn next(&mut self) -> usize {
        while self.credit[self.at] < BLOCK {
            self.at = if self.at + 1 == self.quanta.len() { 0 } else { self.at + 1 };
            self.credit[self.at] += self.quanta[self.at];
        }
        self.credit[self.at] -= BLOCK;
        self.at
    }
}

/// The worst lag of any stream over any successive slots within the first c: the largest |C s - w t| / C.
pub fn worst_lag(scheduler: &mut dyn Scheduler, weights: &[u32], c: usize) -> f64 {
    let share = |i: usize, t: usize| f64::from(weights[i]) * t as f64 / c as f64;
    let n = weights.len();
    let (mut served, mut low, mut high) = (vec![0usize; n], vec![0f64; n], vec![0f64; n]);
    for t in 0..c {
        let i = scheduler.next();
        low[i] = low[i].min(served[i] as f64 - share(i, t));
        served[i] += 1;
        high[i] = high[i].max(served[i] as f64 - share(i, t + 1));
    }
    let end = |i: usize| low[i].min(served[i] as f64 - share(i, c));
    (0..n).map(|i| high[i] - end(i)).fold(0.0, f64::max)
}
