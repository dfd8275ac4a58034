//! Document 02, No. 8: the walk of source document 001, figure 2. By the letter it goes down a tree that is built node by node, with the marks handed out
//! level by level; by hand it goes by indices. And the comparison of any version with the letter.
use crate::random::Random;
use crate::{at, letter};

const CAPACITY: u16 = 1;
const SHORT: u16 = 2;
const POWER: u16 = 16;

/// What a walk answers: the number (0 for done), the name and the leaf, zeros where it is refused.
#[derive(Clone, Copy, Debug, PartialEq, Eq)]
pub struct Walked {
    pub number: u16,
    pub name: u64,
    pub leaf: u64,
}

/// A version of the walk: it is given C, the board and the marks.
pub type Version = fn(u16, &[u16], &mut [u16]) -> Walked;

fn refused(number: u16) -> Walked {
    Walked { number, name: 0, leaf: 0 }
}

enum Node {
    Leaf(usize),
    Inner { mark: u16, left: Box<Node>, right: Box<Node> },
}

/// The tree over the leaves from one to another, with clear marks.
fn grown(first: usize, end: usize) -> Node {
    if end - first == 1 {
        return Node::Leaf(first);
    }
    let middle = (first + end) / 2;
    Node::Inner {
        mark: 0,
        left: Box::new(grown(first, middle)),
        right: Box::new(grown(middle, end)),
    }
}

/// The marks of a tree, "by level, root first".
fn by_level(root: &mut Node) -> Vec<&mut u16> {
    let (mut marks, mut level) = (Vec::new(), vec![root]);
    while !level.is_empty() {
        let mut below = Vec::new();
        for node in level {
            if let Node::Inner { mark, left, right } = node {
                marks.push(mark);
                below.extend([left.as_mut(), right.as_mut()]);
            }
        }
        level = below;
    }
    marks
}

/// "At every inner node a mark of 0 becomes 1 and leads left, any other becomes 0 and leads right."
fn visit(node: &mut Node) -> usize {
    match node {
        Node::Leaf(leaf) => *leaf,
        Node::Inner { mark, left, .. } if *mark == 0 => {
            *mark = 1;
            visit(left)
        }
        Node::Inner { mark, right, .. } => {
            *mark = 0;
            visit(right)
        }
    }
}

/// By the letter. "16 POWER, after 1, when C has more than one set bit; 2 also with fewer than C - 1 marks."
pub fn walk(capacity: u16, board: &[u16], marks: &mut [u16]) -> Walked {
    if !(1..=4095).contains(&capacity) {
        return refused(CAPACITY);
    }
    if capacity.count_ones() > 1 {
        return refused(POWER);
    }
    let c = usize::from(capacity);
    if board.len() < c || marks.len() < c - 1 {
        return refused(SHORT);
    }
    let mut root = grown(0, c);
    for (own, lent) in by_level(&mut root).into_iter().zip(&*marks) {
        *own = *lent;
    }
    let leaf = visit(&mut root);
    for (own, lent) in by_level(&mut root).into_iter().zip(marks) {
        *lent = *own;
    }
    Walked {
        number: 0,
        name: board[leaf].into(),
        leaf: leaf as u64,
    }
}

/// By hand, for speed: nodes are counted from 1, so that the two below node n are 2 n and 2 n + 1.
pub fn walk_by_hand(capacity: u16, board: &[u16], marks: &mut [u16]) -> Walked {
    let c = usize::from(capacity);
    if c == 0 || c > 4095 {
        return refused(CAPACITY);
    }
    if !c.is_power_of_two() {
        return refused(POWER);
    }
    if board.len() < c || marks.len() < c - 1 {
        return refused(SHORT);
    }
    let mut node = 1;
    while node < c {
        let mark = &mut marks[node - 1];
        let right = *mark != 0;
        *mark = u16::from(!right);
        node = 2 * node + usize::from(right);
    }
    Walked {
        number: 0,
        name: board[node - c].into(),
        leaf: (node - c) as u64,
    }
}

/// One walk of a version and of the letter, each on marks of its own, all of which are compared; they are left as the walk left them.
fn same(version: Version, c: u16, board: &[u16], marks: &mut [u16]) -> Walked {
    let mut other = marks.to_vec();
    let what = format!("walk {c} of {} entries and {} marks", board.len(), marks.len());
    let expected = walk(c, board, &mut other);
    assert_eq!(version(c, board, marks), expected, "{what}");
    if let Some(i) = (0..other.len()).find(|&i| other[i] != marks[i]) {
        panic!("{what}: mark {i} is {}, the paper has {}", marks[i], other[i]);
    }
    expected
}

/// Rounds of a version from clear marks: the leaves and names are those of the slots from p = 1, and the marks are clear after each C walks and at no
/// other time.
fn rounds(version: Version, c: u16, many: usize) -> usize {
    let board: Vec<u16> = (0..c).map(|leaf| 5000 + leaf).collect();
    let mut marks = vec![0; usize::from(c) - 1];
    let mut record = at(c, 1);
    for i in 1..=many * usize::from(c) {
        let slot = letter::slot(record, &board);
        let walked = same(version, c, &board, &mut marks);
        assert_eq!([walked.name, walked.leaf], slot.values[..2], "slot {i} of C = {c}");
        let clear = marks.iter().all(|&mark| mark == 0);
        assert_eq!(clear, i % usize::from(c) == 0, "the marks after slot {i} of C = {c}");
        record = slot.record;
    }
    many * usize::from(c)
}

/// Walks by any marks, of boards and marks that are long enough or not.
fn odd(version: Version, seed: u64, met: &mut [usize; 17]) -> usize {
    let mut random = Random::new(seed);
    let c = match random.below(8) {
        0 => random.pick(&[0, 3, 6, 4095, 4096, 6144, 8192, 65535]),
        1 => random.draw() as u16,
        _ => 1 << random.below(12),
    };
    let near = |random: &mut Random, n: usize| if random.one_in(8) { n.saturating_sub(1) } else { n + random.below(4) };
    let leaves = usize::from(c).min(4097);
    let (entries, many) = (near(&mut random, leaves), near(&mut random, leaves.saturating_sub(1)));
    let board: Vec<u16> = (0..entries).map(|_| random.draw() as u16).collect();
    let mut marks: Vec<u16> = (0..many).map(|_| random.pick(&[0, 0, 1, 2, 7, 256, 65535])).collect();
    for _ in 0..20 {
        met[usize::from(same(version, c, &board, &mut marks).number)] += 1;
    }
    20
}

/// The whole comparison: how many walks were compared.
pub fn compare(version: Version) -> usize {
    let mut many = 0;
    for k in 0..12 {
        many += rounds(version, 1 << k, if k < 9 { 3 } else { 1 });
    }
    let mut met = [0; 17];
    for seed in 0..600 {
        many += odd(version, seed, &mut met);
    }
    let numbers: Vec<usize> = (0..17).filter(|&number| met[number] > 0).collect();
    assert_eq!(numbers, [0, 1, 2, 16], "what the walks answered");
    many
}
