//! Document 02, No. 9, by the letter: sheets that list pieces, written and read, and the conversions from one form to the other; and the comparison of any
//! version with it.
use crate::drives::bounds;
use crate::letter::{self, good, pieces, Piece};
use crate::random::Random;
use crate::trial::{mend_sums, some_capacity, some_list, some_number, some_record, Letter, Tally};
use crate::waiting::{self, empty, LENGTH};
use crate::{at, Answer, Record, Records};

const CAPACITY: u16 = 1;
const SHORT: u16 = 2;
const MIDROUND: u16 = 4;
const DAMAGED: u16 = 5;
const OUTPUT: u16 = 11;
const BLOCK: u16 = 12;

/// "Up to 84 entries of six bytes."
const ENTRIES: usize = 84;

/// The calls, and the reader of the old form. A conversion is given no record, and says a number and how many bytes it wrote.
pub trait PieceSheets {
    fn save_pieces(&self, records: Records, board: &[u16], output: &mut [u8]) -> Answer;
    fn read_pieces(&self, sheet: &[u8], board: &mut [u16], list: &mut [u64]) -> Answer;
    fn read_leaves(&self, sheet: &[u8], board: &mut [u16], list: &mut [u64]) -> Answer;
    fn to_pieces(&self, sheet: &[u8], output: &mut [u8]) -> (u64, u64);
    fn to_leaves(&self, sheet: &[u8], output: &mut [u8]) -> (u64, u64);
}

/// A sheet's blocks of 255 numbers, each with "the same sum" behind it.
fn bytes_of(blocks: impl Iterator<Item = Vec<u16>>) -> Vec<u8> {
    let mut bytes = Vec::new();
    for mut block in blocks {
        block.resize(255, 0);
        let sum = block.iter().fold(0u16, |sum, &x| sum.wrapping_add(x));
        block.push(0u16.wrapping_sub(sum));
        bytes.extend(block.iter().flat_map(|x| x.to_le_bytes()));
    }
    bytes
}

/// "The pieces that aren't idle, by start."
fn named(leaves: &[u16]) -> Vec<Piece> {
    pieces(leaves).into_iter().filter(|piece| piece.name != 0).collect()
}

/// The sheet of a board at a position: "at least one block".
pub fn piece_sheet(leaves: &[u16], position: u16) -> Vec<u8> {
    let named = named(leaves);
    let blocks = named.len().div_ceil(ENTRIES).max(1);
    bytes_of((0..blocks).map(|number| {
        let mut block = vec![32768 + number as u16, leaves.len() as u16, position];
        for piece in named.iter().skip(ENTRIES * number).take(ENTRIES) {
            block.extend([piece.name, piece.start as u16, piece.size.trailing_zeros() as u16]);
        }
        block
    }))
}

fn words(bytes: &[u8]) -> Vec<u16> {
    bytes.chunks_exact(2).map(|two| u16::from_le_bytes([two[0], two[1]])).collect()
}

fn wrong_capacity(c: u16) -> bool {
    c == 0 || c > 4095
}

/// The entries of a block: `None` where something stands after the first that is all zeros.
fn entries(block: &[u16]) -> Option<Vec<[u16; 3]>> {
    let all: Vec<[u16; 3]> = block[3..255].chunks_exact(3).map(|e| [e[0], e[1], e[2]]).collect();
    let count = all.iter().position(|e| *e == [0; 3]).unwrap_or(ENTRIES);
    all[count..].iter().all(|e| *e == [0; 3]).then(|| all[..count].to_vec())
}

/// The layout: the leaves and p, or `None` for 12.
fn laid(bytes: &[u8]) -> Option<(Vec<u16>, u16)> {
    let words = words(bytes);
    let (c, p) = (words[1], words[2]);
    let positions = usize::from(c).next_power_of_two() * if c.is_power_of_two() { 2 } else { 1 };
    if !bytes.len().is_multiple_of(512) || p == 0 || usize::from(p) >= positions {
        return None;
    }
    let blocks = words.len() / 256;
    let mut list = Vec::new();
    for (number, block) in words.chunks(256).enumerate() {
        let sum = block.iter().fold(0u16, |sum, &x| sum.wrapping_add(x));
        if usize::from(block[0]) != 32768 + number || block[1] != c || block[2] != p || sum != 0 {
            return None;
        }
        let here = entries(block)?;
        let not_full = number + 1 < blocks && here.len() < ENTRIES;
        let empty_one = number > 0 && here.is_empty();
        if not_full || empty_one {
            return None;
        }
        list.extend(here);
    }
    let mut leaves = vec![0; c.into()];
    let mut end = 0;
    for &[name, start, exponent] in &list {
        let (start, size) = (usize::from(start), 1usize.checked_shl(exponent.into()).filter(|_| exponent < 13)?);
        if name == 0 || start < end || start % size != 0 || start + size > leaves.len() {
            return None;
        }
        leaves[start..start + size].fill(name);
        end = start + size;
    }
    let pieces = named(&leaves);
    let spelled = pieces.iter().map(|x| [x.name, x.start as u16, x.size.trailing_zeros() as u16]);
    spelled.eq(list).then_some((leaves, p))
}

fn put(output: &mut [u8], sheet: &[u8]) -> (u64, u64) {
    if output.len() < sheet.len() {
        return (OUTPUT.into(), 0);
    }
    output[..sheet.len()].copy_from_slice(sheet);
    (0, sheet.len() as u64)
}

impl PieceSheets for Letter {
    /// 1, 2, 3, "4 .. of the new sheet if their positions differ", 5, 11.
    fn save_pieces(&self, records: Records, board: &[u16], output: &mut [u8]) -> Answer {
        let own = records.own;
        let apart = || records.other.is_some_and(|other| other.position != own.position).then_some(MIDROUND);
        let damaged = || (!good(&board[..own.capacity.into()])).then_some(DAMAGED);
        if let Some(number) = bounds::<Letter>(records, board, false).or_else(apart).or_else(damaged) {
            return Answer::refused(own, number);
        }
        match put(output, &piece_sheet(&board[..own.capacity.into()], own.position)) {
            (0, bytes) => Answer::done(own, [bytes, 0, 0, 0]),
            (number, _) => Answer::refused(own, number as u16),
        }
    }

    /// 12 under 512 bytes, 1, 2, 12, 5; "saved at any p, read back with it".
    fn read_pieces(&self, sheet: &[u8], board: &mut [u16], list: &mut [u64]) -> Answer {
        let refused = |number| Answer::refused(at(0, 0), number);
        if sheet.len() < 512 {
            return refused(BLOCK);
        }
        let c = words(sheet)[1];
        if wrong_capacity(c) {
            return refused(CAPACITY);
        }
        if board.len() < c.into() || list.len() < LENGTH {
            return refused(SHORT);
        }
        match laid(sheet) {
            None => refused(BLOCK),
            Some((leaves, _)) if !good(&leaves) => refused(DAMAGED),
            Some((leaves, p)) => {
                board[..c.into()].copy_from_slice(&leaves);
                empty(list);
                Answer::done(at(c, p), [0; 4])
            }
        }
    }

    fn read_leaves(&self, sheet: &[u8], board: &mut [u16], list: &mut [u64]) -> Answer {
        waiting::read::<Letter>(sheet, board, list)
    }

    /// "A conversion checks as its read without 2, then 4 on the way back, then 11."
    fn to_pieces(&self, sheet: &[u8], output: &mut [u8]) -> (u64, u64) {
        let mut board = vec![0; 4095];
        let read = letter::read(sheet, &mut board);
        match read.number {
            0 => put(output, &piece_sheet(&board[..read.record.capacity.into()], 1)),
            number => (number.into(), 0),
        }
    }

    fn to_leaves(&self, sheet: &[u8], output: &mut [u8]) -> (u64, u64) {
        let mut board = vec![0; 4095];
        let read = self.read_pieces(sheet, &mut board, &mut [0; LENGTH]);
        match (read.number, read.record.position) {
            (0, 1) => put(output, &letter::sheet(&board[..read.record.capacity.into()])),
            (0, _) => (MIDROUND.into(), 0),
            (number, _) => (number.into(), 0),
        }
    }
}

const SAVE: usize = 0;
const READ: usize = 1;
const TO_PIECES: usize = 2;
const TO_LEAVES: usize = 3;
const OLD_READ: usize = 4;

const MAY: [(&str, &[usize]); 5] = [
    ("save of pieces", &[0, 1, 2, 3, 4, 5, 11]),
    ("read of pieces", &[0, 1, 2, 5, 12]),
    ("leaves to pieces", &[0, 1, 5, 11, 12]),
    ("pieces to leaves", &[0, 1, 4, 5, 11, 12]),
    ("read of leaves given pieces", &[2, 12]),
];

struct Trial<'a, S> {
    calls: &'a S,
    tally: Tally<5>,
}

impl<S: PieceSheets> Trial<'_, S> {
    fn save(&mut self, records: Records, board: &[u16], length: usize) {
        let made = |calls: &dyn PieceSheets| {
            let mut output = vec![7; length];
            (calls.save_pieces(records, board, &mut output), output)
        };
        let got = made(self.calls);
        assert_eq!(got, made(&Letter), "save of pieces {records:?} of {board:?}");
        self.tally.count(SAVE, got.0.number);
    }

    fn read(&mut self, sheet: &[u8], board: &[u16], list: &[u64]) {
        let made = |calls: &dyn PieceSheets| {
            let (mut board, mut list) = (board.to_vec(), list.to_vec());
            (calls.read_pieces(sheet, &mut board, &mut list), board, list)
        };
        let got = made(self.calls);
        assert_eq!(got, made(&Letter), "read of pieces {sheet:?}");
        self.tally.count(READ, got.0.number);
    }

    /// "An old reader answers 12 to any new sheet that gets past its earlier checks."
    fn old_reader(&mut self, sheet: &[u8], board: &[u16], list: &[u64]) {
        let (mut lent, mut numbers) = (board.to_vec(), list.to_vec());
        let answer = self.calls.read_leaves(sheet, &mut lent, &mut numbers);
        assert_eq!(answer, waiting::read::<Letter>(sheet, &mut board.to_vec(), &mut list.to_vec()));
        assert_eq!((lent.as_slice(), numbers.as_slice()), (board, list));
        self.tally.count(OLD_READ, answer.number);
    }

    fn convert(&mut self, sheet: &[u8], length: usize) {
        let made = |calls: &dyn PieceSheets| {
            let (mut there, mut back) = (vec![3; length], vec![3; length]);
            ((calls.to_pieces(sheet, &mut there), there), (calls.to_leaves(sheet, &mut back), back))
        };
        let got = made(self.calls);
        assert_eq!(got, made(&Letter), "conversions of {sheet:?}");
        let ((there, _), (back, _)) = got;
        self.tally.count(TO_PIECES, there.0);
        self.tally.count(TO_LEAVES, back.0);
    }

    /// Sheets of one board at one position: sound, and after one damage of each kind.
    fn sheets(&mut self, random: &mut Random, board: &[u16], record: Record) {
        let sheet = piece_sheet(board, record.position);
        let list = some_list(random, &[]);
        for kind in 0..18 {
            let mut damaged = sheet.clone();
            damage(random, kind, &mut damaged);
            if random.one_in(2) && kind != 1 {
                mend_sums(&mut damaged);
            }
            let lent = vec![6; (board.len() + 2).saturating_sub(random.below(4))];
            let short = if random.one_in(5) { LENGTH - 1 } else { list.len() };
            self.read(&damaged, &lent, &list[..short]);
            let room = random.pick(&[0, 511, 512, 1024, 8704, 25088]);
            self.convert(&damaged, room);
        }
        self.old_reader(&sheet, &vec![6; (board.len() + 2).saturating_sub(random.below(4))], &list);
        self.convert(&letter::sheet(board), 25088);
        self.convert(&letter::sheet(board), 512 * random.below(3));
    }

    fn board(&mut self, seed: u64) {
        let mut random = Random::new(seed);
        let c = some_capacity(&mut random);
        let record = Record {
            position: random.pick(&[1, 1, 2, 3, c, 2 * c - 1]),
            ..at(c, 1)
        };
        let mut board = some_board(&mut random, c);
        if random.one_in(4) {
            let at = random.below(c.into());
            board[at] = random.below(3) as u16;
        }
        let other = Record {
            position: random.pick(&[1, record.position, record.position, c]),
            ..record
        };
        for records in [
            Records::from(record),
            Records {
                own: record,
                other: Some(other),
            },
        ] {
            self.save(records, &board, 25088);
            self.save(records, &board, 512 * random.below(4));
            let wrong = Records {
                own: some_record(&mut random, record),
                other: records.other.map(|other| some_record(&mut random, other)),
            };
            self.save(wrong, &board, 25088);
        }
        self.sheets(&mut random, &board, record);
    }
}

/// A board after some adds and removes.
fn some_board(random: &mut Random, c: u16) -> Vec<u16> {
    let mut board = vec![0; c.into()];
    let largest = random.pick(&[1, 1, 2, 5, 30, 1000]);
    for _ in 0..random.pick(&[0, 3, 20, 100]) {
        let name = 1 + random.below(200) as u16;
        if random.one_in(4) {
            letter::remove(at(c, 1), &mut board, name);
        } else {
            letter::add(at(c, 1), &mut board, name, 1 + random.below(largest) as u16);
        }
    }
    board
}

/// One damage of a sheet; the first kind is none.
fn damage(random: &mut Random, kind: usize, sheet: &mut Vec<u8>) {
    let bytes = sheet.len();
    let at = 512 * random.below(bytes / 512);
    let entry = at + 6 + 6 * random.below(4);
    let flip = 1u8 << random.below(8);
    let put = |sheet: &mut Vec<u8>, at: usize, n: u16| sheet[at..at + 2].copy_from_slice(&n.to_le_bytes());
    match kind {
        0 => {}
        1 => sheet[at + 510] ^= flip,
        2 => sheet[at + random.below(2)] ^= flip,
        3 => sheet[at + 2 + random.below(2)] ^= flip,
        4 => sheet[at + 4 + random.below(2)] ^= flip,
        5 => sheet[entry + random.below(6)] ^= flip,
        6 => put(sheet, entry + 4, random.pick(&[0, 1, 12, 13, 65535])),
        7 => put(sheet, entry + 2, random.pick(&[0, 1, 4094, 4095, 65535])),
        8 => put(sheet, entry, random.below(3) as u16),
        9 => sheet.copy_within(entry..entry + 6, at + 6 + 6 * 83),
        10 => sheet.truncate(random.below(bytes)),
        11 => sheet.resize(bytes + 512, 0),
        12 => {
            let block = sheet[..512].to_vec();
            sheet.extend(block);
            put(sheet, bytes, 32768 + (bytes / 512) as u16);
        }
        13 => put(sheet, 2, some_number(random)),
        14 => (0..bytes / 512).for_each(|block| put(sheet, 512 * block + 4, flip.into())),
        15 => sheet[entry..entry + 6].fill(0),
        // A block that is not full before the last, where there are two; and one more block that has no entry.
        16 => sheet[6 + 6 * (ENTRIES - 1)..510].fill(0),
        _ => {
            let mut block = sheet[..512].to_vec();
            block[6..].fill(0);
            sheet.extend(block);
            put(sheet, bytes, 32768 + (bytes / 512) as u16);
        }
    }
}

/// Sheets of C = 8 at p = 1 whose entries are worked by hand, with what read answers.
const WORKED: [(&[[u16; 3]], u16); 9] = [
    (&[], 0),
    (&[[5, 0, 0], [6, 1, 0]], 0),
    (&[[5, 0, 2], [5, 4, 1]], 0),
    // Two entries that are one piece; two pieces of one size; out of order; overlapping; not aligned; beyond every board.
    (&[[5, 0, 0], [5, 1, 0]], 12),
    (&[[5, 0, 0], [5, 2, 0]], 5),
    (&[[6, 1, 0], [5, 0, 0]], 12),
    (&[[5, 0, 1], [6, 1, 0]], 12),
    (&[[5, 1, 1]], 12),
    (&[[5, 0, 65535]], 12),
];

/// The whole comparison: how many calls were compared.
pub fn compare(calls: &impl PieceSheets, seeds: u64) -> usize {
    let mut trial = Trial {
        calls,
        tally: Tally::new(MAY),
    };
    for seed in 0..seeds {
        trial.board(seed);
    }
    for (entries, number) in WORKED {
        let sheet = bytes_of([[&[32768, 8, 1], entries.concat().as_slice()].concat()].into_iter());
        let read = calls.read_pieces(&sheet, &mut [0; 8], &mut [0; LENGTH]);
        assert_eq!(read.number, number, "{entries:?}");
        trial.read(&sheet, &[9; 9], &[0; LENGTH]);
    }
    // 4,095 pieces are 49 blocks; 84 are one, 85 two.
    for c in [1, 84, 85, 168, 169, 4095] {
        let board: Vec<u16> = (1..=c).collect();
        assert_eq!(piece_sheet(&board, 1).len(), 512 * usize::from(c).div_ceil(84));
        trial.save(at(c, 1).into(), &board, 25088);
        trial.sheets(&mut Random::new(c.into()), &board, at(c, 1));
    }
    trial.tally.is_whole(0..MAY.len());
    trial.tally.calls()
}
