//! Document 02, No. 7, by the letter: the calls that are lent the tables of over-allocated streams, for two drives with the waiting list, over the
//! calls of [`letter`] that are made at once. A single drive has its record in both places.
use crate::batch::Entry;
use crate::letter::{self, Piece};
use crate::piece_sheets::{piece_sheet, PieceSheets};
use crate::trial::Letter;
use crate::waiting::{self, Order, LENGTH};
use crate::{at, drives, Answer, Record, Records};

const SHORT: u16 = 2;
const MIDROUND: u16 = 4;
const DAMAGED: u16 = 5;
const NAME: u16 = 6;
const WEIGHT: u16 = 7;
const ABSENT: u16 = 9;
const OUTPUT: u16 = 11;
const KIND: u16 = 17;

/// What is lent: the board, "deficit and r .. in lent tables, one entry for each leaf", a table of deficits for the own drive and one for the other,
/// and the list. A deficit is never above 0: an entry is how far it is below.
#[derive(Clone, Debug, PartialEq, Eq)]
pub struct Lent {
    pub board: Vec<u16>,
    pub rates: Vec<u16>,
    pub owed: [Vec<u16>; 2],
    pub list: Vec<u64>,
}

/// The calls: those of a change are told by their order, 1 add, 2 remove, 3 over-allocated add.
pub trait Shared {
    fn open(&self, capacity: u16, lent: &mut Lent) -> Answer;
    fn read(&self, sheet: &[u8], lent: &mut Lent) -> Answer;
    fn change(&self, records: Records, lent: &mut Lent, order: Order) -> Answer;
    fn slot(&self, records: Records, lent: &mut Lent) -> Answer;
    /// Slot with the own record moved on where it is, for a version that has it.
    fn slot_here(&self, records: Records, lent: &mut Lent) -> Answer {
        self.slot(records, lent)
    }
    fn round(&self, records: Records, lent: &Lent, output: &mut [u16]) -> Answer;
    fn report(&self, records: Records, lent: &Lent, name: u16) -> Answer;
    fn save(&self, records: Records, lent: &Lent, output: &mut [u8]) -> Answer;
    fn save_pieces(&self, records: Records, lent: &Lent, output: &mut [u8]) -> Answer;
    fn read_pieces(&self, sheet: &[u8], lent: &mut Lent) -> Answer;
    fn fresh(&self, records: Records, lent: &mut Lent) -> Answer;
    fn batch(&self, records: Records, lent: &mut Lent, table: &mut [Entry]) -> Record;
}

/// "One piece of R leaves, the smallest power of two not below r."
fn held(r: u16) -> u32 {
    u32::from(r).next_power_of_two()
}

impl Lent {
    fn tables(&self) -> [&Vec<u16>; 3] {
        [&self.rates, &self.owed[0], &self.owed[1]]
    }

    fn tables_mut(&mut self) -> [&mut Vec<u16>; 3] {
        let [own, other] = &mut self.owed;
        [&mut self.rates, own, other]
    }

    /// "2 also when such a table is shorter than C", and for the list.
    fn short(&self, capacity: u16) -> bool {
        self.list.len() < LENGTH || self.tables().iter().any(|table| table.len() < capacity.into())
    }

    /// The board's own clearing is open's or read's.
    fn cleared(&mut self, capacity: u16) {
        for table in self.tables_mut() {
            table[..capacity.into()].fill(0);
        }
        waiting::empty(&mut self.list);
    }

    fn lowest(&self, c: usize, name: u16) -> Option<usize> {
        self.board[..c].iter().position(|&x| x == name)
    }

    /// What a stream was added with, 0 for one that is not over-allocated.
    fn rate(&self, c: usize, name: u16) -> u16 {
        match self.lowest(c, name) {
            Some(leaf) if name != 0 => self.rates[leaf],
            _ => 0,
        }
    }

    /// "An r above 0 is off the lowest leaf of a one-piece stream of R leaves."
    fn off(leaves: &[u16], pieces: &[Piece], i: usize, r: u16) -> bool {
        let own: Vec<&Piece> = pieces.iter().filter(|piece| piece.name == leaves[i]).collect();
        let one = own.len() == 1 && own[0].start == i && own[0].size == held(r) as usize;
        r > 0 && !(leaves[i] != 0 && one)
    }

    /// 5: the board is not good, or r or a deficit is not what it can be.
    fn damaged(&self, c: usize) -> bool {
        let leaves = &self.board[..c];
        let pieces = letter::pieces(leaves);
        let wrong_deficit = |i: usize, v: u16| {
            if self.rates[i] == 0 {
                v != 0
            } else {
                u32::from(v) >= held(self.rates[i])
            }
        };
        !letter::good(leaves)
            || (0..c).any(|i| Lent::off(leaves, &pieces, i, self.rates[i]))
            || self.owed.iter().any(|table| (0..c).any(|i| wrong_deficit(i, table[i])))
    }

    /// A change of the board: the entries of each stream that is still there "move with its piece", and every other entry is 0.
    fn moving(&mut self, c: usize, change: impl FnOnce(&mut [u16]) -> Answer) -> Answer {
        let before = self.clone();
        let answer = change(&mut self.board);
        for table in self.tables_mut() {
            table[..c].fill(0);
        }
        for leaf in 0..c {
            let name = self.board[leaf];
            if name != 0 && self.lowest(c, name) == Some(leaf) {
                let from = before.lowest(c, name).unwrap();
                for (table, old) in self.tables_mut().into_iter().zip(before.tables()) {
                    table[leaf] = old[from];
                }
            }
        }
        answer
    }

    /// "At each of its leaves": the name served, and the deficit after it.
    fn turn(&self, c: usize, name: u16, owed: &mut [u16]) -> u16 {
        let r = self.rate(c, name);
        if r == 0 {
            return name;
        }
        let leaf = self.lowest(c, name).unwrap();
        let (r, large, deficit) = (i64::from(r), i64::from(held(r)), -i64::from(owed[leaf]));
        let served = deficit > -r;
        let after = if served { deficit + r - large } else { deficit + r };
        owed[leaf] = (-after) as u16;
        if served {
            name
        } else {
            0
        }
    }

    /// The names of a round: "round takes every deficit as 0".
    fn names(&self, c: usize) -> Vec<u16> {
        let mut owed = vec![0; c];
        letter::round_leaves(c)
            .into_iter()
            .map(|leaf| self.turn(c, self.board[leaf], &mut owed))
            .collect()
    }
}

/// 1 to 3, and then "5, now from slot and round too".
fn refused(records: Records, lent: &Lent, list: bool) -> Option<u16> {
    let largest = records.own.capacity.max(records.other.map_or(0, |other| other.capacity));
    let short = lent.tables().iter().any(|table| table.len() < largest.into()) || (list && lent.list.len() < LENGTH);
    drives::bounds::<Letter>(records, &lent.board, short)
}

fn damaged(records: Records, lent: &Lent) -> Option<u16> {
    lent.damaged(records.own.capacity.into()).then_some(DAMAGED)
}

/// One order by the usual checks of a change made at once; that of kind 3 asks for R leaves, and 65,536 are more than any board has.
fn carry_out(record: Record, lent: &mut Lent, order: Order) -> Answer {
    let c = record.capacity.into();
    let Order { kind, name, weight } = order;
    match kind {
        1 => letter::add(record, &mut lent.board, name, weight),
        2 => {
            let mut tried = lent.clone();
            let answer = tried.moving(c, |board| letter::remove(record, board, name));
            if answer.number == 0 {
                *lent = tried;
            }
            answer
        }
        3 => {
            let asked = if weight == 0 { 0 } else { held(weight).min(65535) as u16 };
            let answer = letter::add(record, &mut lent.board, name, asked);
            if answer.number == 0 {
                let leaf = lent.lowest(c, name).unwrap();
                lent.rates[leaf] = weight;
            }
            answer
        }
        _ => Answer::refused(record, WEIGHT),
    }
}

impl Shared for Letter {
    /// "Open and read clear the first C entries."
    fn open(&self, capacity: u16, lent: &mut Lent) -> Answer {
        let mut board = lent.board.clone();
        let answer = letter::open(capacity, &mut board);
        if answer.number != 0 {
            return answer;
        }
        if lent.short(capacity) {
            return Answer::refused(at(0, 0), SHORT);
        }
        lent.board = board;
        lent.cleared(capacity);
        answer
    }

    /// What else is too short is 2 where the board is.
    fn read(&self, sheet: &[u8], lent: &mut Lent) -> Answer {
        let c = if sheet.len() < 4 { 0 } else { u16::from_le_bytes([sheet[2], sheet[3]]) };
        if lent.short(c) {
            let early = letter::read(sheet, &mut []);
            return if early.number == 0 { Answer::refused(at(0, 0), SHORT) } else { early };
        }
        let answer = letter::read(sheet, &mut lent.board);
        if answer.number == 0 {
            lent.cleared(c);
        }
        answer
    }

    fn change(&self, records: Records, lent: &mut Lent, order: Order) -> Answer {
        let record = records.own;
        if let Some(number) = refused(records, lent, true).or_else(|| damaged(records, lent)) {
            return Answer::refused(record, number);
        }
        if records.start() && waiting::counts(&lent.list).1 == 0 {
            return carry_out(record, lent, order);
        }
        if order.name == 0 {
            return Answer::refused(record, NAME);
        }
        if order.kind != 2 && order.weight == 0 {
            return Answer::refused(record, WEIGHT);
        }
        waiting::take(record, &mut lent.list, order)
    }

    fn slot(&self, records: Records, lent: &mut Lent) -> Answer {
        let record = records.own;
        if let Some(number) = refused(records, lent, true).or_else(|| damaged(records, lent)) {
            return Answer::refused(record, number);
        }
        if records.start() {
            let mut list = lent.list.clone();
            waiting::run(&mut list, |order| carry_out(record, lent, order));
            lent.list = list;
        }
        let mut answer = letter::slot(record, &lent.board);
        let mut owed = lent.owed[0].clone();
        answer.values[0] = lent.turn(record.capacity.into(), answer.values[0] as u16, &mut owed).into();
        lent.owed[0] = owed;
        answer
    }

    fn round(&self, records: Records, lent: &Lent, output: &mut [u16]) -> Answer {
        let c = usize::from(records.own.capacity);
        let short = || (output.len() < c).then_some(OUTPUT);
        if let Some(number) = refused(records, lent, false).or_else(|| damaged(records, lent)).or_else(short) {
            return Answer::refused(records.own, number);
        }
        output[..c].copy_from_slice(&lent.names(c));
        Answer::done(records.own, [0; 4])
    }

    /// "Report gives r, and spacing over serves as round writes them."
    fn report(&self, records: Records, lent: &Lent, name: u16) -> Answer {
        let c = usize::from(records.own.capacity);
        let unnamed = || (name == 0).then_some(NAME);
        let absent = || lent.lowest(c, name).is_none().then_some(ABSENT);
        let found = refused(records, lent, false)
            .or_else(|| damaged(records, lent))
            .or_else(unnamed)
            .or_else(absent);
        if let Some(number) = found {
            return Answer::refused(records.own, number);
        }
        let plain = letter::report(records.own, &lent.board, name);
        let r = lent.rate(c, name);
        let weight = if r == 0 { plain.values[0] } else { r.into() };
        let spacing = letter::spacing(&lent.names(c), name) as u64;
        Answer::done(records.own, [weight, plain.values[1], spacing, 0])
    }

    /// "17 KIND, last, for save while such a stream is held."
    fn save(&self, records: Records, lent: &Lent, output: &mut [u8]) -> Answer {
        let c = usize::from(records.own.capacity);
        let away = || (!records.start()).then_some(MIDROUND);
        let short = || (output.len() < c.div_ceil(253) * 512).then_some(OUTPUT);
        let kind = || lent.rates[..c].iter().any(|&r| r > 0).then_some(KIND);
        let found = refused(records, lent, false)
            .or_else(away)
            .or_else(|| damaged(records, lent))
            .or_else(short)
            .or_else(kind);
        match found {
            Some(number) => Answer::refused(records.own, number),
            None => letter::save(records.own, &lent.board, output),
        }
    }

    /// Document 02, No. 9: "4 .. of the new sheet if their positions differ"; "over-allocated streams cannot be put in either form"; "17 as before".
    fn save_pieces(&self, records: Records, lent: &Lent, output: &mut [u8]) -> Answer {
        let c = usize::from(records.own.capacity);
        let apart = || {
            records
                .other
                .is_some_and(|other| other.position != records.own.position)
                .then_some(MIDROUND)
        };
        let early = refused(records, lent, false).or_else(apart).or_else(|| damaged(records, lent));
        let kind = || lent.rates[..c].iter().any(|&r| r > 0).then_some(KIND);
        let short = || (output.len() < piece_sheet(&lent.board[..c], records.own.position).len()).then_some(OUTPUT);
        match early.or_else(short).or_else(kind) {
            Some(number) => Answer::refused(records.own, number),
            None => PieceSheets::save_pieces(self, records, &lent.board, output),
        }
    }

    fn read_pieces(&self, sheet: &[u8], lent: &mut Lent) -> Answer {
        let c = if sheet.len() < 4 { 0 } else { u16::from_le_bytes([sheet[2], sheet[3]]) };
        if lent.short(c) {
            let early = PieceSheets::read_pieces(self, sheet, &mut [], &mut [0; LENGTH]);
            return if early.number == 0 { Answer::refused(at(0, 0), SHORT) } else { early };
        }
        let answer = PieceSheets::read_pieces(self, sheet, &mut lent.board, &mut lent.list);
        if answer.number == 0 {
            lent.cleared(c);
        }
        answer
    }

    /// Document 02, No. 12: "over-allocated streams count with R and keep their deficits".
    fn fresh(&self, records: Records, lent: &mut Lent) -> Answer {
        let away = || (!records.start()).then_some(MIDROUND);
        match refused(records, lent, false).or_else(away).or_else(|| damaged(records, lent)) {
            Some(number) => Answer::refused(records.own, number),
            None => lent.moving(records.own.capacity.into(), |board| letter::fresh(records.own, board)),
        }
    }

    /// "Kind 3 in a batch"; any other kind but 1 and 2 is answered 7 first.
    fn batch(&self, records: Records, lent: &mut Lent, table: &mut [Entry]) -> Record {
        for entry in table {
            let order = Order {
                kind: entry.kind,
                name: entry.name,
                weight: if entry.kind == 2 { 0 } else { entry.weight },
            };
            let answer = match entry.kind {
                1..=3 => self.change(records, lent, order),
                _ => Answer::refused(records.own, WEIGHT),
            };
            entry.number = answer.number;
            entry.value = answer.values[0];
        }
        records.own
    }
}
