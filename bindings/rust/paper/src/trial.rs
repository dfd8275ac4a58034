//! Comparison of any version of the calls with [`letter`]: the answer, the record and every entry of every lent slice, on every small board and
//! on many thousand random inputs.
use crate::batch::{self, Entry};
use crate::random::Random;
use crate::waiting::{self, AtOnce, LENGTH};
use crate::{at, drives, hand, letter, Answer, Record, Records};

/// The calls, with the waiting list, for one drive and for two. Fetch takes no record, and says a number and a value.
pub trait Calls {
    fn open(&self, capacity: u16, board: &mut [u16], list: &mut [u64]) -> Answer;
    fn add(&self, records: Records, board: &mut [u16], list: &mut [u64], name: u16, weight: u16) -> Answer;
    fn remove(&self, records: Records, board: &mut [u16], list: &mut [u64], name: u16) -> Answer;
    fn slot(&self, records: Records, board: &mut [u16], list: &mut [u64]) -> Answer;
    /// Slot with the own record moved on where it is, for a version that has it.
    fn slot_here(&self, records: Records, board: &mut [u16], list: &mut [u64]) -> Answer {
        self.slot(records, board, list)
    }
    fn batch(&self, records: Records, board: &mut [u16], list: &mut [u64], table: &mut [Entry]) -> Record;
    fn fresh(&self, records: Records, board: &mut [u16]) -> Answer;
    fn round(&self, records: Records, board: &[u16], output: &mut [u16]) -> Answer;
    fn report(&self, records: Records, board: &[u16], name: u16) -> Answer;
    fn save(&self, records: Records, board: &[u16], output: &mut [u8]) -> Answer;
    fn read(&self, sheet: &[u8], board: &mut [u16], list: &mut [u64]) -> Answer;
    fn fetch(&self, list: &mut [u64], ticket: u64) -> (u64, u64);
}

/// A version by a module of this crate, with the list over its calls made at once.
macro_rules! version {
    ($(#[$about:meta])* $version:ident, $module:ident) => {
        $(#[$about])*
        pub struct $version;

        impl AtOnce for $version {
            fn open(capacity: u16, board: &mut [u16]) -> Answer {
                $module::open(capacity, board)
            }
            fn add(record: Record, board: &mut [u16], name: u16, weight: u16) -> Answer {
                $module::add(record, board, name, weight)
            }
            fn remove(record: Record, board: &mut [u16], name: u16) -> Answer {
                $module::remove(record, board, name)
            }
            fn fresh(record: Record, board: &mut [u16]) -> Answer {
                $module::fresh(record, board)
            }
            fn slot(record: Record, board: &[u16]) -> Answer {
                $module::slot(record, board)
            }
            fn round(record: Record, board: &[u16], output: &mut [u16]) -> Answer {
                $module::round(record, board, output)
            }
            fn report(record: Record, board: &[u16], name: u16) -> Answer {
                $module::report(record, board, name)
            }
            fn save(record: Record, board: &[u16], output: &mut [u8]) -> Answer {
                $module::save(record, board, output)
            }
            fn read(sheet: &[u8], board: &mut [u16]) -> Answer {
                $module::read(sheet, board)
            }
            fn good(leaves: &[u16]) -> bool {
                $module::good(leaves)
            }
        }

        impl Calls for $version {
            fn open(&self, capacity: u16, board: &mut [u16], list: &mut [u64]) -> Answer {
                waiting::open::<Self>(capacity, board, list)
            }
            fn add(&self, records: Records, board: &mut [u16], list: &mut [u64], name: u16, weight: u16) -> Answer {
                waiting::add::<Self>(records, board, list, name, weight)
            }
            fn remove(&self, records: Records, board: &mut [u16], list: &mut [u64], name: u16) -> Answer {
                waiting::remove::<Self>(records, board, list, name)
            }
            fn slot(&self, records: Records, board: &mut [u16], list: &mut [u64]) -> Answer {
                waiting::slot::<Self>(records, board, list)
            }
            fn batch(&self, records: Records, board: &mut [u16], list: &mut [u64], table: &mut [Entry]) -> Record {
                batch::batch::<Self>(records, board, list, table)
            }
            fn fresh(&self, records: Records, board: &mut [u16]) -> Answer {
                drives::fresh::<Self>(records, board)
            }
            fn round(&self, records: Records, board: &[u16], output: &mut [u16]) -> Answer {
                drives::round::<Self>(records, board, output)
            }
            fn report(&self, records: Records, board: &[u16], name: u16) -> Answer {
                drives::report::<Self>(records, board, name)
            }
            fn save(&self, records: Records, board: &[u16], output: &mut [u8]) -> Answer {
                drives::save::<Self>(records, board, output)
            }
            fn read(&self, sheet: &[u8], board: &mut [u16], list: &mut [u64]) -> Answer {
                waiting::read::<Self>(sheet, board, list)
            }
            fn fetch(&self, list: &mut [u64], ticket: u64) -> (u64, u64) {
                waiting::fetch(list, ticket)
            }
        }
    };
}

version! {
    /// The version by the papers' words.
    Letter, letter
}

version! {
    /// The version written for speed.
    Hand, hand
}

/// What each call may answer.
const MAY: [(&str, &[usize]); 11] = [
    ("open", &[0, 1, 2]),
    ("add", &[0, 1, 2, 3, 5, 6, 7, 8, 10, 13, 14]),
    ("remove", &[0, 1, 2, 3, 5, 6, 9, 13, 14]),
    ("slot", &[0, 1, 2, 3]),
    ("round", &[0, 1, 2, 3, 11]),
    ("report", &[0, 1, 2, 3, 5, 6, 9]),
    ("save", &[0, 1, 2, 3, 4, 5, 11]),
    ("read", &[0, 1, 2, 5, 12]),
    ("fetch", &[0, 5, 8, 9, 10, 13, 15]),
    ("batch", &[0, 1, 2, 3, 5, 6, 7, 8, 9, 10, 13, 14]),
    ("fresh", &[0, 1, 2, 3, 4, 5]),
];

/// The calls that are given a record, and so the record of another drive too.
const GIVEN: [usize; 8] = [1, 2, 3, 4, 5, 6, 9, 10];

/// How often each of N calls gave each number, done as 0.
pub struct Tally<const N: usize> {
    may: [(&'static str, &'static [usize]); N],
    counts: [[usize; 19]; N],
}

impl<const N: usize> Tally<N> {
    pub fn new(may: [(&'static str, &'static [usize]); N]) -> Self {
        Tally { may, counts: [[0; 19]; N] }
    }

    pub fn count(&mut self, call: usize, number: impl Into<u64>) {
        self.counts[call][number.into() as usize] += 1;
    }

    /// Every answer that these calls may give was met, and no other.
    pub fn is_whole(&self, calls: impl IntoIterator<Item = usize>) {
        for call in calls {
            let (name, may) = self.may[call];
            for (number, &count) in self.counts[call].iter().enumerate() {
                assert_eq!(count > 0, may.contains(&number), "{name} answered {number} {count} times");
            }
        }
    }

    pub fn calls(&self) -> usize {
        self.counts.iter().flatten().sum()
    }
}

/// One version beside the paper's letter, and what was answered to one drive and to two.
pub struct Trial<'a, C: Calls> {
    pub calls: &'a C,
    pub tally: Tally<11>,
    pub tally_of_two: Tally<11>,
}

impl<'a, C: Calls> Trial<'a, C> {
    pub fn new(calls: &'a C) -> Self {
        Trial {
            calls,
            tally: Tally::new(MAY),
            tally_of_two: Tally::new(MAY),
        }
    }

    /// Runs both on their own copies of what is lent and compares; it is left as the call left it.
    fn same<T: Clone + PartialEq + std::fmt::Debug, A: PartialEq + std::fmt::Debug>(
        &mut self,
        call: usize,
        what: &dyn std::fmt::Debug,
        lent: &mut [T],
        list: &mut [u64],
        ours: impl FnOnce(&C, &mut [T], &mut [u64]) -> A,
        paper: impl FnOnce(&mut [T], &mut [u64]) -> A,
    ) -> A {
        let (mut other, mut other_list) = (lent.to_vec(), list.to_vec());
        let before = (other.clone(), other_list.clone());
        let expected = paper(&mut other, &mut other_list);
        let got = ours(self.calls, lent, list);
        let name = MAY[call].0;
        assert_eq!(got, expected, "{name} {what:?} of {before:?}");
        if let Some(i) = (0..other.len()).find(|&i| other[i] != lent[i]) {
            panic!("{name} {what:?} of {before:?}: entry {i} is {:?}, the paper has {:?}", lent[i], other[i]);
        }
        if let Some(i) = (0..other_list.len()).find(|&i| other_list[i] != list[i]) {
            panic!(
                "{name} {what:?} of {before:?}: number {i} of the list is {}, the paper has {}",
                list[i], other_list[i]
            );
        }
        got
    }

    fn tallied(&mut self, call: usize, two: bool, answer: Answer) -> Answer {
        let tally = if two { &mut self.tally_of_two } else { &mut self.tally };
        tally.count(call, answer.number);
        answer
    }

    pub fn open(&mut self, c: u16, board: &mut [u16], list: &mut [u64]) -> Answer {
        let answer = self.same(0, &c, board, list, |calls, b, l| calls.open(c, b, l), |b, l| Letter.open(c, b, l));
        self.tallied(0, false, answer)
    }

    pub fn add(&mut self, records: impl Into<Records>, board: &mut [u16], list: &mut [u64], name: u16, weight: u16) -> Answer {
        let r = records.into();
        let answer = self.same(
            1,
            &(r, name, weight),
            board,
            list,
            |calls, b, l| calls.add(r, b, l, name, weight),
            |b, l| Letter.add(r, b, l, name, weight),
        );
        self.tallied(1, r.other.is_some(), answer)
    }

    pub fn remove(&mut self, records: impl Into<Records>, board: &mut [u16], list: &mut [u64], name: u16) -> Answer {
        let r = records.into();
        let answer = self.same(
            2,
            &(r, name),
            board,
            list,
            |calls, b, l| calls.remove(r, b, l, name),
            |b, l| Letter.remove(r, b, l, name),
        );
        self.tallied(2, r.other.is_some(), answer)
    }

    /// Both forms of slot, the one that moves the record where it is on copies.
    pub fn slot(&mut self, records: impl Into<Records>, board: &mut [u16], list: &mut [u64]) -> Answer {
        let r = records.into();
        self.same(
            3,
            &r,
            &mut board.to_vec(),
            &mut list.to_vec(),
            |calls, b, l| calls.slot_here(r, b, l),
            |b, l| Letter.slot(r, b, l),
        );
        let answer = self.same(3, &r, board, list, |calls, b, l| calls.slot(r, b, l), |b, l| Letter.slot(r, b, l));
        self.tallied(3, r.other.is_some(), answer)
    }

    /// A table of changes: the record and every entry are compared.
    pub fn batch(&mut self, records: impl Into<Records>, board: &mut [u16], list: &mut [u64], table: &mut [Entry]) {
        let r = records.into();
        let carried = |calls: &dyn Calls, b: &mut [u16], l: &mut [u64]| {
            let mut entries = table.to_vec();
            (calls.batch(r, b, l, &mut entries), entries)
        };
        let (_, entries) = self.same(
            9,
            &(r, &table),
            board,
            list,
            |calls, b, l| carried(calls, b, l),
            |b, l| carried(&Letter, b, l),
        );
        table.copy_from_slice(&entries);
        let tally = if r.other.is_some() { &mut self.tally_of_two } else { &mut self.tally };
        for entry in table {
            tally.count(9, entry.number);
        }
    }

    pub fn fresh(&mut self, records: impl Into<Records>, board: &mut [u16]) -> Answer {
        let r = records.into();
        let answer = self.same(10, &r, board, &mut [], |calls, b, _| calls.fresh(r, b), |b, _| Letter.fresh(r, b));
        self.tallied(10, r.other.is_some(), answer)
    }

    pub fn round(&mut self, records: impl Into<Records>, board: &[u16], output: &mut [u16]) -> Answer {
        let r = records.into();
        let answer = self.same(
            4,
            &(r, board),
            output,
            &mut [],
            |calls, o, _| calls.round(r, board, o),
            |o, _| Letter.round(r, board, o),
        );
        self.tallied(4, r.other.is_some(), answer)
    }

    pub fn report(&mut self, records: impl Into<Records>, board: &[u16], name: u16) -> Answer {
        let r = records.into();
        let answer = self.same::<u16, _>(
            5,
            &(r, board, name),
            &mut [],
            &mut [],
            |calls, _, _| calls.report(r, board, name),
            |_, _| Letter.report(r, board, name),
        );
        self.tallied(5, r.other.is_some(), answer)
    }

    pub fn save(&mut self, records: impl Into<Records>, board: &[u16], output: &mut [u8]) -> Answer {
        let r = records.into();
        let answer = self.same(
            6,
            &(r, board),
            output,
            &mut [],
            |calls, o, _| calls.save(r, board, o),
            |o, _| Letter.save(r, board, o),
        );
        self.tallied(6, r.other.is_some(), answer)
    }

    pub fn read(&mut self, sheet: &[u8], board: &mut [u16], list: &mut [u64]) -> Answer {
        let answer = self.same(
            7,
            &sheet,
            board,
            list,
            |calls, b, l| calls.read(sheet, b, l),
            |b, l| Letter.read(sheet, b, l),
        );
        self.tallied(7, false, answer)
    }

    /// An answer of a list that calls left is counted; one of a list that no call left may be any number.
    pub fn fetch(&mut self, list: &mut [u64], ticket: u64, odd: bool) -> (u64, u64) {
        let said = self.same::<u16, _>(
            8,
            &ticket,
            &mut [],
            list,
            |calls, _, l| calls.fetch(l, ticket),
            |_, l| Letter.fetch(l, ticket),
        );
        if !odd {
            self.tally.count(8, said.0);
        }
        said
    }

    /// Every capacity's round, and every position of the small ones, valid or not.
    pub fn orders(&mut self) {
        let mut board: Vec<u16> = (0..4095).collect();
        let mut output = [0; 4097];
        for c in 1..4096 {
            output.fill(7);
            self.round(at(c, 1), &board, &mut output);
        }
        for c in 0..70 {
            for p in 0..130 {
                self.slot(at(c, p), &mut board, &mut EMPTY.clone());
            }
        }
    }

    /// Rounds slot by slot, from numbers whose next ones have more digits, and from the largest, which 0 follows; and at every position of a round.
    pub fn rounds(&mut self) {
        let mut board: Vec<u16> = (0..70).collect();
        for c in 1..70 {
            for round in NUMBERS {
                let mut record = Record { round, ..at(c, 1) };
                for _ in 0..2 * c + 1 {
                    record = self.slot(record, &mut board, &mut EMPTY.clone()).record;
                }
                assert_eq!(record.round, round.wrapping_add(2 + u64::from(c == 1)));
            }
        }
    }

    /// Every board of up to 7 leaves with two names, good or not, and what can be asked of it.
    pub fn small_boards(&mut self) {
        for c in 1..8u16 {
            for code in 0..3usize.pow(c.into()) {
                let board: Vec<u16> = (0..c).map(|i| (code / 3usize.pow(i.into()) % 3) as u16).collect();
                for name in 0..3 {
                    self.remove(at(c, 1), &mut board.clone(), &mut EMPTY.clone(), name);
                    self.report(at(c, 1), &board, name);
                }
                for weight in 0..=c {
                    self.add(at(c, 1), &mut board.clone(), &mut EMPTY.clone(), 3, weight);
                }
                self.fresh(at(c, 1), &mut board.clone());
            }
        }
    }

    /// Two runs of each size, idle or of one name, among leaves with names of their own: a damaged board, or a good one that is tidied at that size.
    pub fn two_runs(&mut self) {
        let mut random = Random::new(0);
        for size in (0..11).map(|l| 1 << l) {
            for _ in 0..40 {
                let c = 2 * size + random.below(4096 - 2 * size);
                let mut board: Vec<u16> = (1..=c as u16).collect();
                for _ in 0..2 {
                    let start = random.below(c / size) * size;
                    board[start..start + size].fill(random.pick(&[0, 7000]));
                }
                let record = at(c as u16, 1);
                self.add(record, &mut board.clone(), &mut EMPTY.clone(), 9000, size as u16);
                self.remove(record, &mut board.clone(), &mut EMPTY.clone(), 7000);
                self.report(record, &board, 7000);
                self.save(record, &board, &mut [0; 17 * 512]);
            }
        }
    }

    /// One board from its opening through many changes, made at once and waiting, with wrong calls between them; for one drive or for two.
    pub fn churn(&mut self, seed: u64, two: bool) {
        let mut random = Random::new(seed);
        let c = some_capacity(&mut random);
        let mut board: Vec<u16> = (0..usize::from(c) + random.below(4)).map(|_| random.draw() as u16).collect();
        let mut list = some_list(&mut random, &[]);
        let mut drives = [self.open(c, &mut board, &mut list).record; 2];
        if random.one_in(2) {
            drives[0].round = some_round(&mut random);
        }
        let mut names: Vec<u16> = Vec::new();
        let largest = random.pick(&[1, 1, 2, 3, 5, 16, 200, 2000]).min(usize::from(c));
        for _ in 0..if c < 300 { 160 } else { 40 } {
            for drive in &mut drives {
                if drive.position != 1 && random.one_in(3) {
                    drive.position = 1;
                }
            }
            let side = if two { random.below(2) } else { 0 };
            let records = given(&drives, side, two);
            match random.below(14) {
                0..=3 => {
                    let name = some_name(&mut random, &names);
                    let weight = if random.one_in(12) {
                        some_number(&mut random)
                    } else {
                        1 + random.below(largest) as u16
                    };
                    let answer = self.add(records, &mut board, &mut list, name, weight);
                    match (answer.number, answer.values[0]) {
                        (0 | 13, _) => names.push(name),
                        (10, idle) if idle > 0 => {
                            let asked = self.add(records, &mut board.clone(), &mut list.clone(), name, idle as u16);
                            assert_eq!(asked.number, 0, "ROOM said {idle}");
                        }
                        _ => {}
                    }
                }
                4..=6 => {
                    let name = if random.one_in(9) || names.is_empty() {
                        some_number(&mut random)
                    } else {
                        random.pick(&names)
                    };
                    if matches!(self.remove(records, &mut board, &mut list, name).number, 0 | 13) {
                        names.retain(|&x| x != name);
                    }
                }
                7 => {
                    for _ in 0..random.below(9) {
                        let side = if two { random.below(2) } else { 0 };
                        drives[side] = self.slot(given(&drives, side, two), &mut board, &mut list).record;
                    }
                }
                8 => {
                    let mut output: Vec<u16> = vec![9; (usize::from(c) + 2).saturating_sub(random.below(4))];
                    self.round(records, &board, &mut output);
                    let name = some_name(&mut random, &names);
                    self.report(records, &board, name);
                }
                9 => {
                    self.sheets(&mut random, records, &board, &list);
                    self.layouts(&mut random, records, &mut board);
                }
                10 => self.damaged(&mut random, records, &board, &list, &names),
                11 => {
                    for _ in 0..random.below(5) {
                        let ticket = some_ticket(&mut random, &list);
                        self.fetch(&mut list, ticket, false);
                    }
                }
                12 => {
                    self.odd(&mut random, records, &board, &names);
                    let mut table = some_table(&mut random, &names);
                    self.batch(records, &mut board, &mut list, &mut table);
                    names.extend(table.iter().filter(|e| e.kind == 1 && e.number == 0).map(|e| e.name));
                }
                _ => self.wrong(&mut random, records, &board, &list, &names),
            }
            if random.one_in(60) {
                self.crowd(&mut random, records, &board, &list, &names);
            }
        }
    }

    /// A fresh layout, mostly at the start of a round; and again, which changes nothing.
    fn layouts(&mut self, random: &mut Random, records: Records, board: &mut [u16]) {
        self.fresh(records, board);
        if random.one_in(2) {
            self.fresh(placed(records, 1, 1), board);
            let before = board.to_vec();
            self.fresh(placed(records, 1, 1), board);
            assert_eq!(board, before);
        }
    }

    /// More orders than there are places, in the middle of a round, then the round's start and every answer, on copies.
    fn crowd(&mut self, random: &mut Random, records: Records, board: &[u16], list: &[u64], names: &[u16]) {
        let (mut board, mut list) = (board.to_vec(), list.to_vec());
        let c = usize::from(records.own.capacity);
        let start = placed(records, 1, 1);
        let away = some_away(random, records);
        for _ in 0..waiting::PLACES + 2 {
            let name = some_name(random, names);
            if random.one_in(2) {
                self.remove(away, &mut board, &mut list, name);
            } else {
                self.add(away, &mut board, &mut list, name, 1 + random.below(3) as u16);
            }
        }
        if random.one_in(3) {
            let at = random.below(c);
            board[at] = board[random.below(c)];
        }
        self.slot(away, &mut board.clone(), &mut list.clone());
        self.slot(start, &mut board, &mut list);
        self.add(start, &mut board.clone(), &mut list.clone(), some_name(random, names), 1);
        self.add(away, &mut board.clone(), &mut list.clone(), some_name(random, names), 1);
        for ticket in list[0].saturating_sub(70)..=list[0] {
            self.fetch(&mut list, ticket, false);
        }
        self.slot(start, &mut board, &mut list);
    }

    /// Every call that is lent the list with one that no call left, on copies.
    fn odd(&mut self, random: &mut Random, records: Records, board: &[u16], names: &[u16]) {
        let (mut board, mut list) = (board.to_vec(), some_list(random, names));
        for _ in 0..4 {
            let name = some_name(random, names);
            let at = if random.one_in(3) {
                some_away(random, records)
            } else {
                placed(records, 1, 1)
            };
            self.add(at, &mut board, &mut list, name, random.below(4) as u16);
            self.remove(at, &mut board, &mut list, name);
            self.slot(at, &mut board, &mut list);
            let ticket = some_ticket(random, &list);
            self.fetch(&mut list, ticket, true);
        }
    }

    /// Every call with a record, a capacity or a length that is wrong, on copies.
    fn wrong(&mut self, random: &mut Random, records: Records, board: &[u16], list: &[u64], names: &[u16]) {
        let r = Records {
            own: some_record(random, records.own),
            other: records.other.map(|other| some_record(random, other)),
        };
        let lent = if random.one_in(2) {
            board.len()
        } else {
            board.len().saturating_sub(random.below(5))
        };
        let board = &board[..lent];
        let name = some_name(random, names);
        let weight = random.pick(&[0, 1, 2, 3, 65535]);
        let mut list = list.to_vec();
        if random.one_in(3) {
            list.truncate(random.pick(&[0, 1, 3, LENGTH - 1]));
        }
        self.open(r.own.capacity, &mut board.to_vec(), &mut list.clone());
        self.add(r, &mut board.to_vec(), &mut list.clone(), name, weight);
        self.remove(r, &mut board.to_vec(), &mut list.clone(), name);
        self.slot(r, &mut board.to_vec(), &mut list.clone());
        self.batch(r, &mut board.to_vec(), &mut list.clone(), &mut some_table(random, names));
        self.fetch(&mut list, random.pick(&[0, 1, 2]), false);
        self.fresh(r, &mut board.to_vec());
        self.round(r, board, &mut vec![5; random.below(2 * lent + 1)]);
        self.report(r, board, name);
        self.save(r, board, &mut vec![5; 512 * random.below(19)]);
    }

    /// Every call on a board with a few leaves changed, on copies.
    fn damaged(&mut self, random: &mut Random, records: Records, board: &[u16], list: &[u64], names: &[u16]) {
        let mut board = board.to_vec();
        for _ in 0..1 + random.below(3) {
            let at = random.below(board.len());
            board[at] = if random.one_in(3) { 0 } else { some_name(random, names) };
        }
        let name = some_name(random, names);
        self.add(records, &mut board.clone(), &mut list.to_vec(), name, 1);
        self.remove(records, &mut board.clone(), &mut list.to_vec(), name);
        self.slot(records, &mut board.clone(), &mut list.to_vec());
        self.batch(records, &mut board.clone(), &mut list.to_vec(), &mut some_table(random, names));
        self.report(records, &board, name);
        self.fresh(records, &mut board.clone());
        self.fresh(placed(records, 1, 1), &mut board.clone());
        let mut sheet = vec![3; 17 * 512];
        self.save(records, &board, &mut sheet);
        let bytes = letter::sheet(&board[..records.own.capacity.into()]);
        self.read(&bytes, &mut board, &mut list.to_vec());
    }

    /// Saves, reads back, and reads what is left after one damage of each kind.
    fn sheets(&mut self, random: &mut Random, records: Records, board: &[u16], list: &[u64]) {
        let c = usize::from(records.own.capacity);
        let bytes = c.div_ceil(253) * 512;
        let mut output = vec![1; bytes + random.below(3) * 511];
        output.truncate(if random.one_in(4) { bytes - 1 } else { output.len() });
        self.save(placed(records, 1, 1), board, &mut output);
        self.save(records, board, &mut output);
        let sheet = letter::sheet(&board[..c]);
        for kind in 0..14 {
            let mut damaged = sheet.clone();
            let block = random.below(bytes / 512);
            let at = 512 * block;
            let flip = 1 << random.below(8);
            match kind {
                0 => {}
                1 => damaged[random.below(bytes)] ^= flip,
                2 => damaged[at] ^= flip,
                3 => damaged[at + 2 + random.below(2)] ^= flip,
                4 => damaged[at + 4 + random.below(506)] ^= flip,
                5 => damaged[bytes - 3 - random.below(2 * (253 * bytes / 512 - c) + 1)] ^= flip,
                6 => damaged.truncate(random.below(bytes)),
                7 => damaged.resize(bytes + 1 + random.below(512), 0),
                8 => damaged.extend_from_slice(&sheet[at..at + 512]),
                9 => damaged.copy_within(at..at + 512, 0),
                10 => damaged[2..4].copy_from_slice(&some_number(random).to_le_bytes()),
                11 => damaged = vec![0; 500 + random.below(30)],
                12 => damaged
                    .chunks_exact_mut(512)
                    .for_each(|b| b[2..4].copy_from_slice(&(records.own.capacity ^ 1).to_le_bytes())),
                _ => damaged[510 + 512 * random.below(bytes / 512)] ^= flip,
            }
            if random.one_in(2) && kind != 13 {
                mend_sums(&mut damaged);
            }
            let mut lent = vec![6; (c + 2).saturating_sub(random.below(4))];
            let short = if random.one_in(4) { LENGTH - 1 } else { list.len() };
            self.read(&damaged, &mut lent, &mut list[..short].to_vec());
        }
    }
}

/// The records for a call of one of the drives: with that of the other one where there are two.
fn given(drives: &[Record; 2], side: usize, two: bool) -> Records {
    Records {
        own: drives[side],
        other: two.then_some(drives[1 - side]),
    }
}

/// The records at other positions.
fn placed(records: Records, own: u16, other: u16) -> Records {
    let put = |record, position| Record { position, ..record };
    Records {
        own: put(records.own, own),
        other: records.other.map(|record| put(record, other)),
    }
}

/// The records with one drive, or each, away from the start of a round (at C = 1 out of range).
fn some_away(random: &mut Random, records: Records) -> Records {
    match records.other {
        None => placed(records, 2, 2),
        Some(_) => random.pick(&[placed(records, 1, 2), placed(records, 2, 1), placed(records, 2, 2)]),
    }
}

/// A record like one that calls left, or wrong in its capacity, its position or both.
pub(crate) fn some_record(random: &mut Random, record: Record) -> Record {
    let wrong = [
        0,
        1,
        record.capacity.wrapping_sub(1),
        record.capacity,
        record.capacity + 1,
        4095,
        4096,
        65535,
    ];
    let places = [
        0,
        1,
        2,
        record.position,
        record.capacity,
        record.capacity.next_power_of_two() - 1,
        record.capacity.next_power_of_two(),
        2 * record.capacity - 1,
        2 * record.capacity,
        8191,
        65535,
    ];
    Record {
        capacity: if random.one_in(2) { record.capacity } else { random.pick(&wrong) },
        position: if random.one_in(3) { 1 } else { random.pick(&places) },
        round: some_round(random),
    }
}

/// An empty list from which no ticket was given.
const EMPTY: [u64; LENGTH] = [0; LENGTH];

/// A list as long as it must be or longer: empty, with few tickets left, or with numbers that no call left, some of them of the names.
pub(crate) fn some_list(random: &mut Random, names: &[u16]) -> Vec<u64> {
    let mut list = vec![0; LENGTH + random.below(4)];
    list[0] = random.pick(&[0, 0, 7, u64::MAX - 3, u64::MAX]);
    if random.one_in(2) {
        for number in &mut list[1..] {
            *number = match random.below(4) {
                0 => random.below(4) as u64,
                1 => some_name(random, names).into(),
                2 => 65536 * random.below(3) as u64 + u64::from(some_name(random, names)),
                _ => random.draw(),
            };
        }
        for count in [1, 2] {
            list[count] = random.pick(&[0, 1, 3, 20, 63, 64, 65, u64::MAX]);
        }
    }
    list
}

/// A table of up to a hundred changes, with kinds that are none and with old answers in their places.
pub(crate) fn some_table(random: &mut Random, names: &[u16]) -> Vec<Entry> {
    let many = random.pick(&[0, 1, 2, 5, 5, 100]);
    (0..many)
        .map(|_| Entry {
            kind: random.pick(&[1, 1, 1, 2, 2, 0, 3, 65535]),
            name: some_name(random, names),
            weight: random.pick(&[0, 1, 1, 1, 2, 3, 65535]),
            number: random.draw() as u16,
            value: random.draw(),
        })
        .collect()
}

/// A ticket that stands on the list, or is near the last one given, or none.
fn some_ticket(random: &mut Random, list: &[u64]) -> u64 {
    match random.below(4) {
        0 => list[3 + 4 * random.below(waiting::PLACES)],
        1 => random.below(3) as u64,
        _ => list[0].wrapping_sub(random.below(6) as u64),
    }
}

/// Sets each block's last number so that the block sums to 0.
pub(crate) fn mend_sums(sheet: &mut [u8]) {
    for block in sheet.chunks_exact_mut(512) {
        let sum = block[..510]
            .chunks_exact(2)
            .fold(0u16, |sum, two| sum.wrapping_add(u16::from_le_bytes([two[0], two[1]])));
        block[510..].copy_from_slice(&0u16.wrapping_sub(sum).to_le_bytes());
    }
}

pub(crate) fn some_capacity(random: &mut Random) -> u16 {
    let c = match random.below(10) {
        0..=3 => 1 + random.below(20),
        4..=6 => 21 + random.below(300),
        7 => random.pick(&[252, 253, 254, 255, 256, 506, 507]),
        8 => random.pick(&[2047, 2048, 4094, 4095]),
        _ => 1 + random.below(4095),
    };
    c as u16
}

/// Round numbers on both sides of those where a count of 16, 32 or 63 bits would end, and the largest two.
const NUMBERS: [u64; 9] = [0, 1, 65534, 65535, (1 << 32) - 1, 1 << 32, (1 << 63) - 1, u64::MAX - 1, u64::MAX];

fn some_round(random: &mut Random) -> u64 {
    if random.one_in(2) {
        random.pick(&NUMBERS)
    } else {
        random.draw()
    }
}

pub(crate) fn some_number(random: &mut Random) -> u16 {
    match random.below(4) {
        0 => random.below(3) as u16,
        1 => random.pick(&[4095, 4096, 8191, 65535]),
        2 => random.draw() as u16,
        _ => random.below(300) as u16,
    }
}

pub(crate) fn some_name(random: &mut Random, names: &[u16]) -> u16 {
    if names.is_empty() || random.one_in(2) {
        some_number(random)
    } else {
        random.pick(names)
    }
}

/// The whole comparison: how many calls were compared.
pub fn compare(calls: &impl Calls, seeds: u64) -> usize {
    let mut trial = Trial::new(calls);
    trial.orders();
    trial.rounds();
    trial.small_boards();
    trial.two_runs();
    for seed in 0..seeds {
        trial.churn(seed, false);
        trial.churn(seed, true);
    }
    trial.tally.is_whole(0..MAY.len());
    trial.tally_of_two.is_whole(GIVEN);
    trial.tally.calls() + trial.tally_of_two.calls()
}
