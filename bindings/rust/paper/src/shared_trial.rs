//! Comparison of any version of the calls with tables with [`shares`](crate::shares): the answer, the record and every entry of every lent slice, on random
//! histories of two drives with over-allocated streams.
use crate::batch::Entry;
use crate::piece_sheets::piece_sheet;
use crate::random::Random;
use crate::shares::{Lent, Shared};
use crate::trial::{mend_sums, some_capacity, some_list, some_name, some_number, some_record, some_table, Letter, Tally};
use crate::waiting::{add_order, remove_order, Order, LENGTH, PLACES};
use crate::{at, letter, Answer, Record, Records};

const OPEN: usize = 0;
const CHANGE: usize = 1;
const SLOT: usize = 2;
const ROUND: usize = 3;
const REPORT: usize = 4;
const SAVE: usize = 5;
const READ: usize = 6;
const BATCH: usize = 7;
const FRESH: usize = 8;
const SAVE_PIECES: usize = 9;
const READ_PIECES: usize = 10;

/// What each call may answer.
const MAY: [(&str, &[usize]); 11] = [
    ("open with tables", &[0, 1, 2]),
    ("a change with tables", &[0, 1, 2, 3, 5, 6, 7, 8, 9, 10, 13, 14]),
    ("slot with tables", &[0, 1, 2, 3, 5]),
    ("round with tables", &[0, 1, 2, 3, 5, 11]),
    ("report with tables", &[0, 1, 2, 3, 5, 6, 9]),
    ("save with tables", &[0, 1, 2, 3, 4, 5, 11, 17]),
    ("read with tables", &[0, 1, 2, 5, 12]),
    ("batch with tables", &[0, 1, 2, 3, 5, 6, 7, 8, 9, 10, 13, 14]),
    ("fresh with tables", &[0, 1, 2, 3, 4, 5]),
    ("save of pieces with tables", &[0, 1, 2, 3, 4, 5, 11, 17]),
    ("read of pieces with tables", &[0, 1, 2, 5, 12]),
];

fn over_order(name: u16, weight: u16) -> Order {
    Order { kind: 3, name, weight }
}

/// Two records, with the drive that a call is for first; and the lent memory with its deficits first.
struct Site {
    drives: [Record; 2],
    lent: Lent,
}

impl Site {
    fn records(&self) -> Records {
        Records {
            own: self.drives[0],
            other: Some(self.drives[1]),
        }
    }

    fn change_sides(&mut self) {
        self.drives.swap(0, 1);
        self.lent.owed.swap(0, 1);
    }
}

/// One version beside the paper's letter, and what was answered.
struct Trial<'a, S: Shared> {
    calls: &'a S,
    tally: Tally<11>,
}

impl<S: Shared> Trial<'_, S> {
    /// Runs both on their own copies of what is lent and compares; it is left as the call left it.
    fn same<A: PartialEq + std::fmt::Debug>(
        &mut self,
        call: usize,
        what: &dyn std::fmt::Debug,
        lent: &mut Lent,
        made: impl Fn(&dyn Shared, &mut Lent) -> A,
    ) -> A
    where
        S: Sized,
    {
        let before = lent.clone();
        let mut other = before.clone();
        let expected = made(&Letter, &mut other);
        let got = made(self.calls, lent);
        let name = MAY[call].0;
        assert_eq!(got, expected, "{name} {what:?} of {before:?}");
        assert_eq!(*lent, other, "{name} {what:?} of {before:?}");
        got
    }

    fn answered(&mut self, call: usize, what: &dyn std::fmt::Debug, lent: &mut Lent, made: impl Fn(&dyn Shared, &mut Lent) -> Answer) -> Answer {
        let answer = self.same(call, what, lent, made);
        self.tally.count(call, answer.number);
        answer
    }

    fn open(&mut self, c: u16, lent: &mut Lent) -> Answer {
        self.answered(OPEN, &c, lent, |calls, lent| calls.open(c, lent))
    }

    fn change(&mut self, r: Records, lent: &mut Lent, order: Order) -> Answer {
        self.answered(CHANGE, &(r, order), lent, |calls, lent| calls.change(r, lent, order))
    }

    /// Both forms of slot, the one that moves the record where it is on copies.
    fn slot(&mut self, r: Records, lent: &mut Lent) -> Answer {
        self.same(SLOT, &r, &mut lent.clone(), |calls, lent| calls.slot_here(r, lent));
        self.answered(SLOT, &r, lent, |calls, lent| calls.slot(r, lent))
    }

    fn round(&mut self, r: Records, lent: &Lent, output: usize) {
        let (answer, _) = self.same(ROUND, &(r, output), &mut lent.clone(), |calls, lent| {
            let mut output = vec![9; output];
            (calls.round(r, lent, &mut output), output)
        });
        self.tally.count(ROUND, answer.number);
    }

    fn report(&mut self, r: Records, lent: &Lent, name: u16) {
        self.answered(REPORT, &(r, name), &mut lent.clone(), |calls, lent| calls.report(r, lent, name));
    }

    fn save(&mut self, r: Records, lent: &Lent, output: usize) {
        let (answer, _) = self.same(SAVE, &(r, output), &mut lent.clone(), |calls, lent| {
            let mut output = vec![1; output];
            (calls.save(r, lent, &mut output), output)
        });
        self.tally.count(SAVE, answer.number);
    }

    fn save_pieces(&mut self, r: Records, lent: &Lent, output: usize) {
        let (answer, _) = self.same(SAVE_PIECES, &(r, output), &mut lent.clone(), |calls, lent| {
            let mut output = vec![1; output];
            (calls.save_pieces(r, lent, &mut output), output)
        });
        self.tally.count(SAVE_PIECES, answer.number);
    }

    fn read_pieces(&mut self, sheet: &[u8], lent: &mut Lent) {
        self.answered(READ_PIECES, &sheet, lent, |calls, lent| calls.read_pieces(sheet, lent));
    }

    fn read(&mut self, sheet: &[u8], lent: &mut Lent) {
        self.answered(READ, &sheet, lent, |calls, lent| calls.read(sheet, lent));
    }

    fn fresh(&mut self, r: Records, lent: &mut Lent) -> Answer {
        self.answered(FRESH, &r, lent, |calls, lent| calls.fresh(r, lent))
    }

    fn batch(&mut self, r: Records, lent: &mut Lent, table: &[Entry]) {
        let (_, entries) = self.same(BATCH, &(r, table), lent, |calls, lent| {
            let mut entries = table.to_vec();
            (calls.batch(r, lent, &mut entries), entries)
        });
        for entry in entries {
            self.tally.count(BATCH, entry.number);
        }
    }

    /// One board from its opening through many changes, made at once and waiting, by either drive, with wrong calls between them.
    fn churn(&mut self, seed: u64) {
        let mut random = Random::new(seed);
        let c = if random.one_in(3) {
            some_capacity(&mut random)
        } else {
            1 + random.below(40) as u16
        };
        let table = |random: &mut Random| -> Vec<u16> { (0..usize::from(c) + random.below(4)).map(|_| random.draw() as u16).collect() };
        let mut lent = Lent {
            board: table(&mut random),
            rates: table(&mut random),
            owed: [table(&mut random), table(&mut random)],
            list: some_list(&mut random, &[]),
        };
        let drive = self.open(c, &mut lent).record;
        let mut site = Site { drives: [drive; 2], lent };
        let mut names: Vec<u16> = Vec::new();
        let largest = random.pick(&[1, 2, 3, 5, 7, 16, 200]).min(usize::from(c));
        for _ in 0..if c < 300 { 60 } else { 12 } {
            if random.one_in(2) {
                site.change_sides();
            }
            for drive in &mut site.drives {
                if random.one_in(3) {
                    drive.position = 1;
                }
            }
            self.step(&mut random, &mut site, &mut names, largest);
        }
    }

    fn step(&mut self, random: &mut Random, site: &mut Site, names: &mut Vec<u16>, largest: usize) {
        let (records, c) = (site.records(), usize::from(site.drives[0].capacity));
        let name = some_name(random, names);
        match random.below(12) {
            0..=3 => {
                let weight = if random.one_in(9) {
                    some_number(random)
                } else {
                    1 + random.below(largest) as u16
                };
                let order = if random.one_in(3) {
                    add_order(name, weight)
                } else {
                    over_order(name, weight)
                };
                if matches!(self.change(records, &mut site.lent, order).number, 0 | 13) {
                    names.push(name);
                }
            }
            4 | 5 => {
                self.change(records, &mut site.lent, remove_order(name));
            }
            6 | 7 => {
                for _ in 0..random.below(12) {
                    site.drives[0] = self.slot(site.records(), &mut site.lent).record;
                    if random.one_in(3) {
                        site.change_sides();
                    }
                }
            }
            8 => {
                self.round(records, &site.lent, (c + 2).saturating_sub(random.below(4)));
                self.report(records, &site.lent, name);
                self.save(records, &site.lent, c.div_ceil(253) * 512 - random.below(2));
                self.save_pieces(records, &site.lent, 512 * random.below(9));
                self.sheets(random, &site.lent, c);
            }
            9 => {
                self.fresh(records, &mut site.lent);
                let table = shared_table(random, names);
                self.batch(records, &mut site.lent, &table);
            }
            10 => self.wrong(random, site, names),
            _ => self.damaged(random, site, names),
        }
        if random.one_in(40) {
            self.crowd(random, site, names);
        }
    }

    /// Reads sheets of the board in both forms, sound or with a leaf or a byte changed, into lent memory that may be too short; on copies.
    fn sheets(&mut self, random: &mut Random, lent: &Lent, c: usize) {
        let position = 1 + random.below(c) as u16;
        let mut leaves = lent.board[..c].to_vec();
        if random.one_in(4) {
            let (from, to) = (random.below(c), random.below(c));
            leaves[to] = leaves[from];
        }
        for pieces in [false, true] {
            let mut sheet = if pieces {
                piece_sheet(&leaves, position)
            } else {
                letter::sheet(&leaves)
            };
            if random.one_in(2) {
                let at = random.below(sheet.len());
                sheet[at] ^= 1 << random.below(8);
                mend_sums(&mut sheet);
            }
            match random.below(8) {
                0 => sheet.truncate(random.below(sheet.len())),
                1 => sheet[2..4].copy_from_slice(&some_number(random).to_le_bytes()),
                _ => {}
            }
            let mut lent = cut(random, lent, c);
            if pieces {
                self.read_pieces(&sheet, &mut lent);
            } else {
                self.read(&sheet, &mut lent);
            }
        }
    }

    /// Every call with records or lengths that are wrong, on copies.
    fn wrong(&mut self, random: &mut Random, site: &Site, names: &[u16]) {
        let records = Records {
            own: some_record(random, site.drives[0]),
            other: Some(some_record(random, site.drives[1])),
        };
        let lent = cut(random, &site.lent, site.drives[0].capacity.into());
        self.open(records.own.capacity, &mut lent.clone());
        self.every(random, records, &lent, names);
    }

    /// Every call where a leaf, an r or a deficit was changed, on copies.
    fn damaged(&mut self, random: &mut Random, site: &Site, names: &[u16]) {
        let mut lent = site.lent.clone();
        let i = random.below(site.drives[0].capacity.into());
        let r = lent.rates[i];
        let near = [
            0,
            1,
            r.wrapping_sub(1),
            r,
            r.wrapping_add(1),
            r.next_power_of_two().wrapping_sub(1),
            r.next_power_of_two(),
        ];
        match random.below(4) {
            0 => lent.board[i] = some_name(random, names),
            1 => lent.rates[i] = random.pick(&near),
            side => lent.owed[side - 2][i] = random.pick(&near),
        }
        self.every(random, site.records(), &lent, names);
    }

    fn every(&mut self, random: &mut Random, records: Records, lent: &Lent, names: &[u16]) {
        let (name, weight) = (some_name(random, names), random.pick(&[0, 1, 2, 3, 5, 33000, 65535]));
        for order in [add_order(name, weight), over_order(name, weight), remove_order(name)] {
            self.change(records, &mut lent.clone(), order);
        }
        self.slot(records, &mut lent.clone());
        self.round(records, lent, random.below(2 * lent.board.len() + 1));
        self.report(records, lent, name);
        self.save(records, lent, 512 * random.below(4));
        self.save_pieces(records, lent, 512 * random.below(4));
        self.fresh(records, &mut lent.clone());
        let table = shared_table(random, names);
        self.batch(records, &mut lent.clone(), &table);
    }

    /// More orders than there are places, of each kind, then the round's start; on copies.
    fn crowd(&mut self, random: &mut Random, site: &Site, names: &[u16]) {
        let mut lent = site.lent.clone();
        let mut records = site.records();
        let away = if records.own.capacity > 1 { 2 } else { 1 };
        records.own.position = away;
        for _ in 0..PLACES + 2 {
            let (name, weight) = (some_name(random, names), 1 + random.below(5) as u16);
            let order = random.pick(&[
                add_order(name, weight),
                over_order(name, weight),
                over_order(name, weight),
                remove_order(name),
            ]);
            self.change(records, &mut lent, order);
        }
        records.own.position = 1;
        records.other = Some(records.own);
        self.slot(records, &mut lent);
        self.slot(records, &mut lent);
    }
}

/// Lent memory with one slice of it, or none, cut to about C entries; the list to fewer than it must have.
fn cut(random: &mut Random, lent: &Lent, c: usize) -> Lent {
    let mut lent = lent.clone();
    let keep = (c + 1).saturating_sub(random.below(3));
    match random.below(6) {
        0 => lent.board.truncate(keep),
        1 => lent.rates.truncate(keep),
        2 => lent.owed[0].truncate(keep),
        3 => lent.owed[1].truncate(keep),
        4 => lent.list.truncate(LENGTH - 1),
        _ => {}
    }
    lent
}

/// A table of changes of which some ask for over-allocation.
fn shared_table(random: &mut Random, names: &[u16]) -> Vec<Entry> {
    let mut table = some_table(random, names);
    for entry in &mut table {
        if entry.kind == 1 && random.one_in(2) {
            entry.kind = 3;
        }
    }
    table
}

/// The request's own cases, worked by hand.
fn worked(calls: &impl Shared) {
    let lent = |board: &[u16], rates: &[u16], owed: &[u16]| Lent {
        board: board.to_vec(),
        rates: rates.to_vec(),
        owed: [owed.to_vec(), vec![0; board.len()]],
        list: vec![0; LENGTH],
    };
    let both = |c| Records {
        own: at(c, 1),
        other: Some(at(c, 1)),
    };
    let slots = |lent: &mut Lent, n: u16| -> Vec<u64> {
        let mut records = both(n);
        (0..n)
            .map(|_| {
                let answer = calls.slot(records, lent);
                assert_eq!(answer.number, 0);
                records.own = answer.record;
                answer.values[0]
            })
            .collect()
    };
    // C = 4, r = 3: from 0 a round of 9 9 9 0, and from a deficit of -1 9 9 0 9, while round still writes 9 9 9 0.
    let mut from_zero = lent(&[9; 4], &[3, 0, 0, 0], &[0; 4]);
    assert_eq!(slots(&mut from_zero, 4), [9, 9, 9, 0]);
    assert_eq!(from_zero, lent(&[9; 4], &[3, 0, 0, 0], &[0; 4]));
    let mut from_one = lent(&[9; 4], &[3, 0, 0, 0], &[1, 0, 0, 0]);
    let mut names = [0; 4];
    assert_eq!(calls.round(both(4), &from_one, &mut names).number, 0);
    assert_eq!((names, slots(&mut from_one, 4)), ([9, 9, 9, 0], vec![9, 9, 0, 9]));
    // C = 6, r = 5 asks for 8 leaves: 10 with 6.
    let room = calls.change(both(6), &mut lent(&[0; 6], &[0; 6], &[0; 6]), over_order(9, 5));
    assert_eq!((room.number, room.values[0]), (10, 6));
    // r a power of two is always served, and still 17.
    let mut power = lent(&[9, 9, 0, 0], &[2, 0, 0, 0], &[0; 4]);
    assert_eq!(slots(&mut power, 4), [9, 0, 9, 0]);
    assert_eq!(calls.save(both(4), &power, &mut [0; 512]).number, 17);
    // C = 5, a board that is not good: slot is 5 too.
    assert_eq!(calls.slot(both(5), &mut lent(&[4, 0, 0, 4, 0], &[0; 5], &[0; 5])).number, 5);
    // r off the lowest leaf; a deficit of -R; a deficit where r is 0.
    for (rates, owed) in [([0, 3, 0, 0], [0; 4]), ([3, 0, 0, 0], [4, 0, 0, 0]), ([3, 0, 0, 0], [0, 1, 0, 0])] {
        assert_eq!(calls.slot(both(4), &mut lent(&[9; 4], &rates, &owed)).number, 5);
    }
}

/// The whole comparison: how many calls were compared.
pub fn compare(calls: &impl Shared, seeds: u64) -> usize {
    worked(&Letter);
    worked(calls);
    let mut trial = Trial {
        calls,
        tally: Tally::new(MAY),
    };
    for seed in 0..seeds {
        trial.churn(seed);
    }
    trial.tally.is_whole(0..MAY.len());
    trial.tally.calls()
}
