//! The types that own their board beside document 01 by the letter, on random histories. The paper's version is handed its records, its board, its list
//! and its tables by this file, call by call; the owned type has only itself. After each call the answer, both records, every leaf and the text of the
//! board are compared, so that a record which is lost, or belongs to another drive, shows at once.
#[cfg(not(linked))]
#[path = "boundary/served.rs"]
mod served;

use mandrozsi::{Change, Drive, Entry, Fetched, OwnedDrive, OwnedPair, OwnedShares, Pair, Refusal, Shares, Side, Slot, Stream, Tables};
use paper::groups::{self, Import};
use paper::letter::sheet;
use paper::piece_sheets::piece_sheet;
use paper::random::Random;
use paper::shares::{Lent, Shared};
use paper::trial::{Letter, Tally};
use paper::waiting::{self, Order, LENGTH};
use paper::{at, batch, Answer, Record, Records};

/// The most leaves of the boards here; a capacity above it is refused with 2.
const LEAVES: usize = 21;

/// Number and values of an answer, without its record.
type Told = (u16, [u64; 4]);

fn told<T>(result: Result<T, Refusal>, values: impl FnOnce(T) -> [u64; 4]) -> Told {
    match result {
        Ok(done) => (0, values(done)),
        Err(why) => (why.number(), [why.value().into(), 0, 0, 0]),
    }
}

fn changed(result: Result<Change, Refusal>) -> Told {
    match result {
        Ok(Change::Waiting { ticket }) => (13, [ticket, 0, 0, 0]),
        Ok(Change::Done { idle }) => (0, [idle.into(), 0, 0, 0]),
        Err(why) => told(Err(why), |()| [0; 4]),
    }
}

/// C, the position and the round number of each drive, and the leaves.
type State = (u16, [(u16, u64); 2], Vec<u16>);

/// An owned type, with a side for each call even where it has one drive.
trait Owner: std::fmt::Display {
    const TWO: bool;
    /// The kinds of change that it takes.
    const KINDS: u16;
    fn state(&self) -> State;
    fn open(&mut self, capacity: u16) -> Result<(), Refusal>;
    fn read(&mut self, sheet: &[u8]) -> Result<(), Refusal>;
    fn read_pieces(&mut self, sheet: &[u8]) -> Result<(), Refusal>;
    fn import(&mut self, capacity: u16, starts: &[u16], names: &[u16], output: &mut [u16]) -> Result<(), Refusal>;
    fn change(&mut self, side: Side, order: Order) -> Result<Change, Refusal>;
    fn batch(&mut self, side: Side, table: &mut [Entry]);
    fn fetch(&mut self, ticket: u64) -> Fetched;
    fn fresh(&mut self, side: Side) -> Result<(), Refusal>;
    fn slot(&mut self, side: Side) -> Result<Slot, Refusal>;
    fn round(&self, side: Side, output: &mut [u16]) -> Result<(), Refusal>;
    fn report(&self, side: Side, name: u16) -> Result<Stream, Refusal>;
    fn save(&self, side: Side, output: &mut [u8]) -> Result<usize, Refusal>;
    fn save_pieces(&self, side: Side, output: &mut [u8]) -> Result<usize, Refusal>;
}

/// `$given` is the side where the methods take one, and `$over` the method of kind 3 where there is one.
macro_rules! owner {
    ($name:ident, $type:ident, $two:expr, $side:ident, [$($given:ident)?], [$($over:ident)?]) => {
        struct $name($type<LEAVES>);

        impl std::fmt::Display for $name {
            fn fmt(&self, f: &mut std::fmt::Formatter) -> std::fmt::Result {
                self.0.fmt(f)
            }
        }

        impl Owner for $name {
            const TWO: bool = $two;
            const KINDS: u16 = 2 $(+ { stringify!($over); 1 })?;
            fn state(&self) -> State {
                let of = |$side: Side| (self.0.position($($given)?), self.0.round_number($($given)?));
                (self.0.capacity(), [of(Side::First), of(Side::Second)], self.0.leaves().to_vec())
            }
            fn open(&mut self, capacity: u16) -> Result<(), Refusal> {
                self.0.open(capacity)
            }
            fn read(&mut self, sheet: &[u8]) -> Result<(), Refusal> {
                self.0.read(sheet)
            }
            fn read_pieces(&mut self, sheet: &[u8]) -> Result<(), Refusal> {
                self.0.read_pieces(sheet)
            }
            fn import(&mut self, capacity: u16, starts: &[u16], names: &[u16], output: &mut [u16]) -> Result<(), Refusal> {
                self.0.import(capacity, starts, names, output)
            }
            fn change(&mut self, $side: Side, order: Order) -> Result<Change, Refusal> {
                let Order { kind, name, weight } = order;
                match kind {
                    1 => self.0.add($($given,)? name, weight),
                    2 => self.0.remove($($given,)? name),
                    $(3 => self.0.$over($side, name, weight),)?
                    _ => unreachable!(),
                }
            }
            fn batch(&mut self, $side: Side, table: &mut [Entry]) {
                self.0.batch($($given,)? table)
            }
            fn fetch(&mut self, ticket: u64) -> Fetched {
                self.0.fetch(ticket)
            }
            fn fresh(&mut self, $side: Side) -> Result<(), Refusal> {
                self.0.fresh($($given)?)
            }
            fn slot(&mut self, $side: Side) -> Result<Slot, Refusal> {
                self.0.slot($($given)?)
            }
            fn round(&self, $side: Side, output: &mut [u16]) -> Result<(), Refusal> {
                self.0.round($($given,)? output)
            }
            fn report(&self, $side: Side, name: u16) -> Result<Stream, Refusal> {
                self.0.report($($given,)? name)
            }
            fn save(&self, $side: Side, output: &mut [u8]) -> Result<usize, Refusal> {
                self.0.save($($given,)? output).inspect(|&bytes| assert_eq!(bytes, self.0.sheet_bytes()))
            }
            fn save_pieces(&self, $side: Side, output: &mut [u8]) -> Result<usize, Refusal> {
                self.0.save_pieces($($given,)? output)
            }
        }
    };
}

owner!(One, OwnedDrive, false, _side, [], []);
owner!(Two, OwnedPair, true, side, [side], []);
owner!(OneShared, OwnedShares, false, side, [side], [over]);
owner!(TwoShared, OwnedShares, true, side, [side], [over]);

/// The paper's side of a history: what its calls are handed. A single drive has its record in both places.
struct Paper {
    two: bool,
    records: [Record; 2],
    /// With the tables of deficits in the order of the drives.
    lent: Lent,
}

impl Paper {
    fn new(two: bool) -> Paper {
        let table = vec![0; LEAVES];
        Paper {
            two,
            records: [at(0, 0); 2],
            lent: Lent {
                board: table.clone(),
                rates: table.clone(),
                owed: [table.clone(), table],
                list: vec![0; LENGTH],
            },
        }
    }

    fn state(&self) -> State {
        let [first, second] = self.records;
        let leaves = self.lent.board[..first.capacity.into()].to_vec();
        (first.capacity, [(first.position, first.round), (second.position, second.round)], leaves)
    }

    /// The board as text, as it is shown where it is lent.
    fn shown(&mut self, tables: bool) -> String {
        let [first, second] = self.records.map(drive);
        let two = self.two.then_some(second);
        let Lent {
            board,
            rates,
            owed: [own, other],
            ..
        } = &mut self.lent;
        match two {
            _ if tables => {
                let tables = Tables {
                    rates,
                    first: own,
                    second: other,
                };
                Shares { first, second: two }.show(board, &tables).to_string()
            }
            None => first.show(board).to_string(),
            Some(second) => Pair { first, second }.show(board).to_string(),
        }
    }

    /// A call for a side: the record goes on as it answers, and with one drive both are it.
    fn call(&mut self, side: usize, call: impl FnOnce(Records, &mut Lent) -> Answer) -> Told {
        let records = Records {
            own: self.records[side],
            other: Some(self.records[1 - side]),
        };
        if side == 1 {
            self.lent.owed.swap(0, 1);
        }
        let answer = call(records, &mut self.lent);
        if side == 1 {
            self.lent.owed.swap(0, 1);
        }
        self.records[side] = answer.record;
        if !self.two {
            self.records = [answer.record; 2];
        }
        (answer.number, answer.values)
    }

    /// A call that starts a board: refused, it leaves the records that there were.
    fn start(&mut self, call: impl FnOnce(&mut Lent) -> Answer) -> Told {
        let answer = call(&mut self.lent);
        if answer.number == 0 {
            self.records = [answer.record; 2];
        }
        (answer.number, answer.values)
    }
}

/// A history: the owned type beside the paper, what was drawn, and every number that was answered.
struct History<'a, O> {
    ours: O,
    paper: Paper,
    random: Random,
    tally: &'a mut Tally<1>,
}

/// Every number that a history of each type must meet: 3 and 5 need a record or a board that no call leaves, which an owned type cannot be given.
const MAY: [(&str, &[usize]); 1] = [("an owned board", &[0, 1, 2, 4, 6, 7, 8, 9, 10, 11, 12, 13, 14, 15, 16, 18])];
const MAY_WITH_TABLES: [(&str, &[usize]); 1] = [("with tables", &[0, 1, 2, 4, 6, 7, 8, 9, 10, 11, 12, 13, 14, 15, 16, 17, 18])];

impl<O: Owner> History<'_, O> {
    fn same(&mut self, what: &dyn std::fmt::Debug, ours: Told, paper: Told) {
        assert_eq!(ours, paper, "{what:?} of\n{}", self.ours);
        assert_eq!(self.ours.state(), self.paper.state(), "after {what:?}");
        assert_eq!(self.ours.to_string(), self.paper.shown(O::KINDS == 3), "after {what:?}");
        self.tally.count(0, ours.0);
    }

    fn name(&mut self) -> u16 {
        self.random.pick(&[0, 1, 2, 3, 4, 5, 65535])
    }

    fn order(&mut self) -> Order {
        Order {
            kind: 1 + self.random.below(O::KINDS.into()) as u16,
            name: self.name(),
            weight: self.random.pick(&[0, 1, 1, 2, 3, 5, 22]),
        }
    }

    /// Opens, reads or imports a board, which is refused now and then.
    fn start(&mut self) {
        let c = self.random.pick(&[0, 1, 2, 3, 4, 5, 7, 8, 11, 16, 21, 22, 4096]);
        let leaves = &self.paper.state().2;
        let mut bytes = sheet(if leaves.is_empty() { &[0; LEAVES + 1] } else { leaves });
        let mut pieces = piece_sheet(&[3, 3, 0], 1 + self.random.below(4) as u16);
        if self.random.one_in(3) {
            bytes[4] ^= 1;
            pieces[6] ^= 1;
        }
        match self.random.below(4) {
            0 => {
                let (ours, paper) = (self.ours.open(c), self.paper.start(|lent| Letter.open(c, lent)));
                self.same(&("open", c), told(ours, |()| [0; 4]), paper);
            }
            1 => {
                let (ours, paper) = (self.ours.read(&bytes), self.paper.start(|lent| Shared::read(&Letter, &bytes, lent)));
                self.same(&"read", told(ours, |()| [0; 4]), paper);
            }
            2 => {
                let paper = self.paper.start(|lent| Shared::read_pieces(&Letter, &pieces, lent));
                let ours = self.ours.read_pieces(&pieces);
                self.same(&"read_pieces", told(ours, |()| [0; 4]), paper);
            }
            _ => self.import(c),
        }
    }

    /// Three streams of rate 1 on four slots; of any other capacity it is no table.
    fn import(&mut self, c: u16) {
        let (starts, names) = ([0, 0, 3], [1, 2, 3]);
        let mut output = vec![9; self.random.pick(&[3, 4, 5])];
        let mut lent = groups::Lent {
            board: self.paper.lent.board.clone(),
            list: self.paper.lent.list.clone(),
            output: output.clone(),
        };
        let paper = self.paper.start(|own| {
            let answer = groups::Letter.import(c, &starts, &names, &mut lent);
            if answer.number == 0 {
                // With tables it also clears what open clears.
                Letter.open(c, own);
            }
            own.board.clone_from(&lent.board);
            own.list.clone_from(&lent.list);
            answer
        });
        let result = self.ours.import(c, &starts, &names, &mut output);
        self.same(&("import", c), told(result, |()| [0; 4]), paper);
        assert_eq!(output, lent.output);
    }

    fn change(&mut self, side: usize) {
        let order = self.order();
        let paper = self.paper.call(side, |records, lent| Letter.change(records, lent, order));
        let ours = self.ours.change(SIDES[side], order);
        self.same(&order, changed(ours), paper);
    }

    fn batch(&mut self, side: usize) {
        let many = self.random.pick(&[0, 1, 3, 70]);
        let orders: Vec<Order> = (0..many).map(|_| self.order()).collect();
        let mut table: Vec<batch::Entry> = orders.iter().map(entry).collect();
        let mut ours: Vec<Entry> = table.iter().map(lent).collect();
        let paper = self
            .paper
            .call(side, |records, lent| Answer::done(Letter.batch(records, lent, &mut table), [0; 4]));
        self.ours.batch(SIDES[side], &mut ours);
        self.same(&("batch", &orders), (0, [0; 4]), paper);
        for (ours, paper) in ours.iter().zip(&table) {
            assert_eq!(*ours, lent(paper));
            self.tally.count(0, ours.number);
        }
    }

    fn fetch(&mut self) {
        let last = self.paper.lent.list[0];
        let ticket = last.saturating_sub(self.random.below(70) as u64);
        let (number, value) = waiting::fetch(&mut self.paper.lent.list, ticket);
        let ours = match self.ours.fetch(ticket) {
            Fetched::Done { idle } => (0, idle.into()),
            Fetched::Refused(why) => (why.number(), why.value().into()),
            Fetched::Waiting => (13, ticket),
            Fetched::Unknown => (15, 0),
            Fetched::Foreign { number, value } => panic!("{number} and {value} are no answer"),
        };
        let values = |value| [value, 0, 0, 0];
        self.same(&("fetch", ticket), (ours.0, values(ours.1)), (number as u16, values(value)));
    }

    fn slot(&mut self, side: usize) {
        let paper = self.paper.call(side, |records, lent| Shared::slot(&Letter, records, lent));
        let ours = self.ours.slot(SIDES[side]);
        self.same(
            &("slot", side),
            told(ours, |s| [s.name.into(), s.leaf.into(), s.passed.into(), s.round]),
            paper,
        );
    }

    /// The calls that only look: what they write is compared too.
    fn look(&mut self, side: usize) {
        let name = self.name();
        let paper = self.paper.call(side, |records, lent| Shared::report(&Letter, records, lent, name));
        let ours = self.ours.report(SIDES[side], name);
        self.same(
            &("report", name),
            told(ours, |s| [s.weight.into(), s.pieces.into(), s.spacing.into(), 0]),
            paper,
        );

        let (mut names, length) = (vec![9; LEAVES], self.random.pick(&[0, 7, LEAVES]));
        names.truncate(length);
        let mut written = names.clone();
        let paper = self.paper.call(side, |records, lent| Shared::round(&Letter, records, lent, &mut written));
        let ours = self.ours.round(SIDES[side], &mut names);
        self.same(&("round", side), told(ours, |()| [0; 4]), paper);
        assert_eq!(names, written);

        let mut bytes = vec![9; self.random.pick(&[511, 512, 600])];
        let mut written = bytes.clone();
        let paper = self.paper.call(side, |records, lent| Shared::save(&Letter, records, lent, &mut written));
        let ours = self.ours.save(SIDES[side], &mut bytes);
        self.same(&("save", side), told(ours, |bytes| [bytes as u64, 0, 0, 0]), paper);
        let paper = self
            .paper
            .call(side, |records, lent| Shared::save_pieces(&Letter, records, lent, &mut written));
        let ours = self.ours.save_pieces(SIDES[side], &mut bytes);
        self.same(&("save_pieces", side), told(ours, |bytes| [bytes as u64, 0, 0, 0]), paper);
        assert_eq!(bytes, written);
    }

    fn step(&mut self) {
        let side = if O::TWO { self.random.below(2) } else { 0 };
        match self.random.below(60) {
            0 => self.start(),
            1 => self.batch(side),
            2 => {
                let paper = self.paper.call(side, |records, lent| Shared::fresh(&Letter, records, lent));
                let ours = self.ours.fresh(SIDES[side]);
                self.same(&("fresh", side), told(ours, |()| [0; 4]), paper);
            }
            3..=5 => self.look(side),
            6..=10 => self.fetch(),
            11..=20 => self.change(side),
            _ => self.slot(side),
        }
    }
}

fn drive(record: Record) -> Drive {
    Drive {
        capacity: record.capacity,
        position: record.position,
        round: record.round,
    }
}

const SIDES: [Side; 2] = [Side::First, Side::Second];

/// An entry that asks for an order, with an old answer in its place.
fn entry(order: &Order) -> batch::Entry {
    let Order { kind, name, weight } = *order;
    batch::Entry {
        kind,
        name,
        weight,
        number: 77,
        value: 77,
    }
}

fn lent(entry: &batch::Entry) -> Entry {
    let batch::Entry {
        kind,
        name,
        weight,
        number,
        value,
    } = *entry;
    Entry {
        kind,
        name,
        weight,
        number,
        value,
    }
}

/// Histories of one type: each number that it can answer must come up.
fn compared<O: Owner>(new: impl Fn() -> O) {
    let mut tally = Tally::new(if O::KINDS == 3 { MAY_WITH_TABLES } else { MAY });
    for seed in 0..60 {
        let mut history = History {
            ours: new(),
            paper: Paper::new(O::TWO),
            random: Random::new(seed),
            tally: &mut tally,
        };
        for _ in 0..400 {
            history.step();
        }
    }
    tally.is_whole([0]);
    println!("{} calls of an owned board compared", tally.calls());
}

#[test]
#[cfg_attr(
    not(any(linked, served)),
    ignore = "there is no library to call: .ci/bindings builds it and runs this test"
)]
fn one_drive_owns_its_board() {
    compared(|| One(OwnedDrive::new()));
}

#[test]
#[cfg_attr(
    not(any(linked, served)),
    ignore = "there is no library to call: .ci/bindings builds it and runs this test"
)]
fn two_drives_own_their_board() {
    compared(|| Two(OwnedPair::new()));
}

#[test]
#[cfg_attr(
    not(any(linked, served)),
    ignore = "there is no library to call: .ci/bindings builds it and runs this test"
)]
fn drives_own_their_tables() {
    compared(|| OneShared(OwnedShares::one()));
    compared(|| TwoShared(OwnedShares::two()));
}
