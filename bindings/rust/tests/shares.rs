//! The library's calls with tables beside those by the letter: every answer, every record, every lent entry, on random histories of two drives.
mod boundary;

use boundary::{answer, asked, drive, left_in, record, Boundary};
use mandrozsi::raw::{self, Reply};
use mandrozsi::{Change, Refusal, Shares, Side, Tables};
use paper::batch::Entry;
use paper::shared_trial::compare;
use paper::shares::{Lent, Shared};
use paper::waiting::Order;
use paper::{at, Answer, Record, Records};

/// A function of the library with the pointers and lengths of all that is lent.
macro_rules! made {
    ($call:ident ( $($before:expr),* ), $lent:expr $(, $after:expr)*) => {{
        let Lent { board, rates, owed: [owed, other], list } = $lent;
        // SAFETY: each pointer and length are of one slice, lent for the call alone.
        unsafe {
            raw::$call(
                $($before,)*
                board.as_mut_ptr(),
                board.len(),
                list.as_mut_ptr(),
                list.len(),
                rates.as_mut_ptr(),
                rates.len(),
                owed.as_mut_ptr(),
                owed.len(),
                other.as_mut_ptr(),
                other.len(),
                $($after,)*
            )
        }
    }};
}

/// The same for a call that only looks.
macro_rules! looked {
    ($call:ident ( $($before:expr),* ), $lent:expr $(, $after:expr)*) => {{
        let Lent { board, rates, owed: [owed, other], .. } = $lent;
        // SAFETY: as above.
        unsafe {
            raw::$call(
                $($before,)*
                board.as_ptr(),
                board.len(),
                rates.as_ptr(),
                rates.len(),
                owed.as_ptr(),
                owed.len(),
                other.as_ptr(),
                other.len(),
                $($after,)*
            )
        }
    }};
}

fn both(r: Records) -> (mandrozsi::Drive, mandrozsi::Drive) {
    (drive(r.own), drive(r.other.expect("there are two")))
}

impl Shared for Boundary {
    fn open(&self, c: u16, lent: &mut Lent) -> Answer {
        answer(made!(mandrozsi_share_open(c), lent))
    }
    fn read(&self, sheet: &[u8], lent: &mut Lent) -> Answer {
        answer(made!(mandrozsi_share_read(sheet.as_ptr(), sheet.len()), lent))
    }
    fn change(&self, r: Records, lent: &mut Lent, order: Order) -> Answer {
        let (own, other) = both(r);
        let Order { kind, name, weight } = order;
        answer(match kind {
            1 => made!(mandrozsi_share_add(own, other), lent, name, weight),
            2 => made!(mandrozsi_share_remove(own, other), lent, name),
            _ => made!(mandrozsi_share_over(own, other), lent, name, weight),
        })
    }
    fn slot(&self, r: Records, lent: &mut Lent) -> Answer {
        let (own, other) = both(r);
        answer(made!(mandrozsi_share_slot(own, other), lent))
    }
    fn slot_here(&self, r: Records, lent: &mut Lent) -> Answer {
        let (mut own, other) = both(r);
        let said = made!(mandrozsi_share_slot_here(&mut own, other), lent);
        answer(Reply { drive: own, said })
    }
    fn round(&self, r: Records, lent: &Lent, output: &mut [u16]) -> Answer {
        let (own, other) = both(r);
        let (start, length) = (output.as_mut_ptr(), output.len());
        answer(looked!(mandrozsi_share_round(own, other), lent, start, length))
    }
    fn report(&self, r: Records, lent: &Lent, name: u16) -> Answer {
        let (own, other) = both(r);
        answer(looked!(mandrozsi_share_report(own, other), lent, name))
    }
    fn save(&self, r: Records, lent: &Lent, output: &mut [u8]) -> Answer {
        let (own, other) = both(r);
        let (start, length) = (output.as_mut_ptr(), output.len());
        answer(looked!(mandrozsi_share_save(own, other), lent, start, length))
    }
    fn save_pieces(&self, r: Records, lent: &Lent, output: &mut [u8]) -> Answer {
        let (own, other) = both(r);
        let (start, length) = (output.as_mut_ptr(), output.len());
        answer(looked!(mandrozsi_share_save_pieces(own, other), lent, start, length))
    }
    fn read_pieces(&self, sheet: &[u8], lent: &mut Lent) -> Answer {
        answer(made!(mandrozsi_share_read_pieces(sheet.as_ptr(), sheet.len()), lent))
    }
    fn fresh(&self, r: Records, lent: &mut Lent) -> Answer {
        let (own, other) = both(r);
        let Lent {
            board,
            rates,
            owed: [owed, deficits],
            ..
        } = lent;
        // SAFETY: as above.
        answer(unsafe {
            raw::mandrozsi_share_fresh(
                own,
                other,
                board.as_mut_ptr(),
                board.len(),
                rates.as_mut_ptr(),
                rates.len(),
                owed.as_mut_ptr(),
                owed.len(),
                deficits.as_mut_ptr(),
                deficits.len(),
            )
        })
    }
    fn batch(&self, r: Records, lent: &mut Lent, table: &mut [Entry]) -> Record {
        let (own, other) = both(r);
        let mut entries: Vec<_> = table.iter().map(asked).collect();
        let (start, changes) = (entries.as_mut_ptr(), entries.len());
        let after = made!(mandrozsi_share_batch(own, other), lent, start, changes);
        for (entry, left) in table.iter_mut().zip(&entries) {
            *entry = left_in(left);
        }
        record(after)
    }
}

/// The safe types, with a result turned back into number and values.
struct Safe;

/// One drive where both records are one, and else two, by turns the first and the second.
fn shares(r: Records) -> (Shares, Side) {
    let (own, other) = both(r);
    if own == other {
        return (Shares { first: own, second: None }, Side::Second);
    }
    let (first, second, side) = if own.round % 2 == 0 {
        (own, other, Side::First)
    } else {
        (other, own, Side::Second)
    };
    (Shares { first, second: Some(second) }, side)
}

/// The tables as a call for a side is lent them.
fn tables<T>(lent: &mut Lent, shares: Shares, side: Side, call: impl FnOnce(&mut [u16], &mut [u64], &mut Tables) -> T) -> T {
    let Lent {
        board,
        rates,
        owed: [owed, other],
        list,
    } = lent;
    let (first, second) = if side == Side::Second && shares.second.is_some() {
        (other, owed)
    } else {
        (owed, other)
    };
    call(board, list, &mut Tables { rates, first, second })
}

fn told<T>(before: Record, result: Result<T, Refusal>, done: impl FnOnce(T) -> (Record, [u64; 4])) -> Answer {
    match result {
        Ok(value) => {
            let (record, values) = done(value);
            Answer::done(record, values)
        }
        Err(why) => Answer {
            values: [why.value().into(), 0, 0, 0],
            ..Answer::refused(before, why.number())
        },
    }
}

fn changed(r: Record, result: Result<Change, Refusal>) -> Answer {
    match result {
        Ok(Change::Waiting { ticket }) => Answer {
            values: [ticket, 0, 0, 0],
            ..Answer::refused(r, 13)
        },
        Ok(Change::Done { idle }) => Answer::done(r, [idle.into(), 0, 0, 0]),
        Err(why) => told(r, Err::<(), _>(why), |()| unreachable!()),
    }
}

impl Shared for Safe {
    fn open(&self, c: u16, lent: &mut Lent) -> Answer {
        let one = Shares {
            first: drive(at(0, 0)),
            second: None,
        };
        let result = tables(lent, one, Side::First, |b, l, t| Shares::open(c, b, l, t));
        told(at(0, 0), result, |s| {
            assert_eq!(Some(s.first), s.second);
            (record(s.first), [0; 4])
        })
    }
    fn read(&self, sheet: &[u8], lent: &mut Lent) -> Answer {
        let one = Shares {
            first: drive(at(0, 0)),
            second: None,
        };
        let result = tables(lent, one, Side::First, |b, l, t| Shares::read_one(sheet, b, l, t));
        told(at(0, 0), result, |s| (record(s.first), [0; 4]))
    }
    fn change(&self, r: Records, lent: &mut Lent, order: Order) -> Answer {
        let (s, side) = shares(r);
        let Order { kind, name, weight } = order;
        let result = tables(lent, s, side, |b, l, t| match kind {
            1 => s.add(side, b, l, t, name, weight),
            2 => s.remove(side, b, l, t, name),
            _ => s.over(side, b, l, t, name, weight),
        });
        changed(r.own, result)
    }
    fn slot(&self, r: Records, lent: &mut Lent) -> Answer {
        let (mut s, side) = shares(r);
        let before = s;
        let result = tables(lent, s, side, |b, l, t| s.slot(side, b, l, t));
        let (moved, stayed) = match (side, s.second) {
            (Side::Second, Some(second)) => (second, s.first == before.first),
            _ => (s.first, s.second == before.second),
        };
        assert!(stayed);
        told(record(moved), result, |slot| {
            (record(moved), [slot.name.into(), slot.leaf.into(), slot.passed.into(), slot.round])
        })
    }
    fn round(&self, r: Records, lent: &Lent, output: &mut [u16]) -> Answer {
        let (s, side) = shares(r);
        let result = tables(&mut lent.clone(), s, side, |b, _, t| s.round(side, b, t, output));
        told(r.own, result, |()| (r.own, [0; 4]))
    }
    fn report(&self, r: Records, lent: &Lent, name: u16) -> Answer {
        let (s, side) = shares(r);
        let result = tables(&mut lent.clone(), s, side, |b, _, t| s.report(side, b, t, name));
        told(r.own, result, |s| (r.own, [s.weight.into(), s.pieces.into(), s.spacing.into(), 0]))
    }
    fn save(&self, r: Records, lent: &Lent, output: &mut [u8]) -> Answer {
        let (s, side) = shares(r);
        let result = tables(&mut lent.clone(), s, side, |b, _, t| s.save(side, b, t, output));
        told(r.own, result, |bytes| (r.own, [bytes as u64, 0, 0, 0]))
    }
    fn save_pieces(&self, r: Records, lent: &Lent, output: &mut [u8]) -> Answer {
        let (s, side) = shares(r);
        let result = tables(&mut lent.clone(), s, side, |b, _, t| s.save_pieces(side, b, t, output));
        told(r.own, result, |bytes| (r.own, [bytes as u64, 0, 0, 0]))
    }
    fn read_pieces(&self, sheet: &[u8], lent: &mut Lent) -> Answer {
        let one = Shares {
            first: drive(at(0, 0)),
            second: None,
        };
        let result = tables(lent, one, Side::First, |b, l, t| Shares::read_pieces(sheet, b, l, t));
        told(at(0, 0), result, |s| (record(s.first), [0; 4]))
    }
    fn fresh(&self, r: Records, lent: &mut Lent) -> Answer {
        let (s, side) = shares(r);
        let result = tables(lent, s, side, |b, _, t| s.fresh(side, b, t));
        told(r.own, result, |()| (r.own, [0; 4]))
    }
    fn batch(&self, r: Records, lent: &mut Lent, table: &mut [Entry]) -> Record {
        let (s, side) = shares(r);
        let mut entries: Vec<_> = table.iter().map(asked).collect();
        tables(lent, s, side, |b, l, t| s.batch(side, b, l, t, &mut entries));
        for (entry, left) in table.iter_mut().zip(&entries) {
            *entry = left_in(left);
        }
        r.own
    }
}

#[test]
#[cfg_attr(
    not(any(linked, served)),
    ignore = "there is no library to call: .ci/bindings builds it and runs this test"
)]
fn the_calls_with_tables_are_the_letter() {
    println!("the boundary: {} calls with tables compared", compare(&Boundary, 300));
    println!("the safe types: {} calls with tables compared", compare(&Safe, 100));
}
