//! The library beside document 01 by the letter: every call, every refusal, every lent entry, on every small board and on random histories.
mod boundary;

use boundary::{asked, drive, left_in, record, Boundary};
use mandrozsi::{fetch, Change, Drive, Fetched, Pair, Refusal, Side};
use paper::batch::Entry;
use paper::trial::{compare, Calls};
use paper::{at, Answer, Record, Records};

/// The safe types, with a result turned back into number and values.
struct Safe;

fn told<T>(before: Record, result: Result<T, Refusal>, done: impl FnOnce(T) -> (Record, [u64; 4])) -> Answer {
    match result {
        Ok(value) => {
            let (record, values) = done(value);
            Answer::done(record, values)
        }
        Err(why) => Answer {
            record: before,
            number: why.number(),
            values: [why.value().into(), 0, 0, 0],
        },
    }
}

fn change(r: Record, result: Result<Change, Refusal>) -> Answer {
    match result {
        Ok(Change::Waiting { ticket }) => Answer {
            values: [ticket, 0, 0, 0],
            ..Answer::refused(r, 13)
        },
        other => told(r, other, |done| match done {
            Change::Done { idle } => (r, [idle.into(), 0, 0, 0]),
            Change::Waiting { .. } => unreachable!(),
        }),
    }
}

/// Two drives, where there are two: by turns the call is for the first and for the second.
fn pair(r: Records) -> Option<(Pair, Side)> {
    let (own, other) = (drive(r.own), drive(r.other?));
    Some(if r.own.round % 2 == 0 {
        let (first, second) = (own, other);
        (Pair { first, second }, Side::First)
    } else {
        let (first, second) = (other, own);
        (Pair { first, second }, Side::Second)
    })
}

impl Calls for Safe {
    fn open(&self, c: u16, board: &mut [u16], list: &mut [u64]) -> Answer {
        told(at(0, 0), Drive::open(c, board, list), |d| (record(d), [0; 4]))
    }
    fn add(&self, r: Records, board: &mut [u16], list: &mut [u64], name: u16, weight: u16) -> Answer {
        let result = match pair(r) {
            None => drive(r.own).add(board, list, name, weight),
            Some((pair, side)) => pair.add(side, board, list, name, weight),
        };
        change(r.own, result)
    }
    fn remove(&self, r: Records, board: &mut [u16], list: &mut [u64], name: u16) -> Answer {
        let result = match pair(r) {
            None => drive(r.own).remove(board, list, name),
            Some((pair, side)) => pair.remove(side, board, list, name),
        };
        change(r.own, result)
    }
    fn slot(&self, r: Records, board: &mut [u16], list: &mut [u64]) -> Answer {
        let mut own = drive(r.own);
        let result = match pair(r) {
            None => own.slot(board, list),
            Some((mut pair, side)) => {
                let result = pair.slot(side, board, list);
                let (moved, stayed) = match side {
                    Side::First => (pair.first, pair.second),
                    Side::Second => (pair.second, pair.first),
                };
                assert_eq!(Some(record(stayed)), r.other);
                own = moved;
                result
            }
        };
        told(record(own), result, |slot| {
            (record(own), [slot.name.into(), slot.leaf.into(), slot.passed.into(), slot.round])
        })
    }
    fn batch(&self, r: Records, board: &mut [u16], list: &mut [u64], table: &mut [Entry]) -> Record {
        let mut lent: Vec<_> = table.iter().map(asked).collect();
        match pair(r) {
            None => drive(r.own).batch(board, list, &mut lent),
            Some((pair, side)) => pair.batch(side, board, list, &mut lent),
        }
        for (entry, left) in table.iter_mut().zip(&lent) {
            *entry = left_in(left);
            let again = change(r.own, left.answer());
            assert_eq!((again.number, again.values[0]), (left.number, left.value));
        }
        r.own
    }
    fn fresh(&self, r: Records, board: &mut [u16]) -> Answer {
        let result = match pair(r) {
            None => drive(r.own).fresh(board),
            Some((pair, side)) => pair.fresh(side, board),
        };
        told(r.own, result, |()| (r.own, [0; 4]))
    }
    fn round(&self, r: Records, board: &[u16], output: &mut [u16]) -> Answer {
        let result = match pair(r) {
            None => drive(r.own).round(board, output),
            Some((pair, side)) => pair.round(side, board, output),
        };
        told(r.own, result, |()| (r.own, [0; 4]))
    }
    fn report(&self, r: Records, board: &[u16], name: u16) -> Answer {
        let result = match pair(r) {
            None => drive(r.own).report(board, name),
            Some((pair, side)) => pair.report(side, board, name),
        };
        told(r.own, result, |s| (r.own, [s.weight.into(), s.pieces.into(), s.spacing.into(), 0]))
    }
    fn save(&self, r: Records, board: &[u16], output: &mut [u8]) -> Answer {
        let result = match pair(r) {
            None => drive(r.own).save(board, output),
            Some((pair, side)) => pair.save(side, board, output),
        };
        told(r.own, result, |bytes| {
            assert_eq!(bytes, drive(r.own).sheet_bytes());
            (r.own, [bytes as u64, 0, 0, 0])
        })
    }
    fn read(&self, sheet: &[u8], board: &mut [u16], list: &mut [u64]) -> Answer {
        told(at(0, 0), Drive::read(sheet, board, list), |d| (record(d), [0; 4]))
    }
    fn fetch(&self, list: &mut [u64], ticket: u64) -> (u64, u64) {
        match fetch(list, ticket) {
            Fetched::Done { idle } => (0, idle.into()),
            Fetched::Refused(why) => (why.number().into(), why.value().into()),
            Fetched::Waiting => (13, ticket),
            Fetched::Unknown => (15, 0),
            Fetched::Foreign { number, value } => (number, value),
        }
    }
}

/// Compares, and says how much and how it was called.
fn compared(name: &str, calls: &impl Calls, seeds: u64) {
    let count = compare(calls, seeds);
    let how = if cfg!(linked) { "linked" } else { "each made by serve.c" };
    println!("{name}: {count} calls compared, {how}");
    assert!(count > 100_000);
}

#[test]
#[cfg_attr(
    not(any(linked, served)),
    ignore = "there is no library to call: .ci/bindings builds it and runs this test"
)]
fn the_boundary_is_the_letter() {
    compared("the boundary", &Boundary, 400);
}

#[test]
#[cfg_attr(
    not(any(linked, served)),
    ignore = "there is no library to call: .ci/bindings builds it and runs this test"
)]
fn the_safe_types_are_the_letter() {
    compared("the safe types", &Safe, 130);
}
