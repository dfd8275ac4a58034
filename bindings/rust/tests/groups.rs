//! The library's import of a group table beside the one by the letter: the answer, the board, the list and the table's round.
mod boundary;

use boundary::{answer, record, Boundary};
use mandrozsi::{raw, Shares, Tables};
use paper::groups::{compare, Import, Lent};
use paper::{at, Answer};

impl Import for Boundary {
    fn import(&self, capacity: u16, starts: &[u16], names: &[u16], lent: &mut Lent) -> Answer {
        let (board, entries) = (lent.board.as_mut_ptr(), lent.board.len());
        let (list, numbers) = (lent.list.as_mut_ptr(), lent.list.len());
        let (output, length) = (lent.output.as_mut_ptr(), lent.output.len());
        let (given, streams) = (starts.len(), names.len());
        let (starts, names) = (starts.as_ptr(), names.as_ptr());
        // SAFETY: pointer and length are of one slice, lent for the call alone.
        answer(unsafe { raw::mandrozsi_import(capacity, starts, given, names, streams, board, entries, list, numbers, output, length) })
    }
}

/// The safe function, with its result turned back into number and record.
struct Safe;

impl Import for Safe {
    fn import(&self, capacity: u16, starts: &[u16], names: &[u16], lent: &mut Lent) -> Answer {
        match mandrozsi::import(capacity, starts, names, &mut lent.board, &mut lent.list, &mut lent.output) {
            Ok(drive) => Answer::done(record(drive), [0; 4]),
            Err(why) => Answer::refused(at(0, 0), why.number()),
        }
    }
}

/// With tables as long as the board, which an import that is done clears and a refused one leaves.
struct WithTables;

impl Import for WithTables {
    fn import(&self, capacity: u16, starts: &[u16], names: &[u16], lent: &mut Lent) -> Answer {
        let long = lent.board.len();
        let (mut rates, mut first, mut second) = (vec![3; long], vec![4; long], vec![5; long]);
        let mut tables = Tables {
            rates: &mut rates,
            first: &mut first,
            second: &mut second,
        };
        let result = Shares::import(capacity, (starts, names), &mut lent.board, &mut lent.list, &mut tables, &mut lent.output);
        let cleared = if result.is_ok() { capacity.into() } else { 0 };
        for (table, old) in [(rates, 3), (first, 4), (second, 5)] {
            assert!(table[..cleared].iter().all(|&x| x == 0) && table[cleared..].iter().all(|&x| x == old));
        }
        match result {
            Ok(shares) => Answer::done(record(shares.first), [0; 4]),
            Err(why) => Answer::refused(at(0, 0), why.number()),
        }
    }
}

#[test]
#[cfg_attr(
    not(any(linked, served)),
    ignore = "there is no library to call: .ci/bindings builds it and runs this test"
)]
fn the_import_is_the_letter() {
    println!("the boundary: {} imports compared", compare(&Boundary, 3000));
    println!("the safe types: {} imports compared", compare(&Safe, 500));
    println!("with tables: {} imports compared", compare(&WithTables, 500));
}
