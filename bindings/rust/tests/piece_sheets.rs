//! The library's sheets that list pieces beside those by the letter: what is written and read, sound and broken, and both conversions.
mod boundary;

use boundary::{answer, drive, record, Boundary};
use mandrozsi::raw::{self, Said};
use mandrozsi::{to_leaves, to_pieces, Drive, Pair, Refusal, Side};
use paper::piece_sheets::{compare, PieceSheets};
use paper::trial::Calls;
use paper::{at, Answer, Records};

fn told(said: Said) -> (u64, u64) {
    assert_eq!((said.second, said.third, said.fourth), (0, 0, 0));
    (said.number, said.first)
}

// SAFETY, of each: pointer and length are of one slice, lent for the call alone.
impl PieceSheets for Boundary {
    fn save_pieces(&self, r: Records, board: &[u16], output: &mut [u8]) -> Answer {
        let (board, entries, output, length) = (board.as_ptr(), board.len(), output.as_mut_ptr(), output.len());
        let own = drive(r.own);
        answer(unsafe {
            match r.other {
                None => raw::mandrozsi_save_pieces(own, board, entries, output, length),
                Some(other) => raw::mandrozsi_pair_save_pieces(own, drive(other), board, entries, output, length),
            }
        })
    }
    fn read_pieces(&self, sheet: &[u8], board: &mut [u16], list: &mut [u64]) -> Answer {
        let (entries, numbers) = (board.len(), list.len());
        answer(unsafe { raw::mandrozsi_read_pieces(sheet.as_ptr(), sheet.len(), board.as_mut_ptr(), entries, list.as_mut_ptr(), numbers) })
    }
    fn read_leaves(&self, sheet: &[u8], board: &mut [u16], list: &mut [u64]) -> Answer {
        self.read(sheet, board, list)
    }
    fn to_pieces(&self, sheet: &[u8], output: &mut [u8]) -> (u64, u64) {
        told(unsafe { raw::mandrozsi_to_pieces(sheet.as_ptr(), sheet.len(), output.as_mut_ptr(), output.len()) })
    }
    fn to_leaves(&self, sheet: &[u8], output: &mut [u8]) -> (u64, u64) {
        told(unsafe { raw::mandrozsi_to_leaves(sheet.as_ptr(), sheet.len(), output.as_mut_ptr(), output.len()) })
    }
}

/// The safe types, with a result turned back into number and values.
struct Safe;

fn bytes(result: Result<usize, Refusal>) -> (u64, u64) {
    match result {
        Ok(bytes) => (0, bytes as u64),
        Err(why) => (why.number().into(), 0),
    }
}

fn loaded(result: Result<Drive, Refusal>) -> Answer {
    match result {
        Ok(drive) => Answer::done(record(drive), [0; 4]),
        Err(why) => Answer::refused(at(0, 0), why.number()),
    }
}

impl PieceSheets for Safe {
    fn save_pieces(&self, r: Records, board: &[u16], output: &mut [u8]) -> Answer {
        let own = drive(r.own);
        let result = match r.other {
            None => own.save_pieces(board, output),
            Some(other) => Pair {
                first: drive(other),
                second: own,
            }
            .save_pieces(Side::Second, board, output),
        };
        match bytes(result) {
            (0, bytes) => Answer::done(r.own, [bytes, 0, 0, 0]),
            (number, _) => Answer::refused(r.own, number as u16),
        }
    }
    fn read_pieces(&self, sheet: &[u8], board: &mut [u16], list: &mut [u64]) -> Answer {
        let pair = Pair::read_pieces(sheet, &mut board.to_vec(), &mut list.to_vec());
        let one = Drive::read_pieces(sheet, board, list);
        assert_eq!(pair, one.map(|drive| Pair { first: drive, second: drive }));
        loaded(one)
    }
    fn read_leaves(&self, sheet: &[u8], board: &mut [u16], list: &mut [u64]) -> Answer {
        loaded(Drive::read(sheet, board, list))
    }
    fn to_pieces(&self, sheet: &[u8], output: &mut [u8]) -> (u64, u64) {
        bytes(to_pieces(sheet, output))
    }
    fn to_leaves(&self, sheet: &[u8], output: &mut [u8]) -> (u64, u64) {
        bytes(to_leaves(sheet, output))
    }
}

#[test]
#[cfg_attr(
    not(any(linked, served)),
    ignore = "there is no library to call: .ci/bindings builds it and runs this test"
)]
fn the_sheets_of_pieces_are_the_letter() {
    println!("the boundary: {} sheets of pieces compared", compare(&Boundary, 400));
    println!("the safe types: {} sheets of pieces compared", compare(&Safe, 100));
}
