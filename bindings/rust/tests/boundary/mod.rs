//! The library's functions as a version of the calls, with all that they answer: for the comparison and for the benchmark.
use mandrozsi::raw::{self, Reply, Said};
use mandrozsi::Drive;
use paper::batch::Entry;
use paper::trial::Calls;
use paper::{Answer, Record, Records};

#[cfg(not(linked))]
mod served;

pub fn drive(record: Record) -> Drive {
    Drive {
        capacity: record.capacity,
        position: record.position,
        round: record.round,
    }
}

pub fn record(drive: Drive) -> Record {
    Record {
        capacity: drive.capacity,
        position: drive.position,
        round: drive.round,
    }
}

/// An entry as the library has it, and back.
pub fn asked(e: &Entry) -> mandrozsi::Entry {
    mandrozsi::Entry {
        kind: e.kind,
        name: e.name,
        weight: e.weight,
        number: e.number,
        value: e.value,
    }
}

pub fn left_in(e: &mandrozsi::Entry) -> Entry {
    Entry {
        kind: e.kind,
        name: e.name,
        weight: e.weight,
        number: e.number,
        value: e.value,
    }
}

pub struct Boundary;

pub fn answer(reply: Reply) -> Answer {
    let Said {
        number,
        first,
        second,
        third,
        fourth,
    } = reply.said;
    Answer {
        record: record(reply.drive),
        number: u16::try_from(number).expect("the library's numbers are small"),
        values: [first, second, third, fourth],
    }
}

// SAFETY, of each: pointer and length are of one slice, lent for the call alone.
impl Calls for Boundary {
    fn open(&self, c: u16, board: &mut [u16], list: &mut [u64]) -> Answer {
        answer(unsafe { raw::mandrozsi_open(c, board.as_mut_ptr(), board.len(), list.as_mut_ptr(), list.len()) })
    }
    fn add(&self, r: Records, board: &mut [u16], list: &mut [u64], name: u16, weight: u16) -> Answer {
        let (board, entries, list, numbers) = (board.as_mut_ptr(), board.len(), list.as_mut_ptr(), list.len());
        let own = drive(r.own);
        answer(unsafe {
            match r.other {
                None => raw::mandrozsi_add(own, board, entries, list, numbers, name, weight),
                Some(other) => raw::mandrozsi_pair_add(own, drive(other), board, entries, list, numbers, name, weight),
            }
        })
    }
    fn remove(&self, r: Records, board: &mut [u16], list: &mut [u64], name: u16) -> Answer {
        let (board, entries, list, numbers) = (board.as_mut_ptr(), board.len(), list.as_mut_ptr(), list.len());
        let own = drive(r.own);
        answer(unsafe {
            match r.other {
                None => raw::mandrozsi_remove(own, board, entries, list, numbers, name),
                Some(other) => raw::mandrozsi_pair_remove(own, drive(other), board, entries, list, numbers, name),
            }
        })
    }
    fn slot(&self, r: Records, board: &mut [u16], list: &mut [u64]) -> Answer {
        let (board, entries, list, numbers) = (board.as_mut_ptr(), board.len(), list.as_mut_ptr(), list.len());
        let own = drive(r.own);
        answer(unsafe {
            match r.other {
                None => raw::mandrozsi_slot(own, board, entries, list, numbers),
                Some(other) => raw::mandrozsi_pair_slot(own, drive(other), board, entries, list, numbers),
            }
        })
    }
    fn slot_here(&self, r: Records, board: &mut [u16], list: &mut [u64]) -> Answer {
        let (board, entries, list, numbers) = (board.as_mut_ptr(), board.len(), list.as_mut_ptr(), list.len());
        let mut own = drive(r.own);
        let other = r.other.map_or(own, drive);
        let said = unsafe { raw::mandrozsi_pair_slot_here(&mut own, other, board, entries, list, numbers) };
        answer(Reply { drive: own, said })
    }
    fn batch(&self, r: Records, board: &mut [u16], list: &mut [u64], table: &mut [Entry]) -> Record {
        let (board, entries, list, numbers) = (board.as_mut_ptr(), board.len(), list.as_mut_ptr(), list.len());
        let own = drive(r.own);
        let other = r.other.map_or(own, drive);
        let mut lent: Vec<_> = table.iter().map(asked).collect();
        let after = unsafe { raw::mandrozsi_pair_batch(own, other, board, entries, list, numbers, lent.as_mut_ptr(), lent.len()) };
        for (entry, left) in table.iter_mut().zip(&lent) {
            *entry = left_in(left);
        }
        record(after)
    }
    fn fresh(&self, r: Records, board: &mut [u16]) -> Answer {
        let (board, entries) = (board.as_mut_ptr(), board.len());
        let own = drive(r.own);
        answer(unsafe {
            match r.other {
                None => raw::mandrozsi_fresh(own, board, entries),
                Some(other) => raw::mandrozsi_pair_fresh(own, drive(other), board, entries),
            }
        })
    }
    fn round(&self, r: Records, board: &[u16], output: &mut [u16]) -> Answer {
        let (board, entries, output, length) = (board.as_ptr(), board.len(), output.as_mut_ptr(), output.len());
        let own = drive(r.own);
        answer(unsafe {
            match r.other {
                None => raw::mandrozsi_round(own, board, entries, output, length),
                Some(other) => raw::mandrozsi_pair_round(own, drive(other), board, entries, output, length),
            }
        })
    }
    fn report(&self, r: Records, board: &[u16], name: u16) -> Answer {
        let (board, entries) = (board.as_ptr(), board.len());
        let own = drive(r.own);
        answer(unsafe {
            match r.other {
                None => raw::mandrozsi_report(own, board, entries, name),
                Some(other) => raw::mandrozsi_pair_report(own, drive(other), board, entries, name),
            }
        })
    }
    fn save(&self, r: Records, board: &[u16], output: &mut [u8]) -> Answer {
        let (board, entries, output, length) = (board.as_ptr(), board.len(), output.as_mut_ptr(), output.len());
        let own = drive(r.own);
        answer(unsafe {
            match r.other {
                None => raw::mandrozsi_save(own, board, entries, output, length),
                Some(other) => raw::mandrozsi_pair_save(own, drive(other), board, entries, output, length),
            }
        })
    }
    fn read(&self, sheet: &[u8], board: &mut [u16], list: &mut [u64]) -> Answer {
        let (entries, numbers) = (board.len(), list.len());
        answer(unsafe { raw::mandrozsi_read(sheet.as_ptr(), sheet.len(), board.as_mut_ptr(), entries, list.as_mut_ptr(), numbers) })
    }
    fn fetch(&self, list: &mut [u64], ticket: u64) -> (u64, u64) {
        let said = unsafe { raw::mandrozsi_fetch(list.as_mut_ptr(), list.len(), ticket) };
        assert_eq!((said.second, said.third, said.fourth), (0, 0, 0));
        (said.number, said.first)
    }
}
