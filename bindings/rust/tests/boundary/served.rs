//! The library's functions where it cannot be linked: each hands its call to a process that has the library and makes it there
//! (bindings/c/serve.c, which says the form of a call and an answer). The crate's declarations find these functions at the link, so all that
//! stands above them is the same as with the library. `MANDROZSI_SERVE` is the command, one word to a line. Each thread has its own process.
use mandrozsi::raw::{Reply, Said};
use mandrozsi::{Drive, Entry};
use std::cell::RefCell;
use std::io::{Read, Write};
use std::mem::size_of;
use std::process::{Child, ChildStdin, ChildStdout, Command, Stdio};
use std::slice;

struct Server {
    calls: ChildStdin,
    answers: ChildStdout,
    _process: Child,
}

impl Server {
    fn start() -> RefCell<Server> {
        let command = std::env::var("MANDROZSI_SERVE").expect("MANDROZSI_SERVE names the process that makes the calls");
        let mut words = command.lines();
        let mut process = Command::new(words.next().expect("a command has a word"))
            .args(words)
            .stdin(Stdio::piped())
            .stdout(Stdio::piped())
            .spawn()
            .expect("the process of MANDROZSI_SERVE starts");
        RefCell::new(Server {
            calls: process.stdin.take().unwrap(),
            answers: process.stdout.take().unwrap(),
            _process: process,
        })
    }

    /// One call, written whole before its answer is read; serve.c's `struct call` has the order. The head is what is called, the name and the weight.
    fn ask(&mut self, head: [u16; 3], [drive, partner]: [Drive; 2], lent: [Lent; SLICES]) -> Reply {
        let places = [drive.capacity, drive.position, partner.capacity, partner.position, 0];
        let mut call: Vec<u8> = head.iter().chain(&places).flat_map(|n| n.to_le_bytes()).collect();
        let lengths = lent.each_ref().map(|slice| slice.bytes().len() as u64);
        let numbers = [drive.round, partner.round];
        call.extend(numbers.iter().chain(&lengths).flat_map(|n| n.to_le_bytes()));
        for slice in &lent {
            call.extend_from_slice(slice.bytes());
        }
        let mut reply = [0; size_of::<Reply>()];
        let answered = self.calls.write_all(&call).and_then(|()| self.answers.read_exact(&mut reply));
        answered.unwrap_or_else(|why| panic!("the process ended at the call {head:?} of {drive:?}: {why}"));
        for slice in lent {
            slice.take_back(&mut self.answers);
        }
        let long = |at: usize| u64::from_le_bytes(reply[at..at + 8].try_into().unwrap());
        Reply {
            drive: Drive {
                capacity: long(0) as u16,
                position: (long(0) >> 16) as u16,
                round: long(8),
            },
            said: Said {
                number: long(16),
                first: long(24),
                second: long(32),
                third: long(40),
                fourth: long(48),
            },
        }
    }
}

thread_local!(static SERVER: RefCell<Server> = Server::start());

/// The slices that a call can be lent, in serve.c's order.
const SLICES: usize = 8;

/// The bytes of a lent slice.
enum Lent<'a> {
    Shared(&'a [u8]),
    Changed(&'a mut [u8]),
}

const NONE: Lent = Lent::Shared(&[]);

impl Lent<'_> {
    // SAFETY, of both: the pointer and the length are of one slice, lent for the call; its numbers are read as bytes.
    unsafe fn shared<T>(start: *const T, length: usize) -> Self {
        Lent::Shared(slice::from_raw_parts(start.cast(), length * size_of::<T>()))
    }
    unsafe fn changed<T>(start: *mut T, length: usize) -> Self {
        Lent::Changed(slice::from_raw_parts_mut(start.cast(), length * size_of::<T>()))
    }

    fn bytes(&self) -> &[u8] {
        match self {
            Lent::Shared(bytes) => bytes,
            Lent::Changed(bytes) => bytes,
        }
    }

    /// Takes the slice as the call left it: one that was lent to be read must be as it was.
    fn take_back(self, answers: &mut ChildStdout) {
        let ended = "the process answers with every slice";
        match self {
            Lent::Changed(bytes) => answers.read_exact(bytes).expect(ended),
            Lent::Shared(bytes) => {
                let mut after = vec![0; bytes.len()];
                answers.read_exact(&mut after).expect(ended);
                assert!(after == bytes, "the call changed a slice that it may only read");
            }
        }
    }
}

/// A call that is lent the board, the list and one slice more, or fewer.
fn ask(call: u16, drives: [Drive; 2], name: u16, weight: u16, [board, list, other]: [Lent; 3]) -> Reply {
    ask_all(call, drives, name, weight, [board, list, other, NONE, NONE, NONE, NONE, NONE])
}

fn ask_all(call: u16, drives: [Drive; 2], name: u16, weight: u16, lent: [Lent; SLICES]) -> Reply {
    SERVER.with_borrow_mut(|server| server.ask([call, name, weight], drives, lent))
}

/// Of one drive: there is no other record.
fn one(drive: Drive) -> [Drive; 2] {
    [drive, Drive::default()]
}

// In the order of serve.c. SAFETY: as raw.rs asks, pointer and length are of one slice.
#[no_mangle]
unsafe extern "C" fn mandrozsi_open(capacity: u16, board: *mut u16, entries: usize, list: *mut u64, numbers: usize) -> Reply {
    let drive = Drive {
        capacity,
        ..Drive::default()
    };
    ask(0, one(drive), 0, 0, [Lent::changed(board, entries), Lent::changed(list, numbers), NONE])
}
#[no_mangle]
unsafe extern "C" fn mandrozsi_add(drive: Drive, board: *mut u16, entries: usize, list: *mut u64, numbers: usize, name: u16, weight: u16) -> Reply {
    let lent = [Lent::changed(board, entries), Lent::changed(list, numbers), NONE];
    ask(1, one(drive), name, weight, lent)
}
#[no_mangle]
unsafe extern "C" fn mandrozsi_remove(drive: Drive, board: *mut u16, entries: usize, list: *mut u64, numbers: usize, name: u16) -> Reply {
    let lent = [Lent::changed(board, entries), Lent::changed(list, numbers), NONE];
    ask(2, one(drive), name, 0, lent)
}
#[no_mangle]
unsafe extern "C" fn mandrozsi_slot(drive: Drive, board: *mut u16, entries: usize, list: *mut u64, numbers: usize) -> Reply {
    ask(3, one(drive), 0, 0, [Lent::changed(board, entries), Lent::changed(list, numbers), NONE])
}
#[no_mangle]
unsafe extern "C" fn mandrozsi_round(drive: Drive, board: *const u16, entries: usize, output: *mut u16, length: usize) -> Reply {
    ask(4, one(drive), 0, 0, [Lent::shared(board, entries), NONE, Lent::changed(output, length)])
}
#[no_mangle]
unsafe extern "C" fn mandrozsi_report(drive: Drive, board: *const u16, entries: usize, name: u16) -> Reply {
    ask(5, one(drive), name, 0, [Lent::shared(board, entries), NONE, NONE])
}
#[no_mangle]
unsafe extern "C" fn mandrozsi_save(drive: Drive, board: *const u16, entries: usize, output: *mut u8, length: usize) -> Reply {
    ask(6, one(drive), 0, 0, [Lent::shared(board, entries), NONE, Lent::changed(output, length)])
}
#[no_mangle]
unsafe extern "C" fn mandrozsi_read(sheet: *const u8, length: usize, board: *mut u16, entries: usize, list: *mut u64, numbers: usize) -> Reply {
    let lent = [Lent::changed(board, entries), Lent::changed(list, numbers), Lent::shared(sheet, length)];
    ask(7, one(Drive::default()), 0, 0, lent)
}
#[no_mangle]
unsafe extern "C" fn mandrozsi_fetch(list: *mut u64, numbers: usize, ticket: u64) -> Said {
    let asked = Drive {
        round: ticket,
        ..Drive::default()
    };
    ask(8, one(asked), 0, 0, [NONE, Lent::changed(list, numbers), NONE]).said
}
#[no_mangle]
unsafe extern "C" fn mandrozsi_pair_add(
    own: Drive,
    other: Drive,
    board: *mut u16,
    entries: usize,
    list: *mut u64,
    numbers: usize,
    name: u16,
    weight: u16,
) -> Reply {
    let lent = [Lent::changed(board, entries), Lent::changed(list, numbers), NONE];
    ask(9, [own, other], name, weight, lent)
}
#[no_mangle]
unsafe extern "C" fn mandrozsi_pair_remove(
    own: Drive,
    other: Drive,
    board: *mut u16,
    entries: usize,
    list: *mut u64,
    numbers: usize,
    name: u16,
) -> Reply {
    let lent = [Lent::changed(board, entries), Lent::changed(list, numbers), NONE];
    ask(10, [own, other], name, 0, lent)
}
#[no_mangle]
unsafe extern "C" fn mandrozsi_pair_slot(own: Drive, other: Drive, board: *mut u16, entries: usize, list: *mut u64, numbers: usize) -> Reply {
    let lent = [Lent::changed(board, entries), Lent::changed(list, numbers), NONE];
    ask(11, [own, other], 0, 0, lent)
}
#[no_mangle]
unsafe extern "C" fn mandrozsi_pair_round(own: Drive, other: Drive, board: *const u16, entries: usize, output: *mut u16, length: usize) -> Reply {
    let lent = [Lent::shared(board, entries), NONE, Lent::changed(output, length)];
    ask(12, [own, other], 0, 0, lent)
}
#[no_mangle]
unsafe extern "C" fn mandrozsi_pair_report(own: Drive, other: Drive, board: *const u16, entries: usize, name: u16) -> Reply {
    ask(13, [own, other], name, 0, [Lent::shared(board, entries), NONE, NONE])
}
#[no_mangle]
unsafe extern "C" fn mandrozsi_pair_save(own: Drive, other: Drive, board: *const u16, entries: usize, output: *mut u8, length: usize) -> Reply {
    let lent = [Lent::shared(board, entries), NONE, Lent::changed(output, length)];
    ask(14, [own, other], 0, 0, lent)
}
#[no_mangle]
unsafe extern "C" fn mandrozsi_pair_batch(
    own: Drive,
    other: Drive,
    board: *mut u16,
    entries: usize,
    list: *mut u64,
    numbers: usize,
    table: *mut Entry,
    changes: usize,
) -> Drive {
    let lent = [Lent::changed(board, entries), Lent::changed(list, numbers), Lent::changed(table, changes)];
    ask(15, [own, other], 0, 0, lent).drive
}
#[no_mangle]
unsafe extern "C" fn mandrozsi_pair_slot_here(
    own: *mut Drive,
    other: Drive,
    board: *mut u16,
    entries: usize,
    list: *mut u64,
    numbers: usize,
) -> Said {
    let lent = [Lent::changed(board, entries), Lent::changed(list, numbers), NONE];
    let reply = ask(16, [*own, other], 0, 0, lent);
    *own = reply.drive;
    reply.said
}
#[no_mangle]
unsafe extern "C" fn mandrozsi_walk(capacity: u16, board: *const u16, entries: usize, marks: *mut u16, length: usize) -> Said {
    let asked = Drive {
        capacity,
        ..Drive::default()
    };
    let lent = [Lent::shared(board, entries), NONE, Lent::changed(marks, length)];
    ask(17, one(asked), 0, 0, lent).said
}
#[no_mangle]
unsafe extern "C" fn mandrozsi_fresh(drive: Drive, board: *mut u16, entries: usize) -> Reply {
    ask(18, one(drive), 0, 0, [Lent::changed(board, entries), NONE, NONE])
}
#[no_mangle]
unsafe extern "C" fn mandrozsi_pair_fresh(own: Drive, other: Drive, board: *mut u16, entries: usize) -> Reply {
    ask(19, [own, other], 0, 0, [Lent::changed(board, entries), NONE, NONE])
}
#[no_mangle]
unsafe extern "C" fn mandrozsi_save_pieces(drive: Drive, board: *const u16, entries: usize, output: *mut u8, length: usize) -> Reply {
    ask(20, one(drive), 0, 0, [Lent::shared(board, entries), NONE, Lent::changed(output, length)])
}
#[no_mangle]
unsafe extern "C" fn mandrozsi_read_pieces(
    sheet: *const u8,
    length: usize,
    board: *mut u16,
    entries: usize,
    list: *mut u64,
    numbers: usize,
) -> Reply {
    let lent = [Lent::changed(board, entries), Lent::changed(list, numbers), Lent::shared(sheet, length)];
    ask(21, one(Drive::default()), 0, 0, lent)
}

/// A conversion: the output, and the sheet beside it.
fn convert(call: u16, sheet: Lent, output: Lent) -> Said {
    let drives = [Drive::default(); 2];
    ask_all(call, drives, 0, 0, [NONE, NONE, output, NONE, NONE, NONE, sheet, NONE]).said
}

#[no_mangle]
unsafe extern "C" fn mandrozsi_to_pieces(sheet: *const u8, bytes: usize, output: *mut u8, length: usize) -> Said {
    convert(22, Lent::shared(sheet, bytes), Lent::changed(output, length))
}
#[no_mangle]
unsafe extern "C" fn mandrozsi_to_leaves(sheet: *const u8, bytes: usize, output: *mut u8, length: usize) -> Said {
    convert(23, Lent::shared(sheet, bytes), Lent::changed(output, length))
}
#[no_mangle]
unsafe extern "C" fn mandrozsi_pair_save_pieces(
    own: Drive,
    other: Drive,
    board: *const u16,
    entries: usize,
    output: *mut u8,
    length: usize,
) -> Reply {
    let lent = [Lent::shared(board, entries), NONE, Lent::changed(output, length)];
    ask(24, [own, other], 0, 0, lent)
}
#[no_mangle]
unsafe extern "C" fn mandrozsi_import(
    capacity: u16,
    starts: *const u16,
    given: usize,
    names: *const u16,
    streams: usize,
    board: *mut u16,
    entries: usize,
    list: *mut u64,
    numbers: usize,
    output: *mut u16,
    length: usize,
) -> Reply {
    let asked = Drive {
        capacity,
        ..Drive::default()
    };
    let (board, list, output) = (Lent::changed(board, entries), Lent::changed(list, numbers), Lent::changed(output, length));
    let (starts, names) = (Lent::shared(starts, given), Lent::shared(names, streams));
    ask_all(25, one(asked), 0, 0, [board, list, output, NONE, NONE, NONE, starts, names])
}
#[no_mangle]
unsafe extern "C" fn mandrozsi_share_open(
    capacity: u16,
    board: *mut u16,
    entries: usize,
    list: *mut u64,
    numbers: usize,
    rates: *mut u16,
    rated: usize,
    owed: *mut u16,
    owing: usize,
    owed_other: *mut u16,
    other_owing: usize,
) -> Reply {
    let lent = [
        Lent::changed(board, entries),
        Lent::changed(list, numbers),
        NONE,
        Lent::changed(rates, rated),
        Lent::changed(owed, owing),
        Lent::changed(owed_other, other_owing),
        NONE,
        NONE,
    ];
    let asked = Drive {
        capacity,
        ..Drive::default()
    };
    ask_all(26, one(asked), 0, 0, lent)
}
#[no_mangle]
unsafe extern "C" fn mandrozsi_share_read(
    sheet: *const u8,
    length: usize,
    board: *mut u16,
    entries: usize,
    list: *mut u64,
    numbers: usize,
    rates: *mut u16,
    rated: usize,
    owed: *mut u16,
    owing: usize,
    owed_other: *mut u16,
    other_owing: usize,
) -> Reply {
    let lent = [
        Lent::changed(board, entries),
        Lent::changed(list, numbers),
        Lent::shared(sheet, length),
        Lent::changed(rates, rated),
        Lent::changed(owed, owing),
        Lent::changed(owed_other, other_owing),
        NONE,
        NONE,
    ];
    ask_all(27, one(Drive::default()), 0, 0, lent)
}
#[no_mangle]
unsafe extern "C" fn mandrozsi_share_add(
    own: Drive,
    other: Drive,
    board: *mut u16,
    entries: usize,
    list: *mut u64,
    numbers: usize,
    rates: *mut u16,
    rated: usize,
    owed: *mut u16,
    owing: usize,
    owed_other: *mut u16,
    other_owing: usize,
    name: u16,
    weight: u16,
) -> Reply {
    let lent = [
        Lent::changed(board, entries),
        Lent::changed(list, numbers),
        NONE,
        Lent::changed(rates, rated),
        Lent::changed(owed, owing),
        Lent::changed(owed_other, other_owing),
        NONE,
        NONE,
    ];
    ask_all(28, [own, other], name, weight, lent)
}
#[no_mangle]
unsafe extern "C" fn mandrozsi_share_over(
    own: Drive,
    other: Drive,
    board: *mut u16,
    entries: usize,
    list: *mut u64,
    numbers: usize,
    rates: *mut u16,
    rated: usize,
    owed: *mut u16,
    owing: usize,
    owed_other: *mut u16,
    other_owing: usize,
    name: u16,
    weight: u16,
) -> Reply {
    let lent = [
        Lent::changed(board, entries),
        Lent::changed(list, numbers),
        NONE,
        Lent::changed(rates, rated),
        Lent::changed(owed, owing),
        Lent::changed(owed_other, other_owing),
        NONE,
        NONE,
    ];
    ask_all(29, [own, other], name, weight, lent)
}
#[no_mangle]
unsafe extern "C" fn mandrozsi_share_remove(
    own: Drive,
    other: Drive,
    board: *mut u16,
    entries: usize,
    list: *mut u64,
    numbers: usize,
    rates: *mut u16,
    rated: usize,
    owed: *mut u16,
    owing: usize,
    owed_other: *mut u16,
    other_owing: usize,
    name: u16,
) -> Reply {
    let lent = [
        Lent::changed(board, entries),
        Lent::changed(list, numbers),
        NONE,
        Lent::changed(rates, rated),
        Lent::changed(owed, owing),
        Lent::changed(owed_other, other_owing),
        NONE,
        NONE,
    ];
    ask_all(30, [own, other], name, 0, lent)
}
#[no_mangle]
unsafe extern "C" fn mandrozsi_share_slot(
    own: Drive,
    other: Drive,
    board: *mut u16,
    entries: usize,
    list: *mut u64,
    numbers: usize,
    rates: *mut u16,
    rated: usize,
    owed: *mut u16,
    owing: usize,
    owed_other: *mut u16,
    other_owing: usize,
) -> Reply {
    let lent = [
        Lent::changed(board, entries),
        Lent::changed(list, numbers),
        NONE,
        Lent::changed(rates, rated),
        Lent::changed(owed, owing),
        Lent::changed(owed_other, other_owing),
        NONE,
        NONE,
    ];
    ask_all(31, [own, other], 0, 0, lent)
}
#[no_mangle]
unsafe extern "C" fn mandrozsi_share_round(
    own: Drive,
    other: Drive,
    board: *const u16,
    entries: usize,
    rates: *const u16,
    rated: usize,
    owed: *const u16,
    owing: usize,
    owed_other: *const u16,
    other_owing: usize,
    output: *mut u16,
    length: usize,
) -> Reply {
    let lent = [
        Lent::shared(board, entries),
        NONE,
        Lent::changed(output, length),
        Lent::shared(rates, rated),
        Lent::shared(owed, owing),
        Lent::shared(owed_other, other_owing),
        NONE,
        NONE,
    ];
    ask_all(32, [own, other], 0, 0, lent)
}
#[no_mangle]
unsafe extern "C" fn mandrozsi_share_report(
    own: Drive,
    other: Drive,
    board: *const u16,
    entries: usize,
    rates: *const u16,
    rated: usize,
    owed: *const u16,
    owing: usize,
    owed_other: *const u16,
    other_owing: usize,
    name: u16,
) -> Reply {
    let lent = [
        Lent::shared(board, entries),
        NONE,
        NONE,
        Lent::shared(rates, rated),
        Lent::shared(owed, owing),
        Lent::shared(owed_other, other_owing),
        NONE,
        NONE,
    ];
    ask_all(33, [own, other], name, 0, lent)
}
#[no_mangle]
unsafe extern "C" fn mandrozsi_share_save(
    own: Drive,
    other: Drive,
    board: *const u16,
    entries: usize,
    rates: *const u16,
    rated: usize,
    owed: *const u16,
    owing: usize,
    owed_other: *const u16,
    other_owing: usize,
    output: *mut u8,
    length: usize,
) -> Reply {
    let lent = [
        Lent::shared(board, entries),
        NONE,
        Lent::changed(output, length),
        Lent::shared(rates, rated),
        Lent::shared(owed, owing),
        Lent::shared(owed_other, other_owing),
        NONE,
        NONE,
    ];
    ask_all(34, [own, other], 0, 0, lent)
}
#[no_mangle]
unsafe extern "C" fn mandrozsi_share_fresh(
    own: Drive,
    other: Drive,
    board: *mut u16,
    entries: usize,
    rates: *mut u16,
    rated: usize,
    owed: *mut u16,
    owing: usize,
    owed_other: *mut u16,
    other_owing: usize,
) -> Reply {
    let lent = [
        Lent::changed(board, entries),
        NONE,
        NONE,
        Lent::changed(rates, rated),
        Lent::changed(owed, owing),
        Lent::changed(owed_other, other_owing),
        NONE,
        NONE,
    ];
    ask_all(35, [own, other], 0, 0, lent)
}
#[no_mangle]
unsafe extern "C" fn mandrozsi_share_batch(
    own: Drive,
    other: Drive,
    board: *mut u16,
    entries: usize,
    list: *mut u64,
    numbers: usize,
    rates: *mut u16,
    rated: usize,
    owed: *mut u16,
    owing: usize,
    owed_other: *mut u16,
    other_owing: usize,
    table: *mut Entry,
    changes: usize,
) -> Drive {
    let lent = [
        Lent::changed(board, entries),
        Lent::changed(list, numbers),
        Lent::changed(table, changes),
        Lent::changed(rates, rated),
        Lent::changed(owed, owing),
        Lent::changed(owed_other, other_owing),
        NONE,
        NONE,
    ];
    ask_all(36, [own, other], 0, 0, lent).drive
}
#[no_mangle]
unsafe extern "C" fn mandrozsi_share_slot_here(
    own: *mut Drive,
    other: Drive,
    board: *mut u16,
    entries: usize,
    list: *mut u64,
    numbers: usize,
    rates: *mut u16,
    rated: usize,
    owed: *mut u16,
    owing: usize,
    owed_other: *mut u16,
    other_owing: usize,
) -> Said {
    let lent = [
        Lent::changed(board, entries),
        Lent::changed(list, numbers),
        NONE,
        Lent::changed(rates, rated),
        Lent::changed(owed, owing),
        Lent::changed(owed_other, other_owing),
        NONE,
        NONE,
    ];
    let reply = ask_all(37, [*own, other], 0, 0, lent);
    *own = reply.drive;
    reply.said
}
#[no_mangle]
unsafe extern "C" fn mandrozsi_share_import(
    capacity: u16,
    starts: *const u16,
    given: usize,
    names: *const u16,
    streams: usize,
    board: *mut u16,
    entries: usize,
    list: *mut u64,
    numbers: usize,
    rates: *mut u16,
    rated: usize,
    owed: *mut u16,
    owing: usize,
    owed_other: *mut u16,
    other_owing: usize,
    output: *mut u16,
    length: usize,
) -> Reply {
    let asked = Drive {
        capacity,
        ..Drive::default()
    };
    let (board, list, output) = (Lent::changed(board, entries), Lent::changed(list, numbers), Lent::changed(output, length));
    let (rates, owed, other) = (
        Lent::changed(rates, rated),
        Lent::changed(owed, owing),
        Lent::changed(owed_other, other_owing),
    );
    let (starts, names) = (Lent::shared(starts, given), Lent::shared(names, streams));
    ask_all(38, one(asked), 0, 0, [board, list, output, rates, owed, other, starts, names])
}
#[no_mangle]
unsafe extern "C" fn mandrozsi_share_save_pieces(
    own: Drive,
    other: Drive,
    board: *const u16,
    entries: usize,
    rates: *const u16,
    rated: usize,
    owed: *const u16,
    owing: usize,
    owed_other: *const u16,
    other_owing: usize,
    output: *mut u8,
    length: usize,
) -> Reply {
    let (board, output) = (Lent::shared(board, entries), Lent::changed(output, length));
    let (rates, owed, owed_other) = (
        Lent::shared(rates, rated),
        Lent::shared(owed, owing),
        Lent::shared(owed_other, other_owing),
    );
    ask_all(39, [own, other], 0, 0, [board, NONE, output, rates, owed, owed_other, NONE, NONE])
}
#[no_mangle]
unsafe extern "C" fn mandrozsi_share_read_pieces(
    sheet: *const u8,
    length: usize,
    board: *mut u16,
    entries: usize,
    list: *mut u64,
    numbers: usize,
    rates: *mut u16,
    rated: usize,
    owed: *mut u16,
    owing: usize,
    owed_other: *mut u16,
    other_owing: usize,
) -> Reply {
    let (board, list, sheet) = (Lent::changed(board, entries), Lent::changed(list, numbers), Lent::shared(sheet, length));
    let (rates, owed, owed_other) = (
        Lent::changed(rates, rated),
        Lent::changed(owed, owing),
        Lent::changed(owed_other, other_owing),
    );
    ask_all(40, one(Drive::default()), 0, 0, [board, list, sheet, rates, owed, owed_other, NONE, NONE])
}
