//! A site's streams in the morning: two hundred changes in one table, at the start of a round and in the middle of one. What each entry must say is
//! told by counting leaves.
#[cfg(not(linked))]
#[path = "boundary/served.rs"]
mod served;

use mandrozsi::{fetch, Change, Drive, Entry, Fetched, Pair, Refusal, Side, LIST};

/// Two hundred adds of weights 1 to 20; after each tenth one that is refused. Old answers stand in their places.
fn table() -> Vec<Entry> {
    let mut table = Vec::new();
    for i in 0..200u16 {
        table.push(Entry::add(i + 1, i % 20 + 1));
        if i % 10 == 9 {
            table.push(match i / 10 % 5 {
                0 => Entry::add(i + 1, 1),
                1 => Entry::add(0, 1),
                2 => Entry::add(999, 0),
                3 => Entry::add(999, 4000),
                _ => Entry { kind: 9, ..Entry::add(0, 0) },
            });
        }
    }
    for (i, entry) in table.iter_mut().enumerate() {
        (entry.number, entry.value) = (i as u16 + 7, u64::MAX);
    }
    table
}

/// What an entry is answered when `idle` leaves are idle and all streams before it are held.
fn expected(entry: &Entry, idle: &mut u16) -> Result<Change, Refusal> {
    match (entry.kind, entry.name, entry.weight) {
        (9, ..) => Err(Refusal::Weight),
        (_, 0, _) => Err(Refusal::Name),
        (_, _, 0) => Err(Refusal::Weight),
        (_, 999, _) => Err(Refusal::Room { idle: *idle }),
        (_, name, weight) if weight != (name - 1) % 20 + 1 => Err(Refusal::Taken),
        (_, _, weight) => {
            *idle -= weight;
            Ok(Change::Done { idle: *idle })
        }
    }
}

#[test]
#[cfg_attr(
    not(any(linked, served)),
    ignore = "there is no library to call: .ci/bindings builds it and runs this test"
)]
fn at_the_start_of_a_round() {
    let (mut board, mut list) = (vec![0u16; 4095], [0u64; LIST]);
    let drive = Drive::open(4095, &mut board, &mut list).unwrap();
    let mut lent = table();
    drive.batch(&mut board, &mut list, &mut lent);
    let mut idle = 4095;
    for (entry, asked) in lent.iter().zip(&table()) {
        assert_eq!(entry.answer(), expected(asked, &mut idle), "{asked:?}");
        assert_eq!((entry.kind, entry.name, entry.weight), (asked.kind, asked.name, asked.weight));
    }
    assert_eq!(idle, 4095 - 10 * 210);
    for name in 1..=200 {
        assert_eq!(drive.report(&board, name).unwrap().weight, (name - 1) % 20 + 1);
    }
    let mut names: Vec<Entry> = (1..=200).map(Entry::remove).collect();
    drive.batch(&mut board, &mut list, &mut names);
    assert_eq!(names[199].answer(), Ok(Change::Done { idle: 4095 }));
    assert!(board.iter().all(|&leaf| leaf == 0));
}

#[test]
#[cfg_attr(
    not(any(linked, served)),
    ignore = "there is no library to call: .ci/bindings builds it and runs this test"
)]
fn in_the_middle_of_a_round() {
    let (mut board, mut list) = (vec![0u16; 4095], [0u64; LIST]);
    let mut pair = Pair::open(4095, &mut board, &mut list).unwrap();
    pair.slot(Side::Second, &mut board, &mut list).unwrap();
    let mut lent = table();
    pair.batch(Side::First, &mut board, &mut list, &mut lent);
    assert!(board.iter().all(|&leaf| leaf == 0));

    // The first 64 that pass the checks of an order wait, a name that is taken or a weight without room among them; the rest are refused.
    let mut waiting = Vec::new();
    for (entry, asked) in lent.iter().zip(&table()) {
        let answer = match (asked.kind, asked.name, asked.weight) {
            (9, ..) => Err(Refusal::Weight),
            (_, 0, _) => Err(Refusal::Name),
            (_, _, 0) => Err(Refusal::Weight),
            _ if waiting.len() == 64 => Err(Refusal::Queue),
            _ => {
                waiting.push(*asked);
                Ok(Change::Waiting {
                    ticket: waiting.len() as u64,
                })
            }
        };
        assert_eq!(entry.answer(), answer, "{asked:?}");
    }

    // The second drive's round ends, and the slot of either that finds both at the start carries them out.
    while pair.second.position != 1 {
        pair.slot(Side::Second, &mut board, &mut list).unwrap();
    }
    pair.slot(Side::First, &mut board, &mut list).unwrap();
    let mut idle = 4095;
    for (i, asked) in waiting.iter().enumerate() {
        let told = match expected(asked, &mut idle) {
            Ok(Change::Done { idle }) => Fetched::Done { idle },
            Err(why) => Fetched::Refused(why),
            Ok(Change::Waiting { .. }) => unreachable!(),
        };
        assert_eq!(fetch(&mut list, i as u64 + 1), told, "{asked:?}");
    }
}

/// Every refusal that a change can have, each in an entry, by the record, the board and the list that it is given.
#[test]
#[cfg_attr(
    not(any(linked, served)),
    ignore = "there is no library to call: .ci/bindings builds it and runs this test"
)]
fn every_refusal() {
    let (mut board, mut list) = (vec![0u16; 4], [0u64; LIST]);
    let drive = Drive::open(4, &mut board, &mut list).unwrap();
    let said = |drive: Drive, board: &mut [u16], list: &mut [u64], entry: Entry| {
        let mut table = [entry];
        drive.batch(board, list, &mut table);
        table[0].answer().map_err(|why| (why.number(), why.value()))
    };
    let with = |capacity, position| Drive { capacity, position, ..drive };
    let other = Entry { kind: 9, ..Entry::add(1, 1) };
    assert_eq!(said(with(0, 0), &mut board, &mut list, other), Err((7, 0)));
    assert_eq!(said(with(0, 0), &mut board, &mut list, Entry::add(0, 0)), Err((1, 0)));
    assert_eq!(said(drive, &mut [0; 3], &mut list, Entry::add(0, 0)), Err((2, 0)));
    assert_eq!(said(with(4, 0), &mut board, &mut list[..LIST - 1], Entry::add(0, 0)), Err((2, 0)));
    assert_eq!(said(with(4, 8), &mut board, &mut list, Entry::add(0, 0)), Err((3, 0)));
    assert_eq!(said(drive, &mut [1, 0, 1, 0], &mut list, Entry::add(0, 0)), Err((5, 0)));
    assert_eq!(said(drive, &mut board, &mut list, Entry::add(0, 0)), Err((6, 0)));
    assert_eq!(said(drive, &mut board, &mut list, Entry::add(1, 0)), Err((7, 0)));
    assert_eq!(said(drive, &mut board, &mut list, Entry::remove(1)), Err((9, 0)));
    assert_eq!(said(drive, &mut board, &mut list, Entry::add(1, 3)), Ok(Change::Done { idle: 1 }));
    assert_eq!(said(drive, &mut board, &mut list, Entry::add(1, 9)), Err((8, 0)));
    assert_eq!(said(drive, &mut board, &mut list, Entry::add(2, 2)), Err((10, 1)));
    assert_eq!(
        said(with(4, 2), &mut board, &mut list, Entry::add(2, 2)),
        Ok(Change::Waiting { ticket: 1 })
    );
    list[0] = u64::MAX;
    assert_eq!(said(with(4, 2), &mut board, &mut list, Entry::add(2, 2)), Err((14, 0)));
    drive.batch(&mut board, &mut list, &mut []);
    assert_eq!(board, [1, 1, 1, 0]);
}
