//! Document 01's boards worked by hand, run on both plain versions, so that what the library is compared with has been looked at first.
use paper::{at, hand, letter, Answer, Record};

type Add = fn(Record, &mut [u16], u16, u16) -> Answer;
type Remove = fn(Record, &mut [u16], u16) -> Answer;
type Round = fn(Record, &[u16], &mut [u16]) -> Answer;

const BOTH: [(Add, Remove, Round); 2] = [(letter::add, letter::remove, letter::round), (hand::add, hand::remove, hand::round)];

fn order(round: Round, c: u16) -> Vec<u16> {
    let board: Vec<u16> = (0..c).collect();
    let mut out = vec![0; c.into()];
    assert_eq!(round(at(c, 1), &board, &mut out).number, 0);
    out
}

#[test]
fn leaf_orders() {
    for (_, _, round) in BOTH {
        assert_eq!(order(round, 1), [0]);
        assert_eq!(order(round, 2), [0, 1]);
        assert_eq!(order(round, 5), [0, 2, 4, 1, 3]);
        assert_eq!(order(round, 6), [0, 4, 2, 1, 5, 3]);
        assert_eq!(order(round, 15), [0, 8, 4, 12, 2, 10, 6, 14, 1, 9, 5, 13, 3, 11, 7]);
    }
}

#[test]
fn boards() {
    for (add, remove, round) in BOTH {
        let mut sixteen = [0; 16];
        for (name, weight) in [(1, 1), (2, 2), (3, 4), (4, 4)] {
            add(at(16, 1), &mut sixteen, name, weight);
        }
        let mut out = [0; 16];
        round(at(16, 1), &sixteen, &mut out);
        assert_eq!(out, [1, 4, 3, 0, 2, 4, 3, 0, 0, 4, 3, 0, 2, 4, 3, 0]);

        let mut eight = [1, 2, 3, 4, 5, 6, 7, 8];
        remove(at(8, 1), &mut eight, 1);
        remove(at(8, 1), &mut eight, 3);
        assert_eq!(eight, [4, 2, 0, 0, 5, 6, 7, 8]);
        assert_eq!(add(at(8, 1), &mut eight, 9, 2).number, 0);
        assert_eq!(eight, [4, 2, 9, 9, 5, 6, 7, 8]);

        let mut three = [0; 3];
        for name in 1..4 {
            add(at(3, 1), &mut three, name, 1);
        }
        assert_eq!(three, [2, 3, 1]);
        remove(at(3, 1), &mut three, 1);
        remove(at(3, 1), &mut three, 2);
        assert_eq!(three, [0, 0, 3]);

        let mut part = [0; 8];
        assert_eq!(add(at(8, 1), &mut part, 7, 5).values[0], 3);
        assert_eq!(part, [7, 7, 7, 7, 7, 0, 0, 0]);
        assert_eq!(add(at(8, 1), &mut part, 2, 4), Answer::no_room(at(8, 1), 3));
        assert_eq!(add(at(8, 1), &mut part, 2, 3).number, 0);

        let mut one = [0];
        assert_eq!(add(at(1, 1), &mut one, 5, 1).number, 0);
        assert_eq!(add(at(1, 1), &mut one, 6, 1), Answer::no_room(at(1, 1), 0));
        assert_eq!(add(at(1, 1), &mut one, 0, 0).number, 6);
        assert_eq!(add(at(1, 1), &mut one, 5, 9).number, 8);
        assert_eq!(add(at(2, 1), &mut [4, 0], 4, 1).number, 8);
        assert_eq!(add(at(5, 1), &mut [4, 0, 0, 4, 0], 4, 1).number, 5);

        let mut seven = [0; 7];
        assert_eq!(add(at(7, 1), &mut seven, 1, 8), Answer::no_room(at(7, 1), 7));
        assert_eq!(seven, [0; 7]);

        let mut full = vec![0; 4095];
        assert_eq!(add(at(4095, 1), &mut full, 1, 4095), Answer::done(at(4095, 1), [0; 4]));
    }
    assert_eq!(letter::open(4096, &mut vec![0; 4096]).number, 1);
    assert_eq!(hand::open(4096, &mut vec![0; 4096]).number, 1);
}

/// Document 02, No. 1: spacing is the longest wait, over the end of the round too. Where C / w rounded up is another number, it stands beside.
#[test]
fn spacings() {
    let boards: [(&[u16], u16, u64); 9] = [
        (&[7, 7, 7, 0, 0, 0, 0, 0], 7, 4), // 3
        (&[7, 7, 2, 7, 0], 7, 3),          // 2
        (&[7, 7, 2, 7, 0], 2, 5),
        (&[1, 6, 5, 5, 2, 8, 3, 4], 1, 8),
        (&[1, 6, 5, 5, 2, 8, 3, 4], 4, 8),
        (&[1, 6, 5, 5, 2, 8, 3, 4], 5, 4),
        (&[9, 9, 0, 0, 9, 0], 9, 3), // 2
        (&[5], 5, 1),
        (&[4, 4, 4, 4, 4, 4, 4], 4, 1),
    ];
    for (board, name, spacing) in boards {
        for report in [letter::report, hand::report] {
            let answer = report(at(board.len() as u16, 1), board, name);
            assert_eq!((answer.number, answer.values[2]), (0, spacing), "name {name} on {board:?}");
        }
    }
}

/// Request No. 6: C = 1, where each slot is a round; C = 3, where each three are; and the largest number, which 0 follows.
#[test]
fn rounds() {
    for slot in [letter::slot, hand::slot] {
        let said = |mut record: Record, many: usize| -> Vec<u64> {
            (0..many)
                .map(|_| {
                    let answer = slot(record, &[5, 6, 7]);
                    record = answer.record;
                    answer.values[3]
                })
                .collect()
        };
        assert_eq!(said(at(1, 1), 4), [0, 1, 2, 3]);
        assert_eq!(said(at(3, 1), 7), [0, 0, 0, 1, 1, 1, 2]);
        let last = |capacity, position| Record {
            round: u64::MAX,
            ..at(capacity, position)
        };
        assert_eq!(said(last(1, 1), 3), [u64::MAX, 0, 1]);
        assert_eq!(said(last(3, 3), 5), [u64::MAX, 0, 0, 0, 1]);
        // A refused slot says 0 and counts nothing.
        assert_eq!(slot(last(3, 4), &[5, 6, 7]), Answer::refused(last(3, 4), 3));
    }
}

/// Document 02, No. 2: what a near miss of the list would tell.
#[test]
fn waiting_list() {
    use paper::trial::Letter as P;
    use paper::waiting::{add, fetch, open, read, remove, slot, LENGTH};
    let (mut board, mut list) = ([0; 4], [0; LENGTH + 1]);
    list[LENGTH] = 77;
    let start = open::<P>(4, &mut board, &mut list).record;
    let away = Record { position: 2, ..start };

    // A taken name is no reason to refuse an order; a change at p = 1 does not overtake those that wait; 1 comes before 2.
    assert_eq!(add::<P>(start, &mut board, &mut list, 1, 3).values[0], 1);
    assert_eq!(remove::<P>(away, &mut board, &mut list, 1).values[0], 1);
    assert_eq!(add::<P>(away, &mut board, &mut list, 1, 2).values[0], 2);
    assert_eq!(add::<P>(start, &mut board, &mut list, 2, 9).values[0], 3);
    assert_eq!(
        (fetch(&mut list, 1), fetch(&mut list, 0), fetch(&mut list, 4)),
        ((13, 1), (15, 0), (15, 0))
    );
    assert_eq!(board, [1, 1, 1, 0]);

    // The list runs before the leaf is picked, and each answer is fetched once.
    assert_eq!(slot::<P>(start, &mut board, &mut list).values[0], 1);
    assert_eq!(board, [1, 1, 0, 0]);
    assert_eq!((fetch(&mut list, 3), fetch(&mut list, 3)), ((10, 2), (15, 0)));
    assert_eq!((fetch(&mut list, 2), fetch(&mut list, 1)), ((0, 2), (0, 4)));

    // 64 answers that nobody fetched: at p = 1 a change is made at once, elsewhere there is no place.
    for ticket in 4..68 {
        assert_eq!(remove::<P>(away, &mut board, &mut list, 9).values[0], ticket);
    }
    assert_eq!(remove::<P>(away, &mut board, &mut list, 9).number, 14);
    slot::<P>(start, &mut board, &mut list);
    assert_eq!(add::<P>(start, &mut board, &mut list, 5, 1), Answer::done(start, [1, 0, 0, 0]));
    assert_eq!(add::<P>(away, &mut board, &mut list, 6, 1).number, 14);
    assert_eq!(fetch(&mut list, 30), (9, 0));
    assert_eq!(add::<P>(away, &mut board, &mut list, 6, 1).values[0], 68);

    // A refused open keeps the list; an accepted one or a read empties it, and the tickets go on.
    open::<P>(5, &mut board, &mut list);
    assert_eq!(fetch(&mut list, 68), (13, 68));
    let sheet = letter::sheet(&board);
    assert_eq!(read::<P>(&sheet, &mut board, &mut list).number, 0);
    assert_eq!((fetch(&mut list, 68), fetch(&mut list, 31)), ((15, 0), (15, 0)));
    assert_eq!(add::<P>(away, &mut board, &mut list, 6, 1).values[0], 69);

    // On a damaged board each order is answered 5, and the slot serves.
    let mut damaged = [1, 0, 1, 0];
    assert_eq!(slot::<P>(start, &mut damaged, &mut list).number, 0);
    assert_eq!((fetch(&mut list, 69), damaged), ((5, 0), [1, 0, 1, 0]));

    // The last ticket is 2^64 - 1; a list that is too short is 2, and knows no ticket; entries beyond it stay.
    list[0] = u64::MAX - 1;
    assert_eq!(add::<P>(away, &mut board, &mut list, 6, 1).values[0], u64::MAX);
    assert_eq!(add::<P>(away, &mut board, &mut list, 7, 1).number, 14);
    assert_eq!(slot::<P>(start, &mut board, &mut list[..LENGTH - 1]), Answer::refused(start, 2));
    assert_eq!(fetch(&mut list[..LENGTH - 1], u64::MAX), (15, 0));
    assert_eq!(list[LENGTH], 77);
}

/// Document 02, No. 10: two drives on one board, what a near miss would tell.
#[test]
fn two_drives() {
    use paper::drives::{report, round, save};
    use paper::trial::Letter as P;
    use paper::waiting::{add, fetch, open, remove, slot, LENGTH};
    use paper::Records;
    let both = |own, other| Records { own, other: Some(other) };
    let (mut board, mut list) = ([0; 8], [0; LENGTH]);

    // 1 and 3 of either record, 2 at the larger C and before 3, 3 for unequal C.
    for (own, other, number) in [
        (at(0, 0), at(9, 1), 1),
        (at(9, 1), at(0, 0), 1),
        (at(8, 0), at(9, 1), 2),
        (at(9, 1), at(8, 0), 2),
        (at(8, 1), at(8, 16), 3),
        (at(8, 16), at(8, 1), 3),
        (at(8, 1), at(7, 1), 3),
        (at(7, 1), at(8, 1), 3),
    ] {
        let records = both(own, other);
        let refused = Answer::refused(own, number);
        assert_eq!(add::<P>(records, &mut board, &mut list, 1, 1), refused);
        assert_eq!(remove::<P>(records, &mut board, &mut list, 0), refused);
        assert_eq!(slot::<P>(records, &mut board, &mut list), refused);
        assert_eq!(round::<P>(records, &board, &mut []), refused);
        assert_eq!(report::<P>(records, &board, 0), refused);
        assert_eq!(save::<P>(records, &board, &mut []), refused);
    }

    // C = 2: an order waits while either drive is away from p = 1, and the slot of either that finds both there carries it out.
    let start = open::<P>(2, &mut board, &mut list).record;
    assert_eq!(add::<P>(both(start, start), &mut board, &mut list, 1, 1).values[0], 1);
    let mut a = slot::<P>(both(start, start), &mut board, &mut list).record;
    let mut b = start;
    assert_eq!(add::<P>(both(b, a), &mut board, &mut list, 2, 1).number, 13);
    assert_eq!(save::<P>(both(b, a), &board, &mut [0; 512]).number, 4);
    b = slot::<P>(both(b, a), &mut board, &mut list).record;
    a = slot::<P>(both(a, b), &mut board, &mut list).record;
    assert_eq!((a.position, a.round, b.position, b.round), (1, 1, 2, 0));
    assert_eq!(slot::<P>(both(a, b), &mut board.clone(), &mut list.clone()).values[0], 1);
    assert_eq!(board[..2], [1, 0]);
    b = slot::<P>(both(b, a), &mut board, &mut list).record;
    let said = slot::<P>(both(b, a), &mut board, &mut list);
    assert_eq!(
        (said.values, board[..2].to_vec(), fetch(&mut list, 1)),
        ([1, 0, 0, 1], vec![1, 2], (0, 0))
    );

    // C = 3, slots A, A, B, A, B, A, B ..: never both at p = 1, and the order waits on.
    let start = open::<P>(3, &mut board, &mut list).record;
    let (mut a, mut b) = (start, start);
    a = slot::<P>(both(a, b), &mut board, &mut list).record;
    assert_eq!(add::<P>(both(a, b), &mut board, &mut list, 5, 1).values[0], 2);
    a = slot::<P>(both(a, b), &mut board, &mut list).record;
    for _ in 0..30 {
        b = slot::<P>(both(b, a), &mut board, &mut list).record;
        a = slot::<P>(both(a, b), &mut board, &mut list).record;
        assert_eq!(fetch(&mut list, 2), (13, 2));
    }
    // Holding A back at its p = 1 until B is there too ends the wait.
    while a.position != 1 {
        a = slot::<P>(both(a, b), &mut board, &mut list).record;
    }
    while b.position != 1 {
        b = slot::<P>(both(b, a), &mut board, &mut list).record;
    }
    slot::<P>(both(a, b), &mut board, &mut list);
    assert_eq!(fetch(&mut list, 2), (0, 2));
}

/// Document 02, No. 3: a table at the start of a round and in the middle of one, with entries that are refused between those that are not.
#[test]
fn tables() {
    use paper::batch::{batch, Entry};
    use paper::trial::Letter as P;
    use paper::waiting::{open, LENGTH};
    let asked = |kind, name, weight| Entry {
        kind,
        name,
        weight,
        number: 99,
        value: 99,
    };
    let answers = |table: &[Entry]| -> Vec<(u16, u64)> { table.iter().map(|e| (e.number, e.value)).collect() };
    let (mut board, mut list) = ([0; 4], [0; LENGTH]);
    let start = open::<P>(4, &mut board, &mut list).record;

    let mut table = [
        asked(1, 7, 2),
        asked(9, 8, 1),
        asked(1, 7, 1),
        asked(1, 8, 3),
        asked(2, 7, 0),
        asked(1, 8, 3),
        asked(1, 0, 0),
    ];
    assert_eq!(batch::<P>(start.into(), &mut board, &mut list, &mut table), start);
    assert_eq!(answers(&table), [(0, 2), (7, 0), (8, 0), (10, 2), (0, 4), (0, 1), (6, 0)]);
    assert_eq!(board, [8, 8, 8, 0]);

    // Away from p = 1 the first 64 wait, and the rest are 14; nothing of the board changes.
    let away = Record { position: 2, ..start };
    let mut table = [asked(2, 8, 0); 66];
    batch::<P>(away.into(), &mut board, &mut list, &mut table);
    assert_eq!((table[0].value, table[63].value), (1, 64));
    assert_eq!(answers(&table[64..]), [(14, 0), (14, 0)]);
    assert_eq!(board, [8, 8, 8, 0]);

    // A kind that is none is 7 before 1; an empty table changes nothing.
    let mut table = [asked(9, 0, 0), asked(1, 0, 0)];
    batch::<P>(at(0, 0).into(), &mut board, &mut list, &mut table);
    assert_eq!(answers(&table), [(7, 0), (1, 0)]);
    assert_eq!(batch::<P>(start.into(), &mut board, &mut list, &mut []), start);
}

/// Document 02, No. 12: by falling weight, then rising name, on an idle board, whatever it held.
#[test]
fn fresh_layouts() {
    for fresh in [letter::fresh, hand::fresh] {
        let laid = |mut board: Vec<u16>| {
            assert_eq!(
                fresh(at(board.len() as u16, 1), &mut board),
                Answer::done(at(board.len() as u16, 1), [0; 4])
            );
            board
        };
        assert_eq!(laid(vec![1, 2, 0]), [2, 0, 1]);
        assert_eq!(laid(vec![0, 1, 2]), [2, 0, 1]);
        // Weights 3, 1 and 1 on 8 leaves: 5 first, then 2 before 9.
        assert_eq!(laid(vec![9, 2, 5, 0, 5, 5, 0, 0]), [5, 5, 5, 2, 9, 0, 0, 0]);
        assert_eq!(laid(vec![0, 0, 0]), [0, 0, 0]);
        assert_eq!(laid(vec![4]), [4]);
        // Entries beyond C stay, and so does the round number; 4 before 5.
        let away = Record {
            position: 2,
            round: 7,
            ..at(3, 1)
        };
        let mut board = [1, 2, 0, 6];
        assert_eq!(fresh(away, &mut board), Answer::refused(away, 4));
        assert_eq!(fresh(Record { position: 1, ..away }, &mut board).record.round, 7);
        assert_eq!(board, [2, 0, 1, 6]);
        assert_eq!(fresh(at(5, 2), &mut [4, 0, 0, 4, 0]).number, 4);
        assert_eq!(fresh(at(5, 1), &mut [4, 0, 0, 4, 0]).number, 5);
    }
}
