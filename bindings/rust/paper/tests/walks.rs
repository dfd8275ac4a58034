//! Walks worked by hand, and the walk by hand beside the one by the letter.
use paper::tree::{compare, walk, walk_by_hand, Version, Walked};

const BOTH: [Version; 2] = [walk, walk_by_hand];

const fn served(name: u64, leaf: u64) -> Walked {
    Walked { number: 0, name, leaf }
}

const fn refused(number: u16) -> Walked {
    Walked { number, name: 0, leaf: 0 }
}

/// C = 8 of source document 001's round, and the marks on the way.
#[test]
fn a_round() {
    let board = [10, 11, 12, 13, 14, 15, 16, 17];
    for walk in BOTH {
        let mut marks = [0, 0, 0, 0, 0, 0, 0, 9];
        let mut leaves = Vec::new();
        for i in 0..10 {
            let walked = walk(8, &board, &mut marks);
            assert_eq!(walked, served(10 + walked.leaf, walked.leaf));
            leaves.push(walked.leaf);
            match i {
                0 => assert_eq!(marks, [1, 1, 0, 1, 0, 0, 0, 9]),
                1 => assert_eq!(marks, [0, 1, 1, 1, 0, 1, 0, 9]),
                7 => assert_eq!(marks, [0, 0, 0, 0, 0, 0, 0, 9]),
                _ => {}
            }
        }
        assert_eq!(leaves, [0, 4, 2, 6, 1, 5, 3, 7, 0, 4]);
    }
}

#[test]
fn marks_and_refusals() {
    for walk in BOTH {
        let mut marks = [7, 2, 65535, 9];
        assert_eq!((walk(4, &[5, 6, 7, 8], &mut marks), marks), (served(8, 3), [0, 2, 0, 9]));
        assert_eq!((walk(4, &[5, 6, 7, 8], &mut marks), marks), (served(6, 1), [1, 0, 0, 9]));
        assert_eq!(walk(1, &[5], &mut []), served(5, 0));
        let before = marks;
        for (c, entries, lent, number) in [
            (0, 0, 0, 1),
            (4096, 0, 0, 1),
            (6, 0, 0, 16),
            (3, 4, 4, 16),
            (4, 3, 4, 2),
            (4, 4, 2, 2),
            (1, 0, 4, 2),
        ] {
            assert_eq!(walk(c, &[5, 6, 7, 8][..entries], &mut marks[..lent]), refused(number));
        }
        assert_eq!(marks, before);
    }
}

#[test]
fn by_hand_is_the_letter() {
    println!("{} walks compared", compare(walk_by_hand));
}
