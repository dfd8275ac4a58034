//! Boards as text. The boards are document 01's, or made by the paper's version; no call of the library is made.
use mandrozsi::{Drive, OwnedDrive, OwnedPair, OwnedShares, Pair, Shares, Tables};
use paper::{at, letter};

fn start(capacity: u16) -> Drive {
    Drive {
        capacity,
        position: 1,
        round: 0,
    }
}

/// A text as its lines.
fn lines(shown: impl std::fmt::Display) -> Vec<String> {
    shown.to_string().split('\n').map(str::to_string).collect()
}

/// P8 of document 01.
#[test]
fn one_tree() {
    let shown = [
        "C = 8, 3 idle; p = 1 of round 0",
        "tree of 8 at 0",
        "  4 at 0: stream 7",
        "  1 at 4: stream 7",
        "  1 at 5: idle",
        "  2 at 6: idle",
    ];
    assert_eq!(lines(start(8).show(&[7, 7, 7, 7, 7, 0, 0, 0])), shown);
}

/// Three trees, of 8, 2 and 1; entries beyond C are not shown.
#[test]
fn three_trees() {
    let mut board = vec![0; 13];
    for (name, weight) in [(7, 5), (2, 2)] {
        assert_eq!(letter::add(at(11, 1), &mut board, name, weight).number, 0);
    }
    let drive = Drive {
        position: 15,
        round: 6,
        ..start(11)
    };
    let shown = [
        "C = 11, 4 idle; p = 15 of round 6",
        "tree of 8 at 0",
        "  4 at 0: stream 7",
        "  4 at 4: idle",
        "tree of 2 at 8",
        "  2 at 8: stream 2",
        "tree of 1 at 10",
        "  1 at 10: stream 7",
    ];
    assert_eq!(lines(drive.show(&board)), shown);
}

/// The pieces of every board of up to seven leaves with two names are those of the paper, and a piece is marked where the board is not good.
#[test]
fn every_small_board() {
    for c in 1..8u16 {
        for code in 0..3u32.pow(c.into()) {
            let board: Vec<u16> = (0..c).map(|leaf| (code / 3u32.pow(leaf.into()) % 3) as u16).collect();
            let shown = lines(start(c).show(&board));
            let marked = |line: &&String| line.ends_with(", as large as one before");
            let pieces = letter::pieces(&board).into_iter().map(|piece| match piece.name {
                0 => format!("  {} at {}: idle", piece.size, piece.start),
                name => format!("  {} at {}: stream {name}", piece.size, piece.start),
            });
            let told = shown
                .iter()
                .filter(|line| line.starts_with(' '))
                .map(|line| line.split(',').next().unwrap());
            assert!(told.eq(pieces), "{shown:?}");
            assert_eq!(shown.iter().find(marked).is_none(), letter::good(&board), "{shown:?}");
            let trees = shown.iter().filter(|line| line.starts_with("tree")).count();
            assert_eq!(trees, c.count_ones() as usize);
        }
    }
}

#[test]
fn two_drives() {
    let second = Drive {
        position: 3,
        round: 4,
        ..start(2)
    };
    let pair = Pair { first: start(2), second };
    let shown = [
        "C = 2, 1 idle; p = 1 of round 0; p = 3 of round 4",
        "tree of 2 at 0",
        "  1 at 0: stream 4",
        "  1 at 1: idle",
    ];
    assert_eq!(lines(pair.show(&[4, 0])), shown);
}

#[test]
fn over_allocated() {
    let (mut rates, mut first, mut second) = ([3, 0, 0, 0, 0], [1, 0, 0, 0, 0], [2, 0, 0, 0, 0]);
    let tables = Tables {
        rates: &mut rates,
        first: &mut first,
        second: &mut second,
    };
    let one = Shares {
        first: start(5),
        second: None,
    };
    let two = Shares {
        second: Some(start(5)),
        ..one
    };
    let board = [9, 9, 9, 9, 8];
    let piece = |text: &str| text.lines().nth(2).unwrap().to_string();
    assert_eq!(piece(&one.show(&board, &tables).to_string()), "  4 at 0: stream 9, r = 3, deficit -1");
    assert_eq!(
        piece(&two.show(&board, &tables).to_string()),
        "  4 at 0: stream 9, r = 3, deficit -1 and -2"
    );
    assert_eq!(two.show(&board, &tables).to_string().lines().last(), Some("  1 at 4: stream 8"));
}

/// What is no board has one line, which says why.
#[test]
fn no_board() {
    let capacity = "C = 0; the capacity is 0 or above 4,095 (1)";
    assert_eq!(OwnedDrive::<8>::new().to_string(), capacity);
    assert_eq!(OwnedPair::<8>::new().to_string(), capacity);
    assert_eq!(OwnedShares::<8>::two().to_string(), capacity);
    assert!(start(4096).show(&[0; 5000]).to_string().ends_with("(1)"));
    assert!(start(5).show(&[0; 4]).to_string().ends_with("(2)"));
    let pair = Pair {
        first: start(5),
        second: start(4),
    };
    assert!(pair.show(&[0; 5]).to_string().ends_with("(3)"));
    let tables = Tables {
        rates: &mut [0; 5],
        first: &mut [0; 4],
        second: &mut [0; 5],
    };
    let shares = Shares {
        first: start(5),
        second: None,
    };
    assert!(shares.show(&[0; 5], &tables).to_string().ends_with("(2)"));
}
