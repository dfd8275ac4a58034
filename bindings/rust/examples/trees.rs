//! Two boards as a picture: their trees, the pieces that streams hold in them, the leaves, and the round that they give. All is drawn from what the
//! library answers, and is docs/board.svg: `cargo run --example trees > ../../docs/board.svg`.
#[cfg(served)]
#[path = "../tests/boundary/served.rs"]
mod served;

#[cfg(any(linked, served))]
fn main() -> Result<(), mandrozsi::Refusal> {
    print!("{}", picture::boards()?);
    Ok(())
}

#[cfg(not(any(linked, served)))]
fn main() {
    eprintln!("built without the static library: see build.rs");
}

#[cfg(any(linked, served))]
mod picture {
    use mandrozsi::{Drive, Refusal, LIST};
    use std::fmt::Write as _;

    /// The width of a leaf or a slot, the height of a level of a tree, and the room between two trees.
    const LEAF: usize = 52;
    const LEVEL: usize = 42;
    const BETWEEN: usize = 24;
    const LEFT: usize = 84;

    const TEXT: &str = "#222";
    const LINE: &str = "#7b8a8b";

    /// A board, and the name and leaf of each slot of its round.
    struct Served {
        board: Vec<u16>,
        slots: Vec<(u16, usize)>,
    }

    /// The streams of a board are added in their order, and a round is served.
    fn served(c: u16, streams: &[(u16, u16)]) -> Result<Served, Refusal> {
        let (mut board, mut list) = (vec![0; usize::from(c)], [0; LIST]);
        let mut drive = Drive::open(c, &mut board, &mut list)?;
        for &(name, weight) in streams {
            drive.add(&mut board, &mut list, name, weight)?;
        }
        let mut slots = Vec::new();
        for _ in 0..c {
            let slot = drive.slot(&mut board, &mut list)?;
            slots.push((slot.name, usize::from(slot.leaf)));
        }
        Ok(Served { board, slots })
    }

    /// A light fill for each stream; idle leaves have none.
    fn fill(name: u16) -> &'static str {
        match name {
            0 => "#ffffff",
            2 => "#f9e79f",
            4 => "#abebc6",
            5 => "#aed6f1",
            _ => "#f5b7b1",
        }
    }

    fn title(name: u16) -> String {
        if name == 0 {
            "idle".into()
        } else {
            format!("{name}")
        }
    }

    /// Where leaf `a` begins: trees stand apart, and leaf `a` of a board of `c` lies behind every tree that ends at or before it.
    fn left(c: usize, a: usize) -> usize {
        let ended = (0..12).filter(|&j| c >> j & 1 == 1 && (c >> j) << j <= a).count();
        LEFT + LEAF * a + BETWEEN * ended
    }

    /// A run that starts at `a` with 2^`level` leaves.
    #[derive(Clone, Copy)]
    struct Run {
        a: usize,
        level: usize,
    }

    impl Run {
        fn size(self) -> usize {
            1 << self.level
        }

        /// Its middle, and the height of its level; leaves stand at `ground`.
        fn place(self, c: usize, ground: usize) -> (usize, usize) {
            (left(c, self.a) + LEAF * self.size() / 2, ground - LEVEL * self.level)
        }

        fn whole(self, board: &[u16]) -> bool {
            board[self.a..self.a + self.size()].iter().all(|&name| name == board[self.a])
        }
    }

    /// A tree from its root down: branches, and where a run is of one name its piece, with the leaves below it.
    fn tree(out: &mut String, board: &[u16], run: Run, ground: usize) {
        let (x, y) = run.place(board.len(), ground);
        if run.whole(board) {
            return piece(out, board, run, ground);
        }
        let level = run.level - 1;
        for a in [run.a, run.a + run.size() / 2] {
            let half = Run { a, level };
            let (to, under) = half.place(board.len(), ground);
            writeln!(
                out,
                r##"<line x1="{x}" y1="{y}" x2="{to}" y2="{under}" stroke="{LINE}" stroke-width="2"/>"##
            )
            .unwrap();
            tree(out, board, half, ground);
        }
        writeln!(out, r##"<circle cx="{x}" cy="{y}" r="6" fill="#fff" stroke="{LINE}" stroke-width="2"/>"##).unwrap();
    }

    /// A piece: a box at its level with its name and size, over its leaves with their numbers.
    fn piece(out: &mut String, board: &[u16], run: Run, ground: usize) {
        let (c, name) = (board.len(), board[run.a]);
        let (x, y) = run.place(c, ground);
        let (from, width, top) = (left(c, run.a) + 2, LEAF * run.size() - 4, y - 13);
        let (height, fill, title, below) = (ground + 29 - y, fill(name), title(name), y + 5);
        let dashes = if name == 0 { r##" stroke-dasharray="4 3""## } else { "" };
        writeln!(
            out,
            r##"<rect x="{from}" y="{top}" width="{width}" height="{height}" rx="7" fill="{fill}" stroke="{LINE}"{dashes}/>
<text x="{x}" y="{below}" text-anchor="middle" font-weight="bold" fill="{TEXT}">{title}</text>"##
        )
        .unwrap();
        for a in run.a..run.a + run.size() {
            let (at, width, middle) = (left(c, a) + 2, LEAF - 4, left(c, a) + LEAF / 2);
            let (top, below) = (ground + 16, ground + 35);
            writeln!(
                out,
                r##"<rect x="{at}" y="{top}" width="{width}" height="28" fill="{fill}" stroke="{LINE}"/>
<text x="{middle}" y="{below}" text-anchor="middle" fill="{TEXT}">{a}</text>"##
            )
            .unwrap();
        }
    }

    fn label(out: &mut String, x: usize, y: usize, text: &str) {
        writeln!(out, r##"<text x="{x}" y="{y}" fill="{TEXT}">{text}</text>"##).unwrap();
    }

    /// The slots of the round, each with the name that it serves over the leaf that it is.
    fn round(out: &mut String, slots: &[(u16, usize)], y: usize) {
        label(out, 16, y + 20, "round");
        label(out, 16, y + 46, "of leaf");
        for (i, &(name, leaf)) in slots.iter().enumerate() {
            let (x, width, middle) = (LEFT + LEAF * i + 2, LEAF - 4, LEFT + LEAF * i + LEAF / 2);
            let (fill, title, above, below) = (fill(name), title(name), y + 20, y + 46);
            writeln!(
                out,
                r##"<rect x="{x}" y="{y}" width="{width}" height="30" fill="{fill}" stroke="{LINE}"/>
<text x="{middle}" y="{above}" text-anchor="middle" font-weight="bold" fill="{TEXT}">{title}</text>
<text x="{middle}" y="{below}" text-anchor="middle" fill="{TEXT}">{leaf}</text>"##
            )
            .unwrap();
        }
    }

    /// A board from `y` down: what it is, its trees, its round.
    fn panel(out: &mut String, y: usize, what: &[&str], served: &Served) {
        let c = served.board.len();
        for (i, line) in what.iter().enumerate() {
            label(out, 16, y + 20 * i, line);
        }
        let ground = y + 40 + LEVEL * c.ilog2() as usize;
        label(out, 16, ground + 35, "leaf");
        for level in (0..=c.ilog2() as usize).rev().filter(|&j| c >> j & 1 == 1) {
            let a = c - c % (2 << level);
            tree(out, &served.board, Run { a, level }, ground);
        }
        round(out, &served.slots, ground + 66);
    }

    /// Both boards, one above the other.
    pub fn boards() -> Result<String, Refusal> {
        let (width, height) = (LEFT + 11 * LEAF + 2 * BETWEEN + 46, 690);
        let mut out = format!(
            r##"<svg xmlns="http://www.w3.org/2000/svg" viewBox="0 0 {width} {height}" width="{width}" height="{height}" font-family="sans-serif" font-size="14">
<rect width="{width}" height="{height}" fill="#ffffff"/>
<text x="16" y="32" font-size="18" fill="{TEXT}">Two boards: trees, the pieces of each stream, leaves, and the round they give</text>
"##
        );
        let first = [
            "C = 8 (P8 of document 01): one tree. Stream 7 of weight 5 has a piece of 4 leaves and one of 1;",
            "the 3 idle leaves are a piece of 1 and one of 2.",
        ];
        panel(&mut out, 66, &first, &served(8, &[(7, 5)])?);
        let second = [
            "C = 11: trees of 8, 2 and 1 leaves. Stream 5 of weight 6 has pieces of 4 and 2, stream 4 of weight 3",
            "pieces of 2 and 1, stream 2 one leaf; each took the smallest idle piece that was large enough.",
        ];
        panel(&mut out, 386, &second, &served(11, &[(5, 6), (4, 3), (2, 1)])?);
        out.push_str("</svg>\n");
        Ok(out)
    }
}
