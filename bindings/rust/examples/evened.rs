//! One round with a stream in pieces, and with the same stream over-allocated in one piece, as a picture drawn from what the library's round writes. It is
//! docs/evened.svg: `cargo run --example evened > ../../docs/evened.svg`.
#[cfg(served)]
#[path = "../tests/boundary/served.rs"]
mod served;

#[cfg(any(linked, served))]
fn main() -> Result<(), mandrozsi::Refusal> {
    print!("{}", picture::rounds()?);
    Ok(())
}

#[cfg(not(any(linked, served)))]
fn main() {
    eprintln!("built without the static library: see build.rs");
}

#[cfg(any(linked, served))]
mod picture {
    use mandrozsi::{Refusal, Shares, Side::First, Tables, LIST};
    use std::fmt::Write as _;

    const C: usize = 32;
    const WEIGHT: usize = 11;
    const NAME: u16 = 9;

    /// The width of a slot, and the height of one whole serve above or below the even share.
    const SLOT: usize = 24;
    const SERVE: usize = 34;

    const SERVED: &str = "#1f618d";
    const PASSED: &str = "#f5b041";
    const TEXT: &str = "#222";

    /// The names of a round, the leaves that the stream has, and its spacing.
    struct Round {
        names: [u16; C],
        leaves: [bool; C],
        spacing: u16,
    }

    fn round(over: bool) -> Result<Round, Refusal> {
        let (mut board, mut list) = ([0; C], [0; LIST]);
        let (mut rates, mut first, mut second) = ([0; C], [0; C], [0; C]);
        let mut tables = Tables {
            rates: &mut rates,
            first: &mut first,
            second: &mut second,
        };
        let drive = Shares::open_one(C as u16, &mut board, &mut list, &mut tables)?;
        if over {
            drive.over(First, &mut board, &mut list, &mut tables, NAME, WEIGHT as u16)?;
        } else {
            drive.add(First, &mut board, &mut list, &mut tables, NAME, WEIGHT as u16)?;
        }
        let mut names = [0; C];
        drive.round(First, &board, &tables, &mut names)?;
        let spacing = drive.report(First, &board, &tables, NAME)?.spacing;
        let mut leaves = [false; C];
        let mut slots = drive;
        for has in &mut leaves {
            let slot = slots.slot(First, &mut board, &mut list, &mut tables)?;
            *has = board[usize::from(slot.leaf)] == NAME;
        }
        Ok(Round { names, leaves, spacing })
    }

    /// A row of slots, and below it how far the serves are ahead of an even share after each.
    fn panel(out: &mut String, y: usize, title: &str, round: &Round) {
        writeln!(out, r##"<text x="24" y="{}" font-size="15" fill="{TEXT}">{title}</text>"##, y - 12).unwrap();
        for slot in 0..C {
            let fill = match (round.names[slot] == NAME, round.leaves[slot]) {
                (true, _) => SERVED,
                (false, true) => PASSED,
                _ => "#fff",
            };
            let x = 24 + SLOT * slot;
            writeln!(
                out,
                r##"<rect x="{x}" y="{y}" width="{SLOT}" height="26" fill="{fill}" stroke="#99a3a4"/>"##
            )
            .unwrap();
        }
        let zero = y + 26 + 3 * SERVE;
        let end = 24 + SLOT * C;
        writeln!(
            out,
            r##"<line x1="24" y1="{zero}" x2="{end}" y2="{zero}" stroke="#99a3a4"/>
<text x="{}" y="{}" fill="{TEXT}">even share</text>"##,
            end + 6,
            zero + 4
        )
        .unwrap();
        let (mut served, mut line) = (0, String::new());
        for (slot, &name) in round.names.iter().enumerate() {
            served += usize::from(name == NAME);
            // Serves ahead, as height: s - w t / C.
            let ahead = (C * served * SERVE) as f64 / C as f64 - (WEIGHT * (slot + 1) * SERVE) as f64 / C as f64;
            write!(line, "{},{:.1} ", 24 + SLOT * (slot + 1) - SLOT / 2, zero as f64 - ahead).unwrap();
        }
        writeln!(out, r##"<polyline points="{line}" fill="none" stroke="{SERVED}" stroke-width="2"/>"##).unwrap();
        writeln!(
            out,
            r##"<line x1="24" y1="{0}" x2="{end}" y2="{0}" stroke="#99a3a4" stroke-dasharray="3 4"/>
<text x="{1}" y="{2}" fill="{TEXT}">one serve ahead</text>"##,
            zero - SERVE,
            end + 6,
            zero - SERVE + 4
        )
        .unwrap();
    }

    /// Both rounds, one above the other.
    pub fn rounds() -> Result<String, Refusal> {
        let (width, height) = (SLOT * C + 160, 470);
        let mut out = format!(
            r##"<svg xmlns="http://www.w3.org/2000/svg" viewBox="0 0 {width} {height}" width="{width}" height="{height}" font-family="sans-serif" font-size="13">
<rect width="{width}" height="{height}" fill="#ffffff"/>
<text x="24" y="32" font-size="18" fill="{TEXT}">One round of C = {C} with a stream of weight {WEIGHT}: in pieces, and in one piece</text>
"##
        );
        let (pieces, one) = (round(false)?, round(true)?);
        let title = format!("In pieces of 8, 2 and 1: {WEIGHT} leaves, spacing {}", pieces.spacing);
        panel(&mut out, 76, &title, &pieces);
        let title = format!(
            "Over-allocated: one piece of 16 leaves, 5 of them passed (yellow), spacing {}",
            one.spacing
        );
        panel(&mut out, 286, &title, &one);
        out.push_str("</svg>\n");
        Ok(out)
    }
}
