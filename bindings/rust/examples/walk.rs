//! One round of the tree walk for C = 8 as a picture, drawn from what the library's walk does to the marks. It is docs/walk.svg:
//! `cargo run --example walk > ../../docs/walk.svg`.
#[cfg(served)]
#[path = "../tests/boundary/served.rs"]
mod served;

#[cfg(any(linked, served))]
fn main() -> Result<(), mandrozsi::Refusal> {
    print!("{}", picture::round()?);
    Ok(())
}

#[cfg(not(any(linked, served)))]
fn main() {
    eprintln!("built without the static library: see build.rs");
}

#[cfg(any(linked, served))]
mod picture {
    use mandrozsi::{walk, Refusal};
    use std::fmt::Write as _;

    const LEVELS: usize = 3;
    const C: usize = 1 << LEVELS;
    type Marks = [u16; C - 1];

    /// A panel's width and height, and how many stand in a row.
    const WIDTH: usize = 300;
    const HEIGHT: usize = 250;
    const ROW: usize = 3;

    const WALKED: &str = "#c0392b";
    const PLAIN: &str = "#99a3a4";

    /// Where a node stands in its panel; the leaves follow the inner nodes.
    fn place(node: usize) -> (usize, usize) {
        let level = (node + 1).ilog2() as usize;
        let wide = C >> level;
        let nth = node + 1 - (1 << level);
        (18 + 33 * (nth * wide) + 33 * wide / 2, 62 + 48 * level)
    }

    fn edge(out: &mut String, from: usize, to: usize, walked: bool) {
        let ((x1, y1), (x2, y2)) = (place(from), place(to));
        let (colour, width) = if walked { (WALKED, 4) } else { (PLAIN, 1) };
        writeln!(
            out,
            r##"<line x1="{x1}" y1="{y1}" x2="{x2}" y2="{y2}" stroke="{colour}" stroke-width="{width}"/>"##
        )
        .unwrap();
    }

    fn inner(out: &mut String, node: usize, before: u16, after: u16) {
        let (x, y) = place(node);
        let (text, colour, size) = if before == after {
            (format!("{before}"), PLAIN, 14)
        } else {
            (format!("{before}→{after}"), WALKED, 12)
        };
        writeln!(
            out,
            r##"<circle cx="{x}" cy="{y}" r="17" fill="#fff" stroke="{colour}" stroke-width="2"/>
<text x="{x}" y="{}" text-anchor="middle" font-size="{size}" fill="#222">{text}</text>"##,
            y + 5
        )
        .unwrap();
    }

    fn leaf(out: &mut String, leaf: usize, served: bool) {
        let (x, y) = place(C - 1 + leaf);
        let (fill, text) = if served { (WALKED, "#fff") } else { ("#fff", "#222") };
        writeln!(
            out,
            r##"<rect x="{}" y="{}" width="26" height="26" fill="{fill}" stroke="{PLAIN}"/>
<text x="{x}" y="{}" text-anchor="middle" fill="{text}">{leaf}</text>"##,
            x - 13,
            y - 13,
            y + 5
        )
        .unwrap();
    }

    /// The tree with its marks before and after; a node whose mark was flipped was walked through.
    fn panel(out: &mut String, number: usize, title: &str, before: Marks, after: Marks, served: Option<usize>) {
        writeln!(
            out,
            r##"<g transform="translate({} {})">
<text x="18" y="28" font-size="15" fill="#222">{title}</text>"##,
            10 + WIDTH * (number % ROW),
            50 + HEIGHT * (number / ROW)
        )
        .unwrap();
        let walked = |node: usize| match node.checked_sub(C - 1) {
            Some(leaf) => served == Some(leaf),
            None => before[node] != after[node],
        };
        for node in 1..2 * C - 1 {
            edge(out, (node - 1) / 2, node, walked(node));
        }
        for node in 0..C - 1 {
            inner(out, node, before[node], after[node]);
        }
        for i in 0..C {
            leaf(out, i, served == Some(i));
        }
        out.push_str("</g>\n");
    }

    /// The C walks from clear marks, and the marks that they leave.
    pub fn round() -> Result<String, Refusal> {
        let (width, height) = (20 + WIDTH * ROW, 60 + HEIGHT * (C + 1).div_ceil(ROW));
        let mut out = format!(
            r##"<svg xmlns="http://www.w3.org/2000/svg" viewBox="0 0 {width} {height}" width="{width}" height="{height}" font-family="sans-serif" font-size="13">
<rect width="{width}" height="{height}" fill="#ffffff"/>
<text x="28" y="32" font-size="18" fill="#222">The tree walk, C = 8: one round from clear marks. A mark of 0 leads left, any other right.</text>
"##
        );
        let board = [0; C];
        let mut marks = [0; C - 1];
        for slot in 0..C {
            let before = marks;
            let leaf = usize::from(walk(C as u16, &board, &mut marks)?.leaf);
            panel(&mut out, slot, &format!("walk {}: leaf {leaf}", slot + 1), before, marks, Some(leaf));
        }
        panel(&mut out, C, "after the round", marks, marks, None);
        out.push_str("</svg>\n");
        Ok(out)
    }
}
