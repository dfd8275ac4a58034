//! Pictures as SVG text: curves over the number of streams, both axes logarithmic, and strips of slots. The curves are read off the lines of
//! docs/measured.csv, so that a picture can be drawn anew without a measurement.
use std::fmt::Write as _;

const WIDTH: f64 = 920.0;
const HEIGHT: f64 = 470.0;
const LEFT: f64 = 70.0;
const RIGHT: f64 = 670.0;
const TOP: f64 = 50.0;
const BOTTOM: f64 = 410.0;
const TEXT: &str = "#222";

/// How a curve is drawn: its colour, its width and its dashes. Wide ones lie below, so that where two run together both are seen.
struct Style(&'static str, f64, &'static str);

fn style(scheduler: &str) -> Style {
    match scheduler {
        "weighted turn" => Style("#b3bcbd", 7.0, "none"),
        "slot board" => Style("#e74c3c", 5.0, "none"),
        "slot board by rounds" => Style("#e67e22", 3.5, "none"),
        "slot board by hand" => Style("#7b241c", 2.5, "none"),
        "deficit" => Style("#3b4446", 2.0, "8 5"),
        "smoothed (SRR)" => Style("#2471a3", 2.0, "none"),
        "tree walk (RRR)" => Style("#138d75", 2.0, "3 3"),
        "smooth (nginx)" => Style("#8e44ad", 2.0, "none"),
        _ => Style("#7e5109", 2.5, "2 4"),
    }
}

/// A curve: what it is of, how it is drawn, and its value at each number of streams.
pub struct Curve {
    name: String,
    style: Style,
    values: Vec<(usize, f64)>,
}

/// The curves of one thing that was measured of the schedulers, the widest first. Those that are the same throughout are one, with both names.
pub fn curves(csv: &str, what: &str) -> Vec<Curve> {
    let mut curves: Vec<Curve> = Vec::new();
    for line in csv.lines() {
        let fields: Vec<&str> = line.split(',').collect();
        let ["scheduler", _, streams, of, name, value, _] = fields[..] else {
            continue;
        };
        if of != what {
            continue;
        }
        let value = (streams.parse().expect("a number of streams"), value.parse().expect("a value"));
        match curves.iter_mut().find(|curve| curve.name == name) {
            Some(curve) => curve.values.push(value),
            None => curves.push(Curve {
                name: name.into(),
                style: style(name),
                values: vec![value],
            }),
        }
    }
    let mut apart: Vec<Curve> = Vec::new();
    for curve in curves {
        match apart.iter_mut().find(|other| other.values == curve.values) {
            Some(other) => write!(other.name, ", {}", curve.name.trim_start_matches("slot board ")).unwrap(),
            None => apart.push(curve),
        }
    }
    apart.sort_by(|a, b| b.style.1.total_cmp(&a.style.1));
    apart
}

fn head(out: &mut String, width: f64, height: f64, title: &str) {
    writeln!(
        out,
        r##"<svg xmlns="http://www.w3.org/2000/svg" viewBox="0 0 {width} {height}" width="{width}" height="{height}" font-family="sans-serif" font-size="13">
<rect width="{width}" height="{height}" fill="#ffffff"/>
<text x="20" y="28" font-size="16" fill="{TEXT}">{title}</text>"##
    )
    .unwrap();
}

/// The marks of a logarithmic axis from the last of 1, 2, 5, 10, 20 .. that is not above `from` to the first that is not below `to`.
fn marks(from: f64, to: f64) -> Vec<f64> {
    let all: Vec<f64> = (-3..9).flat_map(|power| [1.0, 2.0, 5.0].map(|step| step * 10f64.powi(power))).collect();
    let first = all.iter().rposition(|&mark| mark <= from).expect("a value above 0.001");
    let last = all.iter().position(|&mark| mark >= to).expect("a value below 10^9");
    all[first..=last].iter().map(|mark| (mark * 1e3).round() / 1e3).collect()
}

fn place(value: f64, ends: (f64, f64), from: f64, to: f64) -> f64 {
    from + (to - from) * (value / ends.0).log10() / (ends.1 / ends.0).log10()
}

/// Both axes, with a mark for each number of streams and for the steps of the values.
fn axes(out: &mut String, streams: &[usize], values: &[f64], unit: &str) {
    let ends = (values[0], values[values.len() - 1]);
    for &many in streams {
        let x = place(many as f64, (1.0, 4000.0), LEFT, RIGHT);
        let below = BOTTOM + 18.0;
        writeln!(
            out,
            r##"<line x1="{x:.1}" y1="{TOP}" x2="{x:.1}" y2="{BOTTOM}" stroke="#e5e8e8"/>
<text x="{x:.1}" y="{below}" text-anchor="middle" fill="{TEXT}">{many}</text>"##
        )
        .unwrap();
    }
    for &value in values {
        let y = place(value, ends, BOTTOM, TOP);
        let (before, middle) = (LEFT - 8.0, y + 4.0);
        writeln!(
            out,
            r##"<line x1="{LEFT}" y1="{y:.1}" x2="{RIGHT}" y2="{y:.1}" stroke="#e5e8e8"/>
<text x="{before}" y="{middle:.1}" text-anchor="end" fill="{TEXT}">{value}</text>"##
        )
        .unwrap();
    }
    let (across, below, up) = ((LEFT + RIGHT) / 2.0, BOTTOM + 42.0, (TOP + BOTTOM) / 2.0);
    writeln!(
        out,
        r##"<text x="{across}" y="{below}" text-anchor="middle" fill="{TEXT}">streams (logarithmic)</text>
<text x="18" y="{up}" text-anchor="middle" fill="{TEXT}" transform="rotate(-90 18 {up})">{unit} (logarithmic)</text>"##
    )
    .unwrap();
}

/// The curves, each with its name at its end. A value of 0 has no place on a logarithmic axis: where there is one, `none` says so in words.
pub fn lines(title: &str, unit: &str, none: &str, curves: &[Curve]) -> String {
    let streams: Vec<usize> = curves[0].values.iter().map(|value| value.0).collect();
    let all = || curves.iter().flat_map(|curve| &curve.values).map(|value| value.1);
    let (least, most) = (all().filter(|&v| v > 0.0).fold(f64::MAX, f64::min), all().fold(0.0, f64::max));
    let values = marks(least, most);
    let ends = (values[0], values[values.len() - 1]);
    let mut out = String::new();
    head(&mut out, WIDTH, HEIGHT, title);
    axes(&mut out, &streams, &values, unit);
    if all().any(|value| value == 0.0) {
        let (x, y) = (LEFT + 4.0, BOTTOM - 8.0);
        writeln!(out, r##"<text x="{x}" y="{y}" fill="{TEXT}">{none}</text>"##).unwrap();
    }
    let mut labels: Vec<(f64, &Curve)> = Vec::new();
    for curve in curves {
        let Style(colour, width, dashes) = curve.style;
        let shown = curve.values.iter().filter(|value| value.1 > 0.0);
        let at: Vec<(f64, f64)> = shown
            .map(|&(many, value)| (place(many as f64, (1.0, 4000.0), LEFT, RIGHT), place(value, ends, BOTTOM, TOP)))
            .collect();
        let path: Vec<String> = at.iter().map(|(x, y)| format!("{x:.1},{y:.1}")).collect();
        let path = path.join(" ");
        writeln!(
            out,
            r##"<polyline points="{path}" fill="none" stroke="{colour}" stroke-width="{width}" stroke-dasharray="{dashes}"/>"##
        )
        .unwrap();
        labels.push((at[at.len() - 1].1, curve));
    }
    names(&mut out, labels);
    out.push_str("</svg>\n");
    out
}

/// The names of the curves with a stroke of each, at their ends; those that would overlap, or leave the picture, move apart.
fn names(out: &mut String, mut labels: Vec<(f64, &Curve)>) {
    labels.sort_by(|a, b| a.0.total_cmp(&b.0));
    let (mut last, many) = (f64::MIN, labels.len());
    for (i, (y, curve)) in labels.into_iter().enumerate() {
        last = y.min(BOTTOM - 16.0 * (many - 1 - i) as f64).max(last + 16.0);
        let (Style(colour, width, dashes), name) = (&curve.style, &curve.name);
        let (from, to, text, below) = (RIGHT + 8.0, RIGHT + 36.0, RIGHT + 42.0, last + 4.0);
        writeln!(
            out,
            r##"<line x1="{from}" y1="{last:.1}" x2="{to}" y2="{last:.1}" stroke="{colour}" stroke-width="{width}" stroke-dasharray="{dashes}"/>
<text x="{text}" y="{below:.1}" fill="{TEXT}">{name}</text>"##
        )
        .unwrap();
    }
}

/// One row of slots for each scheduler, a colour for each stream.
pub fn strips(title: &str, rows: &[(&str, Vec<usize>)]) -> String {
    const SIDE: f64 = 34.0;
    let width = 190.0 + SIDE * rows[0].1.len() as f64 + 20.0;
    let height = 60.0 + 44.0 * rows.len() as f64;
    let mut out = String::new();
    head(&mut out, width, height, title);
    for (row, (name, slots)) in rows.iter().enumerate() {
        let y = 50.0 + 44.0 * row as f64;
        writeln!(out, r##"<text x="20" y="{:.1}" fill="{TEXT}">{name}</text>"##, y + 22.0).unwrap();
        for (i, &stream) in slots.iter().enumerate() {
            let x = 190.0 + SIDE * i as f64;
            let (fill, colour) = [("#b03a2e", "#fff"), ("#2471a3", "#fff"), ("#117a65", "#fff"), ("#f4d03f", TEXT)][stream];
            let (side, middle, below, number) = (SIDE - 2.0, x + SIDE / 2.0 - 1.0, y + 22.0, stream + 1);
            writeln!(
                out,
                r##"<rect x="{x:.1}" y="{y:.1}" width="{side}" height="34" fill="{fill}"/>
<text x="{middle:.1}" y="{below:.1}" text-anchor="middle" fill="{colour}">{number}</text>"##
            )
            .unwrap();
        }
    }
    out.push_str("</svg>\n");
    out
}
