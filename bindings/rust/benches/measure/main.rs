//! `cargo bench`: what the calls cost beside two plain-Rust versions, and what a slot costs and how far a stream lags beside other schedulers.
//! `cargo bench -- engines`, `-- rounds` and `-- sheets` print the table of the two engines, of whole rounds and of the two forms of sheet alone.
//! A table on standard output; with the library linked, docs/measured.csv and docs/measured-*.svg (without it, the same below target/measured/).
//! `cargo bench -- pictures` measures nothing, and draws the pictures from docs/measured.csv.
//!
//! Times are processor time of this thread, medians of several timings, the versions by turns in one run; boards, outputs and sheets are made
//! before the clock starts and are warm, nothing is cleared between calls. Every version is called through a table of functions, none inlined.
mod calls;
mod clock;
mod engines;
mod pictures;
mod rounds;
mod schedulers;
#[cfg(linked)]
mod sheets;

use clock::{median, now};
use paper::random::Random;
use paper::trial::Calls;
use paper::{at, Record};
use schedulers::{worst_lag, Scheduler};
use std::fmt::Write as _;
use std::hint::black_box;
use std::path::{Path, PathBuf};

#[cfg(linked)]
#[path = "../../tests/boundary/mod.rs"]
mod boundary;

/// The library's slot board.
#[cfg(linked)]
struct Linked {
    drive: mandrozsi::Drive,
    board: Vec<u16>,
    list: [u64; mandrozsi::LIST],
}

#[cfg(linked)]
impl Scheduler for Linked {
    fn next(&mut self) -> usize {
        usize::from(self.drive.slot(&mut self.board, &mut self.list).expect("an opened board").name) - 1
    }
}

/// The library's slot board, a round at a time: for a user who changes streams between rounds alone.
#[cfg(linked)]
struct ByRounds {
    drive: mandrozsi::Drive,
    board: Vec<u16>,
    names: Vec<u16>,
    served: usize,
}

#[cfg(linked)]
impl Scheduler for ByRounds {
    fn next(&mut self) -> usize {
        if self.served == self.names.len() {
            self.names.resize(self.board.len(), 0);
            self.drive.round(&self.board, &mut self.names).expect("an opened board");
            self.served = 0;
        }
        self.served += 1;
        usize::from(self.names[self.served - 1]) - 1
    }

    /// A whole round in one call: there are C names.
    fn fill(&mut self, names: &mut [u16]) {
        self.drive.round(&self.board, names).expect("an opened board");
    }
}

/// The library's walk.
#[cfg(linked)]
fn library_walk(c: u16, board: &[u16], marks: &mut [u16]) -> paper::tree::Walked {
    // SAFETY: pointer and length are of one slice, lent for the call alone.
    let said = unsafe { mandrozsi::raw::mandrozsi_walk(c, board.as_ptr(), board.len(), marks.as_mut_ptr(), marks.len()) };
    paper::tree::Walked {
        number: said.number as u16,
        name: said.first,
        leaf: said.second,
    }
}

/// The slot board of the version written for speed.
struct ByHand {
    record: Record,
    board: Vec<u16>,
}

impl Scheduler for ByHand {
    fn next(&mut self) -> usize {
        let answer = paper::hand::slot(self.record, &self.board);
        self.record = answer.record;
        answer.values[0] as usize - 1
    }

    fn fill(&mut self, names: &mut [u16]) {
        assert_eq!(paper::hand::round(self.record, &self.board, names).number, 0);
    }
}

fn full_board(weights: &[u32]) -> Vec<u16> {
    let c: u32 = weights.iter().sum();
    let mut board = vec![0; c as usize];
    for (i, &w) in weights.iter().enumerate() {
        assert_eq!(paper::hand::add(at(c as u16, 1), &mut board, i as u16 + 1, w as u16).number, 0);
    }
    board
}

/// The schedulers, each over the same streams.
fn all(weights: &[u32]) -> Vec<(&'static str, Box<dyn Scheduler>)> {
    let board = full_board(weights);
    let capacity = board.len() as u16;
    vec![
        #[cfg(linked)]
        (
            "slot board",
            Box::new(Linked {
                drive: boundary::drive(at(capacity, 1)),
                board: board.clone(),
                list: [0; mandrozsi::LIST],
            }),
        ),
        #[cfg(linked)]
        (
            "slot board by rounds",
            Box::new(ByRounds {
                drive: boundary::drive(at(capacity, 1)),
                board: board.clone(),
                names: Vec::new(),
                served: 0,
            }),
        ),
        (
            "slot board by hand",
            Box::new(ByHand {
                record: at(capacity, 1),
                board,
            }),
        ),
        ("weighted turn", Box::new(schedulers::Turn::new(weights))),
        ("deficit", Box::new(schedulers::Deficit::new(weights))),
        ("smoothed (SRR)", Box::new(schedulers::Smoothed::new(weights))),
        ("tree walk (RRR)", Box::new(schedulers::Walk::new(weights))),
        ("smooth (nginx)", Box::new(schedulers::Nginx::new(weights))),
        ("stride (heap)", Box::new(schedulers::Stride::new(weights))),
    ]
}

/// Nanoseconds of one slot, and the worst lag in slots, of a scheduler at a number of streams.
pub struct Point {
    pub scheduler: &'static str,
    pub streams: usize,
    pub cost: f64,
    pub lag: f64,
}

const C: usize = 4095;

fn scheduler_points() -> Vec<Point> {
    let mut points = Vec::new();
    for streams in [1, 2, 5, 10, 20, 50, 100, 200, 500, 1000, 2000, 4000] {
        let weights = calls::weights(streams, C, &mut Random::new(streams as u64));
        let mut lags: Vec<f64> = all(&weights).iter_mut().map(|(_, s)| worst_lag(s.as_mut(), &weights, C)).collect();
        let mut list = all(&weights);
        let mut costs = vec![Vec::new(); list.len()];
        for repeat in 0..16 {
            for ((_, scheduler), costs) in list.iter_mut().zip(&mut costs) {
                let start = now();
                for _ in 0..C {
                    black_box(scheduler.next());
                }
                if repeat > 0 {
                    costs.push((now() - start) / C as f64);
                }
            }
        }
        for ((name, _), costs) in list.into_iter().zip(costs) {
            points.push(Point {
                scheduler: name,
                streams,
                cost: median(costs),
                lag: lags.remove(0),
            });
        }
    }
    points
}

fn short(ns: f64) -> String {
    match ns {
        ns if ns < 1e3 => format!("{ns:.1} ns"),
        ns if ns < 1e6 => format!("{:.2} us", ns / 1e3),
        ns => format!("{:.2} ms", ns / 1e6),
    }
}

fn print_calls(lines: &[calls::Line], csv: &mut String) {
    println!(
        "{:>5} {:>7} {:>7} {:>11} {:>11} {:>8} {:>11}",
        "C", "streams", "call", "library", "by hand", "ratio", "by letter"
    );
    for l in lines {
        let (ours, ratio) = match l.ours {
            Some(ns) => (short(ns), format!("{:.2}", ns / l.hand)),
            None => ("-".into(), "-".into()),
        };
        println!(
            "{:>5} {:>7} {:>7} {:>11} {:>11} {:>8} {:>11}",
            l.capacity,
            l.streams,
            l.call,
            ours,
            short(l.hand),
            ratio,
            short(l.letter)
        );
        for (version, ns) in [("library", l.ours), ("by hand", Some(l.hand)), ("by letter", Some(l.letter))] {
            if let Some(ns) = ns {
                writeln!(csv, "call,{},{},{},{version},{ns:.1},ns", l.capacity, l.streams, l.call).unwrap();
            }
        }
    }
}

fn print_schedulers(points: &[Point], csv: &mut String) {
    println!("\n{:<20} {:>7} {:>11} {:>11}", "scheduler, C = 4095", "streams", "a slot", "worst lag");
    for p in points {
        if [1, 10, 200, 4000].contains(&p.streams) {
            println!("{:<20} {:>7} {:>11} {:>11.2}", p.scheduler, p.streams, short(p.cost), p.lag);
        }
        writeln!(csv, "scheduler,{C},{},cost of a slot,{},{:.1},ns", p.streams, p.scheduler, p.cost).unwrap();
        writeln!(csv, "scheduler,{C},{},worst lag,{},{:.3},slots", p.streams, p.scheduler, p.lag).unwrap();
    }
}

fn print_engines(lines: &[engines::Line], csv: &mut String) {
    println!(
        "\n{:>5} {:>11} {:>11} {:>8} {:>13} {:>13}",
        "C", "slot", "walk", "ratio", "slot by hand", "walk by hand"
    );
    for l in lines {
        let told = |ns: Option<f64>| ns.map_or("-".into(), short);
        let ratio = l.slot.zip(l.walk).map_or("-".into(), |(slot, walk)| format!("{:.2}", walk / slot));
        println!(
            "{:>5} {:>11} {:>11} {:>8} {:>13} {:>13}",
            l.capacity,
            told(l.slot),
            told(l.walk),
            ratio,
            short(l.slot_by_hand),
            short(l.walk_by_hand)
        );
        for (what, version, ns) in [
            ("slot", "library", l.slot),
            ("walk", "library", l.walk),
            ("slot", "by hand", Some(l.slot_by_hand)),
            ("walk", "by hand", Some(l.walk_by_hand)),
        ] {
            if let Some(ns) = ns {
                writeln!(csv, "engine,{0},{0},{what},{version},{ns:.1},ns", l.capacity).unwrap();
            }
        }
    }
}

fn print_rounds(lines: &[rounds::Line], csv: &mut String) {
    print!("\n{:>5} {:>7}", "C", "streams");
    rounds::TIMED.iter().for_each(|name| print!(" {name:>20}"));
    println!("   a slot, by whole rounds");
    for l in lines {
        print!("{:>5} {:>7}", l.capacity, l.streams);
        for (name, cost) in rounds::TIMED.iter().zip(l.costs) {
            print!(" {:>20}", cost.map_or("-".into(), short));
            if let Some(ns) = cost {
                writeln!(csv, "round,{},{},a slot of a round,{name},{ns:.2},ns", l.capacity, l.streams).unwrap();
            }
        }
        println!();
    }
}

#[cfg(linked)]
fn print_sheets(lines: &[sheets::Line], csv: &mut String) {
    print!("\n{:>7} {:>7}", "streams", "weight");
    sheets::TIMED.iter().for_each(|name| print!(" {name:>11}"));
    println!(" {:>8} {:>8}   C = 4095", "of saves", "of reads");
    for l in lines {
        print!("{:>7} {:>7}", l.streams, l.weight);
        for (name, ns) in sheets::TIMED.iter().zip(l.costs) {
            print!(" {:>11}", short(ns));
            writeln!(csv, "sheet,{C},{},{name},library,{ns:.1},ns", l.streams).unwrap();
        }
        let [save, save_pieces, read, read_pieces, ..] = l.costs;
        println!(" {:>8.2} {:>8.2}", save_pieces / save, read_pieces / read);
    }
}

/// The rounds of one small board's streams, scheduler by scheduler.
fn strips() -> Vec<(&'static str, Vec<usize>)> {
    let mut rows = Vec::new();
    for (name, mut scheduler) in all(&[6, 4, 3, 2]) {
        // By hand, by rounds or slot by slot, the slot board is one.
        let name = if name.starts_with("slot board") { "slot board" } else { name };
        if rows.iter().all(|&(other, _)| other != name) {
            rows.push((name, (0..15).map(|_| scheduler.next()).collect()));
        }
    }
    rows
}

/// The pictures of what the lines of a measurement say, and of the rounds.
fn write_pictures(csv: &str, folder: &Path) {
    let write = |name: &str, text: &str| std::fs::write(folder.join(name), text).expect("the folder can be written");
    let cost = pictures::curves(csv, "cost of a slot");
    write(
        "measured-cost.svg",
        &pictures::lines("Cost of a slot, C = 4,095", "nanoseconds", "", &cost),
    );
    let lag = pictures::curves(csv, "worst lag");
    write(
        "measured-lag.svg",
        &pictures::lines("Worst lag within a round, C = 4,095", "slots", "1 stream: no lag", &lag),
    );
    write(
        "measured-round.svg",
        &pictures::strips("One round of 15 slots: streams of weight 6, 4, 3 and 2", &strips()),
    );
}

/// The tables that can be asked for alone.
const PARTS: [&str; 3] = ["engines", "rounds", "sheets"];

/// Prints the tables asked for, or all where none is, and gives the lines of measured.csv.
fn measure(ours: Option<&dyn Calls>, asked: &[String]) -> String {
    #[cfg(linked)]
    let walks = ours.map(|calls| (calls, library_walk as paper::tree::Version));
    #[cfg(not(linked))]
    let walks = None;
    let wanted = |part: &str| asked.is_empty() || asked.iter().any(|word| word == part);
    let mut csv = String::from("table,capacity,streams,what,version,value,unit\n");
    if asked.is_empty() {
        print_calls(&calls::table(ours), &mut csv);
        print_schedulers(&scheduler_points(), &mut csv);
    }
    if wanted("engines") {
        print_engines(&engines::table(walks), &mut csv);
    }
    if wanted("rounds") {
        print_rounds(&rounds::table(), &mut csv);
    }
    #[cfg(linked)]
    if wanted("sheets") {
        print_sheets(&sheets::table(), &mut csv);
    }
    csv
}

fn main() {
    let repository = Path::new(env!("CARGO_MANIFEST_DIR")).join("../..");
    if std::env::args().any(|word| word == "pictures") {
        let docs = repository.join("docs");
        let csv = std::fs::read_to_string(docs.join("measured.csv")).expect("docs/measured.csv can be read");
        write_pictures(&csv, &docs);
        return;
    }
    #[cfg(linked)]
    let (ours, folder): (Option<&dyn Calls>, PathBuf) = (Some(&boundary::Boundary), repository.join("docs"));
    #[cfg(not(linked))]
    let (ours, folder): (Option<&dyn Calls>, PathBuf) = (None, repository.join("target/measured"));
    if ours.is_none() {
        println!("The static library is not linked here (see build.rs): its columns, its scheduler and its sheets are missing.\n");
    }
    let asked: Vec<String> = std::env::args().filter(|word| PARTS.contains(&word.as_str())).collect();
    let csv = measure(ours, &asked);
    if !asked.is_empty() {
        return;
    }
    std::fs::create_dir_all(&folder).expect("the folder can be made");
    std::fs::write(folder.join("measured.csv"), &csv).expect("the folder can be written");
    write_pictures(&csv, &folder);
    println!(
        "\nwritten: measured.csv, measured-cost.svg, measured-lag.svg, measured-round.svg in {}",
        folder.display()
    );
}
