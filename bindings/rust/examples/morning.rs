//! A morning at a tape library, whole: what the slot board is for. Two hundred checking streams are loaded in one batch. Restores come and go
//! while rounds run. The board is saved, all memory is lost, it is read back from its sheet, and a second drive joins. The drives are simulated:
//! a slot reads the next block of the stream that it serves. Every slot is logged, and at the end what was promised is checked from the log and
//! from what the calls answered, never from the board.
//!
//! `cargo run --example morning` prints an account; with two file names, say `waits.svg certificates.txt`, it also draws the waits and writes a
//! certificate of each stream; with `forge` before them it also damages the log in one way after another, and prints what the check says of each.
//! bindings/c/morning.c is the same program and prints the same.
#[cfg(served)]
#[path = "../tests/boundary/served.rs"]
mod served;

#[cfg(any(linked, served))]
fn main() -> Result<(), Box<dyn std::error::Error>> {
    let words: Vec<String> = std::env::args().skip(1).collect();
    let forging = words.first().is_some_and(|word| word == "forge");
    let morning = desk::Morning::whole()?;
    let found = check::check(&morning)?;
    print!("{}", handed::account(&morning, &found));
    if let [picture, certificates] = &words[usize::from(forging)..] {
        std::fs::write(picture, picture::waits(&found))?;
        std::fs::write(certificates, handed::certificates(&morning, &found))?;
    }
    if forging {
        forge::tried(&morning)?;
    }
    Ok(())
}

#[cfg(not(any(linked, served)))]
fn main() {
    eprintln!("built without the static library: see build.rs");
}

/// The desk and the drives: streams come, ask, are answered, read and go.
#[cfg(any(linked, served))]
mod desk {
    use mandrozsi::{fetch, Change, Drive, Entry, Fetched, Pair, Refusal, Side, LIST};

    /// The capacity; the laps of the morning, in each of which every drive runs one round, and how many of them the first drive runs alone; the
    /// checking streams, and all names with 0; the lap in which many restores come at once, and how many.
    pub const C: usize = 400;
    pub const LAPS: usize = 300;
    pub const ALONE: usize = 100;
    pub const CHECKING: usize = 200;
    pub const NAMES: usize = 512;
    const RUSH: usize = 180;
    const RUSHING: u32 = 80;
    const SHEET: usize = C.div_ceil(Drive::LEAVES_PER_BLOCK) * Drive::BLOCK_BYTES;

    /// A stream: the weight that it wants, the least that will do, and the one that it holds, 0 for none; whether an order of its waits; the blocks
    /// of its copy, and those that it read.
    #[derive(Clone, Default)]
    pub struct Stream {
        wants: u16,
        least: u16,
        holds: u16,
        asked: bool,
        pub length: u32,
        pub read: u32,
    }

    /// An order that waits. Weight 0 is a remove.
    #[derive(Clone)]
    struct Order {
        ticket: u64,
        name: u16,
        weight: u16,
    }

    /// A line of the log: what a slot served. Slots count from 0 in each round. Round numbers begin again where the board is read from a sheet, so
    /// that a line also says the start: 1 since the board was opened, 2 since it was read. Block 0: none, since the slot is idle or the stream has
    /// read all of its blocks.
    #[derive(Clone)]
    pub struct Line {
        pub start: u8,
        pub drive: usize,
        pub round: u64,
        pub slot: u16,
        pub stream: u16,
        pub block: u32,
    }

    /// A lap in the book: whether the board changed at its start, and what each stream then held, with the spacing that report gave.
    #[derive(Clone)]
    pub struct Lap {
        pub changed: bool,
        pub weights: [u16; NAMES],
        pub spacings: [u16; NAMES],
    }

    /// What is lent to the calls and kept between them; the streams and their orders; the log and the book. Until the second drive joins, its record
    /// stays at the start of a round and holds nothing up.
    #[derive(Clone)]
    pub struct Morning {
        board: [u16; C],
        list: [u64; LIST],
        pair: Pair,
        pub sheet_bytes: usize,
        pub streams: Vec<Stream>,
        orders: Vec<Order>,
        pub waited: usize,
        pub fetched: usize,
        pub lost: usize,
        pub answers: [u64; 19],
        start: u8,
        change: bool,
        pub log: Vec<Line>,
        pub book: Vec<Lap>,
        random: u32,
    }

    impl Morning {
        fn open() -> Result<Morning, Refusal> {
            let (mut board, mut list) = ([0; C], [0; LIST]);
            Ok(Morning {
                pair: Pair::open(C as u16, &mut board, &mut list)?,
                board,
                list,
                sheet_bytes: 0,
                streams: vec![Stream::default()],
                orders: Vec::new(),
                waited: 0,
                fetched: 0,
                lost: 0,
                answers: [0; 19],
                start: 1,
                change: false,
                log: Vec::new(),
                book: Vec::new(),
                random: 2099,
            })
        }

        /// The whole morning.
        pub fn whole() -> Result<Morning, Refusal> {
            let mut morning = Morning::open()?;
            morning.load()?;
            for lap in 0..LAPS {
                if lap == ALONE {
                    morning.restart()?;
                }
                morning.run(lap)?;
            }
            Ok(morning)
        }

        pub fn waiting(&self) -> usize {
            self.orders.len()
        }

        /// A number below a limit, by xorshift from a fixed seed.
        fn draw(&mut self, below: u32) -> u32 {
            self.random ^= self.random << 13;
            self.random ^= self.random >> 17;
            self.random ^= self.random << 5;
            self.random % below
        }

        /// A new stream that wants a weight, for a copy of so many blocks.
        fn come(&mut self, weight: u16, length: u32) -> u16 {
            assert!(self.streams.len() < NAMES, "too many streams");
            self.streams.push(Stream {
                wants: weight,
                least: weight - weight / 2,
                length,
                ..Stream::default()
            });
            (self.streams.len() - 1) as u16
        }

        /// What a change was answered, at once or by its ticket. Where there is room for less, and it will do, that much is asked for next.
        fn answered(&mut self, name: u16, weight: u16, answer: Result<(), Refusal>) -> Result<(), Refusal> {
            let stream = &mut self.streams[usize::from(name)];
            self.answers[answer.map_or_else(|refusal| refusal.number().into(), |()| 0)] += 1;
            match answer {
                Ok(()) => {
                    stream.holds = weight;
                    self.change = true;
                }
                Err(Refusal::Room { idle }) if stream.wants != 0 && idle >= stream.least => stream.wants = idle,
                Err(Refusal::Room { .. } | Refusal::Taken | Refusal::Absent | Refusal::Queue) => {}
                Err(other) => return Err(other),
            }
            Ok(())
        }

        /// Asks for a weight, or with 0 for a remove. Where it waits, its answer is fetched when the next lap has begun.
        fn ask(&mut self, name: u16, weight: u16) -> Result<(), Refusal> {
            let (board, list) = (&mut self.board, &mut self.list);
            let answer = match weight {
                0 => self.pair.remove(Side::First, board, list, name),
                _ => self.pair.add(Side::First, board, list, name, weight),
            };
            match answer {
                Ok(Change::Waiting { ticket }) => {
                    self.orders.push(Order { ticket, name, weight });
                    self.streams[usize::from(name)].asked = true;
                    self.waited += 1;
                    Ok(())
                }
                Ok(Change::Done { .. }) => self.answered(name, weight, Ok(())),
                Err(refusal) => self.answered(name, weight, Err(refusal)),
            }
        }

        /// Fetches the answer of every order: the first slot of a lap has carried them out.
        fn fetch_all(&mut self) -> Result<(), Refusal> {
            for order in std::mem::take(&mut self.orders) {
                let answer = match fetch(&mut self.list, order.ticket) {
                    Fetched::Done { .. } => Ok(()),
                    Fetched::Refused(refusal) => Err(refusal),
                    other => panic!("ticket {}: {other:?}", order.ticket),
                };
                self.fetched += 1;
                self.streams[usize::from(order.name)].asked = false;
                self.answered(order.name, order.weight, answer)?;
            }
            Ok(())
        }

        /// The morning's batch: every checking stream, and by mistake one of them twice.
        fn load(&mut self) -> Result<(), Refusal> {
            let mut table = Vec::new();
            for _ in 0..CHECKING {
                let weight = 1 + self.draw(2);
                let length = weight * (150 + self.draw(400));
                table.push(Entry::add(self.come(weight as u16, length), weight as u16));
            }
            table.push(table[6]);
            self.pair.batch(Side::First, &mut self.board, &mut self.list, &mut table);
            for entry in table {
                self.answered(entry.name, entry.weight, entry.answer().map(|_| ()))?;
            }
            Ok(())
        }

        /// Saves the board: the sheet, or none where a round runs.
        fn save(&mut self) -> Result<Option<Vec<u8>>, Refusal> {
            let mut sheet = vec![0; SHEET];
            match self.pair.save(Side::First, &self.board, &mut sheet) {
                Ok(bytes) => sheet.truncate(bytes),
                Err(Refusal::Midround) => {
                    self.answers[4] += 1;
                    return Ok(None);
                }
                Err(other) => return Err(other),
            }
            Ok(Some(sheet))
        }

        /// At some moment of a lap a restore may come, or many; an operator may end one, which may have ended by itself; before the restart a save is
        /// tried; and every stream that does not hold what it wants asks for it.
        fn desk(&mut self, lap: usize) -> Result<(), Refusal> {
            let small = if lap == RUSH { RUSHING } else { 0 };
            let large = u32::from(self.draw(3) == 0);
            for i in 0..small + large {
                let weight = 4 + self.draw(if i < small { 4 } else { 45 });
                let length = weight * (2 + self.draw(20));
                self.come(weight as u16, length);
            }
            if self.draw(8) == 0 && self.streams.len() > CHECKING + 1 {
                let name = CHECKING + 1 + self.draw((self.streams.len() - CHECKING - 1) as u32) as usize;
                self.streams[name].wants = 0;
                self.ask(name as u16, 0)?;
            }
            if lap == ALONE - 1 {
                self.save()?;
            }
            for name in 1..self.streams.len() {
                let Stream { wants, holds, asked, .. } = self.streams[name];
                if !asked && wants != holds {
                    self.ask(name as u16, wants)?;
                }
            }
            Ok(())
        }

        /// Serves one slot of a drive, reads a block for it, and logs both. A stream that has read all of its blocks wants no more.
        fn serve(&mut self, drive: usize, slot: usize) -> Result<(), Refusal> {
            let served = self.pair.slot([Side::First, Side::Second][drive], &mut self.board, &mut self.list)?;
            let stream = &mut self.streams[usize::from(served.name)];
            let unread = stream.read < stream.length;
            stream.read += u32::from(unread);
            if stream.read == stream.length {
                stream.wants = 0;
            }
            self.log.push(Line {
                start: self.start,
                drive,
                round: served.round,
                slot: slot as u16,
                stream: served.name,
                block: if unread { stream.read } else { 0 },
            });
            Ok(())
        }

        /// Writes the book of a lap. A spacing is reported again where any stream came or went, since others may then have moved.
        fn write_book(&mut self) -> Result<(), Refusal> {
            let (mut weights, mut spacings) = ([0; NAMES], [0; NAMES]);
            for (name, stream) in self.streams.iter().enumerate().filter(|(_, stream)| stream.holds != 0) {
                weights[name] = stream.holds;
                spacings[name] = match self.book.last() {
                    Some(before) if !self.change => before.spacings[name],
                    _ => {
                        let report = self.pair.report(Side::First, &self.board, name as u16)?;
                        assert_eq!(report.weight, stream.holds, "the report on stream {name}");
                        report.spacing
                    }
                };
            }
            let changed = std::mem::take(&mut self.change);
            self.book.push(Lap { changed, weights, spacings });
            Ok(())
        }

        /// Runs a lap: one round of each drive, by turns as it happens. The drive that is first at the end is held back until the other is there too,
        /// so that what waits is carried out by the first slot of the next lap.
        fn run(&mut self, lap: usize) -> Result<(), Refusal> {
            let mut at = [0, if self.start == 1 { C } else { 0 }];
            let moment = if self.draw(4) == 0 { 0 } else { self.draw(C as u32) as usize };
            let mut first = true;
            while at[0] < C || at[1] < C {
                let drive = usize::from(at[0] == C || (at[1] < C && self.draw(2) == 1));
                if drive == 0 && at[0] == moment {
                    self.desk(lap)?;
                }
                self.serve(drive, at[drive])?;
                at[drive] += 1;
                if std::mem::take(&mut first) {
                    self.fetch_all()?;
                    self.write_book()?;
                }
            }
            Ok(())
        }

        /// Saves at the start of a round, loses all memory, and reads the sheet. The orders that waited are lost with the list: they are asked for
        /// again, as everything is that a stream wants and does not hold.
        fn restart(&mut self) -> Result<(), Refusal> {
            let sheet = self.save()?.ok_or(Refusal::Midround)?;
            (self.board, self.list) = ([u16::MAX; C], [0; LIST]);
            self.pair = Pair::read(&sheet, &mut self.board, &mut self.list)?;
            self.sheet_bytes = sheet.len();
            self.start = 2;
            for order in std::mem::take(&mut self.orders) {
                self.lost += 1;
                self.streams[usize::from(order.name)].asked = false;
            }
            Ok(())
        }
    }
}

/// The check: what was promised, from the log and the book.
#[cfg(any(linked, served))]
mod check {
    use crate::desk::{Line, Morning, ALONE, C, LAPS, NAMES};

    /// Stands for no slot.
    pub const NO_SLOT: u16 = u16::MAX;

    /// What it has seen of a drive: how many slots, and of each stream the number of its last one (0: none) and the serves of this round.
    struct Seen {
        slots: usize,
        last: [usize; NAMES],
        serves: [u16; NAMES],
    }

    /// And of each stream on both: its blocks and its weight; its longest wait on one board, with the spacing that it is held to; its longest wait
    /// of all, since a spacing is of one board and says nothing of a wait from before a change to after it; and that of a plain weighted turn on
    /// the same streams.
    #[derive(Clone, Copy, Default)]
    pub struct Found {
        pub blocks: u32,
        pub weight: usize,
        pub wait: usize,
        pub spacing: usize,
        pub longest: usize,
        pub turned: usize,
    }

    struct Check<'a> {
        morning: &'a Morning,
        seen: [Seen; 2],
        found: Vec<Found>,
    }

    /// What is wrong, with the line of the log at which it is seen.
    fn complain<T>(line: &Line, what: String) -> Result<T, String> {
        Err(format!("start {}, drive {}, round {}: {what}", line.start, line.drive + 1, line.round))
    }

    impl Check<'_> {
        /// Every slot of every round is there once, in its order; no block is without one.
        fn slot(&self, line: &Line) -> Result<(), String> {
            if line.drive >= 2 || usize::from(line.stream) >= self.found.len() {
                return complain(line, "there is no such drive or stream".into());
            }
            if line.slot == NO_SLOT {
                return complain(line, format!("block {} of stream {} has no slot", line.block, line.stream));
            }
            let (lap, due) = (self.seen[line.drive].slots / C, self.seen[line.drive].slots % C);
            let (start, first) = if lap < ALONE { (1, 0) } else { (2, ALONE) };
            let round_due = line.start == start && line.round == (lap - first) as u64;
            if round_due && usize::from(line.slot) < due {
                return complain(line, format!("slot {} is served twice", line.slot));
            }
            if !round_due || usize::from(line.slot) != due || lap == LAPS {
                return complain(line, format!("slot {} is logged where slot {due} is due", line.slot));
            }
            Ok(())
        }

        /// Only a stream that is held is served, and its blocks come one by one.
        fn stream(&mut self, line: &Line) -> Result<(), String> {
            let stream = usize::from(line.stream);
            let (lap, next) = (self.seen[line.drive].slots / C, self.found[stream].blocks + 1);
            if stream == 0 {
                return match line.block {
                    0 => Ok(()),
                    block => complain(line, format!("block {block} has no stream")),
                };
            }
            let weight = self.morning.book[lap].weights[stream];
            if weight == 0 {
                return complain(line, format!("stream {stream} is served and not held"));
            }
            if line.block != if next <= self.morning.streams[stream].length { next } else { 0 } {
                return complain(line, format!("stream {stream} reads block {} where {next} is due", line.block));
            }
            self.found[stream].weight = weight.into();
            self.found[stream].blocks += u32::from(line.block != 0);
            self.seen[line.drive].serves[stream] += 1;
            self.wait(line)
        }

        /// A wait on one board is at most the spacing that report gave for it.
        fn wait(&mut self, line: &Line) -> Result<(), String> {
            let (seen, stream) = (&mut self.seen[line.drive], usize::from(line.stream));
            let (now, last) = (seen.slots + 1, seen.last[stream]);
            seen.last[stream] = now;
            if last == 0 {
                return Ok(());
            }
            let (wait, found) = (now - last, &mut self.found[stream]);
            found.longest = found.longest.max(wait);
            let (lap, before) = ((now - 1) / C, (last - 1) / C);
            let book = &self.morning.book[lap];
            if lap != before && book.changed {
                return Ok(());
            }
            let spacing = book.spacings[stream].into();
            if wait > spacing {
                return complain(line, format!("stream {stream} waits {wait} slots, and its spacing is {spacing}"));
            }
            if wait > found.wait {
                (found.wait, found.spacing) = (wait, spacing);
            }
            Ok(())
        }

        /// At the end of a round every stream that was held at its first slot has been served as often as it weighs.
        fn round(&mut self, line: &Line) -> Result<(), String> {
            let seen = &mut self.seen[line.drive];
            let weights = &self.morning.book[seen.slots / C - 1].weights;
            if let Some(name) = (1..NAMES).find(|&name| seen.serves[name] != weights[name]) {
                let (serves, weight) = (seen.serves[name], weights[name]);
                return complain(line, format!("stream {name} is served {serves} times, and its weight is {weight}"));
            }
            seen.serves = [0; NAMES];
            Ok(())
        }

        /// The log is whole, and it has every block that a stream says it read.
        fn end(&self, line: &Line) -> Result<(), String> {
            for (drive, seen) in self.seen.iter().enumerate() {
                if seen.slots != LAPS * C {
                    let due = seen.slots % C;
                    return complain(line, format!("the log of drive {} ends before slot {due}", drive + 1));
                }
            }
            for (name, (stream, found)) in self.morning.streams.iter().zip(&self.found).enumerate() {
                if stream.read != found.blocks {
                    let (says, has) = (stream.read, found.blocks);
                    return complain(line, format!("stream {name} says it read {says} blocks, and the log has {has}"));
                }
            }
            Ok(())
        }
    }

    /// The waits of a plain weighted turn on the same streams: each takes its whole weight, one slot after another, and then the next does.
    fn turn(morning: &Morning, found: &mut [Found]) {
        let mut last = [0; NAMES];
        for (lap, book) in morning.book.iter().enumerate() {
            let mut now = lap * C + 1;
            for name in (1..found.len()).filter(|&name| book.weights[name] != 0) {
                let weight = usize::from(book.weights[name]);
                let wait = if last[name] != 0 { now - last[name] } else { usize::from(weight > 1) };
                found[name].turned = found[name].turned.max(wait);
                last[name] = now + weight - 1;
                now += weight;
            }
        }
    }

    /// The whole log: what was found of each stream, or the first thing that is wrong.
    pub fn check(morning: &Morning) -> Result<Vec<Found>, String> {
        let seen = |slots| Seen {
            slots,
            last: [0; NAMES],
            serves: [0; NAMES],
        };
        let mut check = Check {
            morning,
            seen: [seen(0), seen(ALONE * C)],
            found: vec![Found::default(); morning.streams.len()],
        };
        for line in &morning.log {
            check.slot(line)?;
            check.stream(line)?;
            let slots = &mut check.seen[line.drive].slots;
            *slots += 1;
            if *slots % C == 0 {
                check.round(line)?;
            }
        }
        check.end(morning.log.last().ok_or("the log is empty")?)?;
        turn(morning, &mut check.found);
        Ok(check.found)
    }
}

/// What the check says of a log that is false.
#[cfg(any(linked, served))]
mod forge {
    use crate::check::{check, NO_SLOT};
    use crate::desk::{Morning, ALONE, C};

    const FORGERIES: [&str; 11] = [
        "a block from a cache",
        "two streams in one slot",
        "a missed serve",
        "a late serve",
        "a stream that is not held",
        "a block left out",
        "a block without a line",
        "a slot left out",
        "a block of no stream",
        "a drive that is not there",
        "a log cut short",
    ];

    /// A line from some line on in which a stream of weight 1 reads, while one drive runs, in a round at whose start the board did not change.
    fn light_line(morning: &Morning, from: usize) -> usize {
        let light = |i: usize| {
            let (book, line) = (&morning.book[i / C], &morning.log[i]);
            !book.changed && book.weights[usize::from(line.stream)] == 1 && line.block != 0
        };
        (from.max(C)..ALONE * C).find(|&i| light(i)).expect("there is a line to forge")
    }

    /// Damages the log, or what a stream says, in one of these ways; two lines of one round are given.
    fn damage(morning: &mut Morning, way: usize, a: usize, b: usize) {
        let (first, second) = (morning.log[a].clone(), morning.log[b].clone());
        let (log, last) = (&mut morning.log, morning.streams.len() - 1);
        match way {
            0 => log[a].slot = NO_SLOT,
            1 => log[b].slot = first.slot,
            2 => (log[a].stream, log[a].block) = (0, 0),
            3 => {
                (log[a].stream, log[a].block) = (second.stream, second.block);
                (log[b].stream, log[b].block) = (first.stream, first.block);
            }
            4 => log[a].stream = last as u16,
            5 => log[a].block += 1,
            6 => morning.streams[usize::from(first.stream)].read += 1,
            7 => log[a].slot += 1,
            8 => log[a].stream = 0,
            9 => log[a].drive = 2,
            _ => drop(log.pop()),
        }
    }

    /// Tries every way, each on a copy.
    pub fn tried(morning: &Morning) -> Result<(), String> {
        let a = light_line(morning, 0);
        let b = light_line(morning, a + 1);
        for (way, name) in FORGERIES.iter().enumerate() {
            let mut forged = morning.clone();
            damage(&mut forged, way, a, b);
            match check(&forged) {
                Err(complaint) => println!("{name}: {complaint}"),
                Ok(_) => return Err(format!("{name}: NOT FOUND")),
            }
        }
        Ok(())
    }
}

/// What is handed over: certificates and the account.
#[cfg(any(linked, served))]
mod handed {
    use crate::check::Found;
    use crate::desk::{Morning, ALONE, C, CHECKING, LAPS};
    use std::fmt::Write as _;

    /// Which copy did you verify? The slot of each block that a stream read.
    fn certificate(out: &mut String, morning: &Morning, found: &[Found], name: usize) {
        let (read, length) = (found[name].blocks, morning.streams[name].length);
        writeln!(out, "Certificate of stream {name}: {read} of its {length} blocks were read").unwrap();
        out.push_str("block  start  drive  round  slot\n");
        for line in morning.log.iter().filter(|line| usize::from(line.stream) == name && line.block != 0) {
            let (block, start, drive, round, slot) = (line.block, line.start, line.drive + 1, line.round, line.slot);
            writeln!(out, "{block:5}  {start:5}  {drive:5}  {round:5}  {slot:4}").unwrap();
        }
        out.push('\n');
    }

    pub fn certificates(morning: &Morning, found: &[Found]) -> String {
        let mut out = String::new();
        for name in 1..found.len() {
            certificate(&mut out, morning, found, name);
        }
        out
    }

    /// The largest of each kind of wait, of several streams.
    pub fn most(all: impl IntoIterator<Item = Found>) -> Found {
        let mut most = Found::default();
        for found in all {
            if found.wait > most.wait {
                (most.wait, most.spacing) = (found.wait, found.spacing);
            }
            most.longest = most.longest.max(found.longest);
            most.turned = most.turned.max(found.turned);
        }
        most
    }

    fn waits(whose: &str, found: &[Found]) -> String {
        let most = most(found.iter().copied());
        format!(
            "longest wait of a {whose}, in slots: {} on one board, spacing {}; {} across a change; by plain weighted turn {}\n",
            most.wait, most.spacing, most.longest, most.turned
        )
    }

    fn refusals(answers: &[u64; 19]) -> String {
        let words = "DONE CAPACITY SHORT POSITION MIDROUND DAMAGED NAME WEIGHT TAKEN ABSENT ROOM OUTPUT BLOCK WAITING QUEUE TICKET POWER KIND GROUP";
        let mut out = String::from("refusals:");
        for (number, word) in words.split(' ').enumerate().skip(1).filter(|&(number, _)| answers[number] != 0) {
            write!(out, " {number} {word} {};", answers[number]).unwrap();
        }
        out + &format!(" changes done: {}\n", answers[0])
    }

    pub fn account(morning: &Morning, found: &[Found]) -> String {
        let (streams, restores) = (found.len() - 1, &found[CHECKING + 1..]);
        let held = restores.iter().filter(|found| found.blocks > 0).count();
        let blocks: u32 = found.iter().map(|found| found.blocks).sum();
        let whole = (1..found.len())
            .filter(|&name| found[name].blocks == morning.streams[name].length)
            .count();
        let (came, both, bytes, slots) = (restores.len(), LAPS - ALONE, morning.sheet_bytes, morning.log.len());
        let (waited, fetched, lost, waiting) = (morning.waited, morning.fetched, morning.lost, morning.waiting());
        let mut out = format!("streams: {CHECKING} checking, in one batch; {came} restores came, and {held} of them read\n");
        out += &format!("rounds: {ALONE} of one drive; a restart from a sheet of {bytes} bytes; {both} of each of two drives; C = {C}\n");
        out += &format!("slots: {slots}; blocks read: {blocks}\n");
        out += &format!("orders that waited: {waited}; fetched by ticket: {fetched}; ");
        out += &format!("lost at the restart and asked for again: {lost}; waiting still: {waiting}\n");
        out += &refusals(&morning.answers);
        out += &waits("checking stream", &found[1..=CHECKING]);
        out += &waits("restore", restores);
        out += &format!("certificates: {streams}, of which {whole} have every block of their copy\n");
        out += "checked from the log: in each round every stream is served its weight; while the board stands it waits at most its spacing;";
        out += " each block has its slot\n";
        out
    }
}

/// The picture: for each weight the longest waits of its streams.
#[cfg(any(linked, served))]
mod picture {
    use crate::check::Found;
    use crate::desk::C;
    use crate::handed::most;
    use std::fmt::Write as _;

    /// The largest weight in it.
    const WIDEST: usize = 50;

    /// Where a weight and a wait stand.
    fn right(weight: usize) -> usize {
        80 + 15 * weight
    }

    fn high(wait: usize) -> usize {
        480 - wait / 2
    }

    fn text(out: &mut String, x: usize, y: usize, rest: &str, words: &str) {
        writeln!(out, "<text x='{x}' y='{y}' fill='#222'{rest}>{words}</text>").unwrap();
    }

    fn line(out: &mut String, [x, y]: [usize; 2], [to_x, to_y]: [usize; 2], rest: &str) {
        writeln!(out, "<line x1='{x}' y1='{y}' x2='{to_x}' y2='{to_y}' {rest}/>").unwrap();
    }

    fn axes(out: &mut String) {
        let ink = "stroke='#222'";
        line(out, [right(0), high(0)], [right(WIDEST), high(0)], ink);
        line(out, [right(0), high(0)], [right(0), high(2 * C)], ink);
        for weight in (0..=WIDEST).step_by(10) {
            line(out, [right(weight), high(0)], [right(weight), high(0) + 6], ink);
            text(out, right(weight), high(0) + 20, " text-anchor='middle'", &weight.to_string());
        }
        for wait in (0..=2 * C).step_by(100) {
            line(out, [right(0) - 6, high(wait)], [right(0), high(wait)], ink);
            text(out, right(0) - 10, high(wait) + 4, " text-anchor='end'", &wait.to_string());
        }
        text(out, 455, 528, " text-anchor='middle'", "weight of the stream, in slots a round (linear)");
        let upright = " text-anchor='middle' transform='rotate(-90 24 280)'";
        text(out, 24, 280, upright, "longest wait, in slots (linear)");
        out.push_str("<polyline fill='none' stroke='#777' stroke-dasharray='5 4' points='");
        for weight in 1..=WIDEST {
            write!(out, "{},{} ", right(weight), high(C / weight)).unwrap();
        }
        out.push_str("'/>\n");
    }

    /// The marks: a disc on one board, a ring across a change, a square by plain weighted turn.
    fn disc(out: &mut String, x: usize, y: usize, fill: &str) {
        writeln!(out, "<circle cx='{x}' cy='{y}' r='3' fill='{fill}' stroke='#1b3a57'/>").unwrap();
    }

    fn square(out: &mut String, x: usize, y: usize) {
        let (x, y) = (x - 5, y - 5);
        writeln!(out, "<rect x='{x}' y='{y}' width='10' height='10' fill='#f5cba7' stroke='#7e3b00'/>").unwrap();
    }

    fn legend(out: &mut String) {
        disc(out, 404, 100, "#1b3a57");
        text(out, 428, 104, "", "slot board, from serve to serve on one board");
        disc(out, 404, 124, "#fff");
        text(out, 428, 128, "", "slot board, from before a change of the board to after it");
        square(out, 404, 148);
        text(out, 428, 152, "", "plain weighted turn on the same streams");
        line(out, [390, 172], [418, 172], "stroke='#777' stroke-dasharray='5 4'");
        text(out, 428, 176, "", "C / weight");
    }

    pub fn waits(found: &[Found]) -> String {
        let mut out = String::from("<svg xmlns='http://www.w3.org/2000/svg' viewBox='0 0 860 550' width='860' height='550'");
        out.push_str(" font-family='sans-serif' font-size='13'>\n<rect width='860' height='550' fill='#fff'/>\n");
        let title = "The longest waits by weight: a morning of 300 rounds, 400 slots in each";
        text(&mut out, 24, 36, " font-size='18'", title);
        axes(&mut out);
        for weight in 1..=WIDEST {
            let of = most(found.iter().copied().filter(|found| found.weight == weight));
            if of.turned > 0 {
                square(&mut out, right(weight), high(of.turned));
            }
            if of.longest > of.wait {
                disc(&mut out, right(weight), high(of.longest), "#fff");
            }
            if of.wait > 0 {
                disc(&mut out, right(weight), high(of.wait), "#1b3a57");
            }
        }
        legend(&mut out);
        out.push_str("</svg>\n");
        out
    }
}
