//! A drive with four streams for one round, of which one is removed while the round runs; then its board is saved and read back. `cargo run --example board`.
#[cfg(served)]
#[path = "../tests/boundary/served.rs"]
mod served;

#[cfg(any(linked, served))]
fn main() -> Result<(), mandrozsi::Refusal> {
    use mandrozsi::{fetch, Change, Drive, LIST};

    let (mut board, mut list) = ([0u16; 16], [0u64; LIST]);
    let mut drive = Drive::open(16, &mut board, &mut list)?;
    for (name, weight) in [(1, 1), (2, 2), (3, 4), (4, 4)] {
        println!("stream {name} of weight {weight}: {:?}", drive.add(&mut board, &mut list, name, weight)?);
    }
    println!("stream 3: {:?}", drive.report(&board, 3)?);
    print!("round {}:", drive.round);
    print!(" {}", drive.slot(&mut board, &mut list)?.name);
    let waiting = drive.remove(&mut board, &mut list, 4)?;
    for _ in 1..16 {
        print!(" {}", drive.slot(&mut board, &mut list)?.name);
    }
    println!();
    let Change::Waiting { ticket } = waiting else {
        panic!("a remove in the middle of a round waits")
    };
    let before = fetch(&mut list, ticket);
    let first = drive.slot(&mut board, &mut list)?.name;
    println!(
        "ticket {ticket}: {before:?}; the next round's first slot serves {first}, and then: {:?}",
        fetch(&mut list, ticket)
    );
    while drive.position != 1 {
        drive.slot(&mut board, &mut list)?;
    }

    let mut sheet = vec![0; drive.sheet_bytes()];
    let bytes = drive.save(&board, &mut sheet)?;
    let mut again = [0u16; 16];
    let read = Drive::read(&sheet[..bytes], &mut again, &mut list)?;
    // A board that is read starts from round 0 again.
    assert_eq!((read, again), (Drive { round: 0, ..drive }, board));
    println!("saved in {bytes} bytes at round {} and read back", drive.round);
    Ok(())
}

#[cfg(not(any(linked, served)))]
fn main() {
    println!("built without the static library: see build.rs");
}
