//! The library's walk beside the one by the letter: the answer and every mark, over rounds from clear marks and from any marks.
use mandrozsi::raw::{mandrozsi_walk, Said};
use mandrozsi::Walked;
use paper::tree::{self, compare};

#[cfg(not(linked))]
#[path = "boundary/served.rs"]
mod served;

fn boundary(c: u16, board: &[u16], marks: &mut [u16]) -> tree::Walked {
    // SAFETY: pointer and length are of one slice, lent for the call alone.
    let Said {
        number,
        first,
        second,
        third,
        fourth,
    } = unsafe { mandrozsi_walk(c, board.as_ptr(), board.len(), marks.as_mut_ptr(), marks.len()) };
    assert_eq!((third, fourth), (0, 0));
    tree::Walked {
        number: u16::try_from(number).expect("the library's numbers are small"),
        name: first,
        leaf: second,
    }
}

fn safe(c: u16, board: &[u16], marks: &mut [u16]) -> tree::Walked {
    let (number, Walked { name, leaf }) = match mandrozsi::walk(c, board, marks) {
        Ok(walked) => (0, walked),
        Err(why) => (why.number(), Walked { name: 0, leaf: 0 }),
    };
    tree::Walked {
        number,
        name: name.into(),
        leaf: leaf.into(),
    }
}

#[test]
#[cfg_attr(
    not(any(linked, served)),
    ignore = "there is no library to call: .ci/bindings builds it and runs this test"
)]
fn the_walk_is_the_letter() {
    println!("the boundary: {} walks compared", compare(boundary));
    println!("the safe types: {} walks compared", compare(safe));
}
