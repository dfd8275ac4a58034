//! Document 02, No. 2, by the letter: the waiting list of 64 orders, and the calls that are lent it, over the calls of any version that are made at
//! once.
//!
//! The list is lent as numbers: the last ticket given, how many answers are to be fetched, how many orders wait, and 64 places of four, answers
//! before orders. What means nothing stays as it was.
use crate::drives::bounds;
use crate::{at, Answer, Record, Records};

/// A version's calls that are made at once.
pub trait AtOnce {
    fn open(capacity: u16, board: &mut [u16]) -> Answer;
    fn add(record: Record, board: &mut [u16], name: u16, weight: u16) -> Answer;
    fn remove(record: Record, board: &mut [u16], name: u16) -> Answer;
    fn fresh(record: Record, board: &mut [u16]) -> Answer;
    fn slot(record: Record, board: &[u16]) -> Answer;
    fn round(record: Record, board: &[u16], output: &mut [u16]) -> Answer;
    fn report(record: Record, board: &[u16], name: u16) -> Answer;
    fn save(record: Record, board: &[u16], output: &mut [u8]) -> Answer;
    fn read(sheet: &[u8], board: &mut [u16]) -> Answer;
    fn good(leaves: &[u16]) -> bool;
}

pub const LENGTH: usize = 259;
pub const PLACES: usize = 64;

const SHORT: u16 = 2;
const WEIGHT: u16 = 7;
const WAITING: u16 = 13;
const QUEUE: u16 = 14;

/// What a caller asks for.
#[derive(Clone, Copy, Debug, PartialEq, Eq)]
pub struct Order {
    pub kind: u16,
    pub name: u16,
    pub weight: u16,
}

/// "An add", "a remove".
pub fn add_order(name: u16, weight: u16) -> Order {
    Order { kind: 1, name, weight }
}

pub fn remove_order(name: u16) -> Order {
    Order { kind: 2, name, weight: 0 }
}

/// How many answers are to be fetched and how many orders wait: never more than there are places.
pub(crate) fn counts(list: &[u64]) -> (usize, usize) {
    let answers = list[1].min(PLACES as u64) as usize;
    (answers, list[2].min((PLACES - answers) as u64) as usize)
}

/// The four numbers of a place.
fn place(list: &[u64], i: usize) -> [u64; 4] {
    list[3 + 4 * i..7 + 4 * i].try_into().unwrap()
}

fn order_in([_, kind, name, weight]: [u64; 4]) -> Order {
    Order {
        kind: kind as u16,
        name: name as u16,
        weight: weight as u16,
    }
}

/// "Goes on a waiting list of 64 orders and answers WAITING"; "14 QUEUE comes in its stead when 64 places are taken or the tickets are used up".
pub(crate) fn take(record: Record, list: &mut [u64], order: Order) -> Answer {
    let (answers, orders) = counts(list);
    let taken = answers + orders;
    let Some(ticket) = list[0].checked_add(1).filter(|_| taken < PLACES) else {
        return Answer::refused(record, QUEUE);
    };
    list[3 + 4 * taken..7 + 4 * taken].copy_from_slice(&[ticket, order.kind.into(), order.name.into(), order.weight.into()]);
    list[..3].copy_from_slice(&[ticket, answers as u64, orders as u64 + 1]);
    Answer {
        values: [ticket, 0, 0, 0],
        ..Answer::refused(record, WAITING)
    }
}

/// One order "by the usual checks" of a change made at once.
fn carry_out<P: AtOnce>(record: Record, board: &mut [u16], order: Order) -> Answer {
    match order.kind {
        1 => P::add(record, board, order.name, order.weight),
        2 => P::remove(record, board, order.name),
        _ => Answer::refused(record, WEIGHT),
    }
}

/// "Carries out the list in arrival order .. and leaves each answer to be fetched once by its ticket."
pub(crate) fn run(list: &mut [u64], mut carry_out: impl FnMut(Order) -> Answer) {
    let (answers, orders) = counts(list);
    for i in answers..answers + orders {
        let said = carry_out(order_in(place(list, i)));
        list[4 + 4 * i] = said.number.into();
        list[5 + 4 * i] = said.values[0];
    }
    list[1..3].copy_from_slice(&[(answers + orders) as u64, 0]);
}

fn change<P: AtOnce>(records: Records, board: &mut [u16], list: &mut [u64], order: Order) -> Answer {
    let record = records.own;
    if let Some(number) = bounds::<P>(records, board, list.len() < LENGTH) {
        return Answer::refused(record, number);
    }
    if records.start() && counts(list).1 == 0 {
        return carry_out::<P>(record, board, order);
    }
    // "After checks 1 to 3 and 5 to 7": a remove has no weight to look at.
    let leaves = &board[..record.capacity.into()];
    let refused = [(5, !P::good(leaves)), (6, order.name == 0), (7, order.kind != 2 && order.weight == 0)];
    match refused.into_iter().find(|&(_, applies)| applies) {
        Some((number, _)) => Answer::refused(record, number),
        None => take(record, list, order),
    }
}

pub fn add<P: AtOnce>(records: impl Into<Records>, board: &mut [u16], list: &mut [u64], name: u16, weight: u16) -> Answer {
    change::<P>(records.into(), board, list, add_order(name, weight))
}

pub fn remove<P: AtOnce>(records: impl Into<Records>, board: &mut [u16], list: &mut [u64], name: u16) -> Answer {
    change::<P>(records.into(), board, list, remove_order(name))
}

/// "The slot call at p = 1 carries out the list .. before it picks the leaf"; with two drives "the slot call that finds both there".
pub fn slot<P: AtOnce>(records: impl Into<Records>, board: &mut [u16], list: &mut [u64]) -> Answer {
    let records = records.into();
    let record = records.own;
    if let Some(number) = bounds::<P>(records, board, list.len() < LENGTH) {
        return Answer::refused(record, number);
    }
    if records.start() {
        run(list, |order| carry_out::<P>(record, board, order));
    }
    P::slot(record, board)
}

/// "An accepted open or read empties the list"; the tickets go on.
pub(crate) fn empty(list: &mut [u64]) {
    list[1..3].fill(0);
}

pub fn open<P: AtOnce>(capacity: u16, board: &mut [u16], list: &mut [u64]) -> Answer {
    let mut opened = board.to_vec();
    let answer = P::open(capacity, &mut opened);
    if answer.number != 0 {
        return answer;
    }
    if list.len() < LENGTH {
        return Answer::refused(at(0, 0), SHORT);
    }
    board.copy_from_slice(&opened);
    empty(list);
    answer
}

/// A list that is too short is 2 where a board that is too short is: after 1 and before the rest of the layout.
pub fn read<P: AtOnce>(sheet: &[u8], board: &mut [u16], list: &mut [u64]) -> Answer {
    if list.len() < LENGTH {
        let early = P::read(sheet, &mut []);
        return if early.number == 0 { Answer::refused(at(0, 0), SHORT) } else { early };
    }
    let answer = P::read(sheet, board);
    if answer.number == 0 {
        empty(list);
    }
    answer
}

/// "A fetch answers 13 while the order waits, 15 TICKET for no known ticket", else what the order was answered: the number and the value. It looks at
/// nothing but the list.
pub fn fetch(list: &mut [u64], ticket: u64) -> (u64, u64) {
    const NO_SUCH: (u64, u64) = (15, 0);
    if list.len() < LENGTH || ticket == 0 {
        return NO_SUCH;
    }
    let (answers, orders) = counts(list);
    let taken = answers + orders;
    match (0..taken).find(|&i| place(list, i)[0] == ticket) {
        None => NO_SUCH,
        Some(i) if i >= answers => (WAITING.into(), ticket),
        Some(i) => {
            let [_, number, value, _] = place(list, i);
            // "A place is free again when its answer is fetched": the later ones move up, in their order.
            list.copy_within(7 + 4 * i..3 + 4 * taken, 3 + 4 * i);
            list[1..3].copy_from_slice(&[answers as u64 - 1, orders as u64]);
            (number, value)
        }
    }
}
