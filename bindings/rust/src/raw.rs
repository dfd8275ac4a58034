//! The boundary as it stands: the functions of the static library. A slice is a pointer that is never null, and then a length; two slices of one
//! call do not overlap.
use crate::{Drive, Entry};
#[cfg(doc)]
use crate::{Pair, Shares};

/// What a call says. A value that an answer does not have is 0.
#[repr(C)]
#[derive(Clone, Copy, Debug, PartialEq, Eq)]
pub struct Said {
    /// 0 for done, else the answer's number.
    pub number: u64,
    /// Idle leaves, a ticket, bytes written, a name or a weight, as the call has it.
    pub first: u64,
    /// A leaf, or a number of pieces.
    pub second: u64,
    /// The terms passed over, or a spacing.
    pub third: u64,
    /// The number of a slot's round.
    pub fourth: u64,
}

/// What a function gives back.
#[repr(C)]
#[derive(Clone, Copy, Debug, PartialEq, Eq)]
pub struct Reply {
    /// The record: moved on by a slot that is done, made by a call that starts a board, and else as it was given.
    pub drive: Drive,
    /// What the call says.
    pub said: Said,
}

extern "C" {
    /// [`Drive::open`].
    pub fn mandrozsi_open(capacity: u16, board: *mut u16, entries: usize, list: *mut u64, numbers: usize) -> Reply;
    /// [`Drive::add`].
    pub fn mandrozsi_add(drive: Drive, board: *mut u16, entries: usize, list: *mut u64, numbers: usize, name: u16, weight: u16) -> Reply;
    /// [`Drive::remove`].
    pub fn mandrozsi_remove(drive: Drive, board: *mut u16, entries: usize, list: *mut u64, numbers: usize, name: u16) -> Reply;
    /// [`Drive::slot`].
    pub fn mandrozsi_slot(drive: Drive, board: *mut u16, entries: usize, list: *mut u64, numbers: usize) -> Reply;
    /// [`Drive::round`].
    pub fn mandrozsi_round(drive: Drive, board: *const u16, entries: usize, output: *mut u16, length: usize) -> Reply;
    /// [`Drive::report`].
    pub fn mandrozsi_report(drive: Drive, board: *const u16, entries: usize, name: u16) -> Reply;
    /// [`Drive::save`].
    pub fn mandrozsi_save(drive: Drive, board: *const u16, entries: usize, output: *mut u8, length: usize) -> Reply;
    /// [`Drive::read`].
    pub fn mandrozsi_read(sheet: *const u8, length: usize, board: *mut u16, entries: usize, list: *mut u64, numbers: usize) -> Reply;
    /// [`Drive::save_pieces`].
    pub fn mandrozsi_save_pieces(drive: Drive, board: *const u16, entries: usize, output: *mut u8, length: usize) -> Reply;
    /// [`Drive::read_pieces`].
    pub fn mandrozsi_read_pieces(sheet: *const u8, length: usize, board: *mut u16, entries: usize, list: *mut u64, numbers: usize) -> Reply;
    /// [`to_pieces`](crate::to_pieces).
    pub fn mandrozsi_to_pieces(sheet: *const u8, bytes: usize, output: *mut u8, length: usize) -> Said;
    /// [`to_leaves`](crate::to_leaves).
    pub fn mandrozsi_to_leaves(sheet: *const u8, bytes: usize, output: *mut u8, length: usize) -> Said;
    /// [`fetch`](crate::fetch).
    pub fn mandrozsi_fetch(list: *mut u64, numbers: usize, ticket: u64) -> Said;
    /// [`Drive::fresh`].
    pub fn mandrozsi_fresh(drive: Drive, board: *mut u16, entries: usize) -> Reply;
    /// [`Pair::add`].
    pub fn mandrozsi_pair_add(
        own: Drive,
        other: Drive,
        board: *mut u16,
        entries: usize,
        list: *mut u64,
        numbers: usize,
        name: u16,
        weight: u16,
    ) -> Reply;
    /// [`Pair::remove`].
    pub fn mandrozsi_pair_remove(own: Drive, other: Drive, board: *mut u16, entries: usize, list: *mut u64, numbers: usize, name: u16) -> Reply;
    /// [`Pair::slot`].
    pub fn mandrozsi_pair_slot(own: Drive, other: Drive, board: *mut u16, entries: usize, list: *mut u64, numbers: usize) -> Reply;
    /// [`Pair::round`].
    pub fn mandrozsi_pair_round(own: Drive, other: Drive, board: *const u16, entries: usize, output: *mut u16, length: usize) -> Reply;
    /// [`Pair::report`].
    pub fn mandrozsi_pair_report(own: Drive, other: Drive, board: *const u16, entries: usize, name: u16) -> Reply;
    /// [`Pair::save`].
    pub fn mandrozsi_pair_save(own: Drive, other: Drive, board: *const u16, entries: usize, output: *mut u8, length: usize) -> Reply;
    /// [`Pair::save_pieces`].
    pub fn mandrozsi_pair_save_pieces(own: Drive, other: Drive, board: *const u16, entries: usize, output: *mut u8, length: usize) -> Reply;
    /// [`Pair::fresh`].
    pub fn mandrozsi_pair_fresh(own: Drive, other: Drive, board: *mut u16, entries: usize) -> Reply;
    /// [`Pair::batch`], and [`Drive::batch`] with one record in both places: the own record as it was.
    pub fn mandrozsi_pair_batch(
        own: Drive,
        other: Drive,
        board: *mut u16,
        entries: usize,
        list: *mut u64,
        numbers: usize,
        table: *mut Entry,
        changes: usize,
    ) -> Drive;
    /// [`Pair::slot`] on the record where it lies.
    pub fn mandrozsi_pair_slot_here(own: *mut Drive, other: Drive, board: *mut u16, entries: usize, list: *mut u64, numbers: usize) -> Said;
    /// [`Shares::open`].
    pub fn mandrozsi_share_open(
        capacity: u16,
        board: *mut u16,
        entries: usize,
        list: *mut u64,
        numbers: usize,
        rates: *mut u16,
        rated: usize,
        owed: *mut u16,
        owing: usize,
        owed_other: *mut u16,
        other_owing: usize,
    ) -> Reply;
    /// [`Shares::read`].
    pub fn mandrozsi_share_read(
        sheet: *const u8,
        length: usize,
        board: *mut u16,
        entries: usize,
        list: *mut u64,
        numbers: usize,
        rates: *mut u16,
        rated: usize,
        owed: *mut u16,
        owing: usize,
        owed_other: *mut u16,
        other_owing: usize,
    ) -> Reply;
    /// [`Shares::add`].
    pub fn mandrozsi_share_add(
        own: Drive,
        other: Drive,
        board: *mut u16,
        entries: usize,
        list: *mut u64,
        numbers: usize,
        rates: *mut u16,
        rated: usize,
        owed: *mut u16,
        owing: usize,
        owed_other: *mut u16,
        other_owing: usize,
        name: u16,
        weight: u16,
    ) -> Reply;
    /// [`Shares::over`].
    pub fn mandrozsi_share_over(
        own: Drive,
        other: Drive,
        board: *mut u16,
        entries: usize,
        list: *mut u64,
        numbers: usize,
        rates: *mut u16,
        rated: usize,
        owed: *mut u16,
        owing: usize,
        owed_other: *mut u16,
        other_owing: usize,
        name: u16,
        weight: u16,
    ) -> Reply;
    /// [`Shares::remove`].
    pub fn mandrozsi_share_remove(
        own: Drive,
        other: Drive,
        board: *mut u16,
        entries: usize,
        list: *mut u64,
        numbers: usize,
        rates: *mut u16,
        rated: usize,
        owed: *mut u16,
        owing: usize,
        owed_other: *mut u16,
        other_owing: usize,
        name: u16,
    ) -> Reply;
    /// [`Shares::slot`].
    pub fn mandrozsi_share_slot(
        own: Drive,
        other: Drive,
        board: *mut u16,
        entries: usize,
        list: *mut u64,
        numbers: usize,
        rates: *mut u16,
        rated: usize,
        owed: *mut u16,
        owing: usize,
        owed_other: *mut u16,
        other_owing: usize,
    ) -> Reply;
    /// [`Shares::round`].
    pub fn mandrozsi_share_round(
        own: Drive,
        other: Drive,
        board: *const u16,
        entries: usize,
        rates: *const u16,
        rated: usize,
        owed: *const u16,
        owing: usize,
        owed_other: *const u16,
        other_owing: usize,
        output: *mut u16,
        length: usize,
    ) -> Reply;
    /// [`Shares::report`].
    pub fn mandrozsi_share_report(
        own: Drive,
        other: Drive,
        board: *const u16,
        entries: usize,
        rates: *const u16,
        rated: usize,
        owed: *const u16,
        owing: usize,
        owed_other: *const u16,
        other_owing: usize,
        name: u16,
    ) -> Reply;
    /// [`Shares::save`].
    pub fn mandrozsi_share_save(
        own: Drive,
        other: Drive,
        board: *const u16,
        entries: usize,
        rates: *const u16,
        rated: usize,
        owed: *const u16,
        owing: usize,
        owed_other: *const u16,
        other_owing: usize,
        output: *mut u8,
        length: usize,
    ) -> Reply;
    /// [`Shares::save_pieces`].
    pub fn mandrozsi_share_save_pieces(
        own: Drive,
        other: Drive,
        board: *const u16,
        entries: usize,
        rates: *const u16,
        rated: usize,
        owed: *const u16,
        owing: usize,
        owed_other: *const u16,
        other_owing: usize,
        output: *mut u8,
        length: usize,
    ) -> Reply;
    /// [`Shares::read_pieces`].
    pub fn mandrozsi_share_read_pieces(
        sheet: *const u8,
        length: usize,
        board: *mut u16,
        entries: usize,
        list: *mut u64,
        numbers: usize,
        rates: *mut u16,
        rated: usize,
        owed: *mut u16,
        owing: usize,
        owed_other: *mut u16,
        other_owing: usize,
    ) -> Reply;
    /// [`Shares::fresh`].
    pub fn mandrozsi_share_fresh(
        own: Drive,
        other: Drive,
        board: *mut u16,
        entries: usize,
        rates: *mut u16,
        rated: usize,
        owed: *mut u16,
        owing: usize,
        owed_other: *mut u16,
        other_owing: usize,
    ) -> Reply;
    /// [`Shares::batch`].
    pub fn mandrozsi_share_batch(
        own: Drive,
        other: Drive,
        board: *mut u16,
        entries: usize,
        list: *mut u64,
        numbers: usize,
        rates: *mut u16,
        rated: usize,
        owed: *mut u16,
        owing: usize,
        owed_other: *mut u16,
        other_owing: usize,
        table: *mut Entry,
        changes: usize,
    ) -> Drive;
    /// [`Shares::slot`] on the record where it lies.
    pub fn mandrozsi_share_slot_here(
        own: *mut Drive,
        other: Drive,
        board: *mut u16,
        entries: usize,
        list: *mut u64,
        numbers: usize,
        rates: *mut u16,
        rated: usize,
        owed: *mut u16,
        owing: usize,
        owed_other: *mut u16,
        other_owing: usize,
    ) -> Said;
    /// [`import`](crate::import).
    pub fn mandrozsi_import(
        capacity: u16,
        starts: *const u16,
        given: usize,
        names: *const u16,
        streams: usize,
        board: *mut u16,
        entries: usize,
        list: *mut u64,
        numbers: usize,
        output: *mut u16,
        length: usize,
    ) -> Reply;
    /// [`Shares::import`].
    pub fn mandrozsi_share_import(
        capacity: u16,
        starts: *const u16,
        given: usize,
        names: *const u16,
        streams: usize,
        board: *mut u16,
        entries: usize,
        list: *mut u64,
        numbers: usize,
        rates: *mut u16,
        rated: usize,
        owed: *mut u16,
        owing: usize,
        owed_other: *mut u16,
        other_owing: usize,
        output: *mut u16,
        length: usize,
    ) -> Reply;
    /// [`walk`](crate::walk).
    pub fn mandrozsi_walk(capacity: u16, board: *const u16, entries: usize, marks: *mut u16, length: usize) -> Said;
}
