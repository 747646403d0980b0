//! The archive of Limekeel as it is: what it exports, and the three functions through which it takes memory.
//!
//! The crate `limekeel` is for use; `limekeel.h` says what each call does. The archive is in this crate as assembly,
//! `limekeel.s`, whose head says what proved it, or else in the folder that `LIMEKEEL_LIB_DIR` names when this is built.
//! It allocates by the `malloc` of the C library, or with the feature `global-allocator` by Rust's global allocator.
//! `ffi/check_edge` of the repository compares these declarations with the sources of the archive and with the header, name
//! by name and type by type.

#![no_std]

use core::mem::offset_of;

#[cfg(not(all(target_os = "linux", target_arch = "x86_64", target_pointer_width = "64")))]
compile_error!("limekeel is compiled for x86-64 Linux alone");

#[cfg(not(limekeel_lib_dir))]
mod assembled;
#[cfg(any(not(limekeel_lib_dir), feature = "global-allocator"))]
#[cfg_attr(feature = "global-allocator", path = "global.rs")]
mod heap;

/// As many pieces as Linux takes in one `sendmsg` or `writev`.
pub const PIECES: usize = 1024;

/// A number of these declarations, which `limekeel_open_for` compares with the archive's.
pub const EDGE: u32 = 409770010;

macro_rules! numbers {
    ($($name:ident = $number:literal),* $(,)?) => {
        $(#[allow(missing_docs)] pub const $name: u32 = $number;)*
    };
}

// The numbers of the header, by its names without `LIMEKEEL_`.
numbers! {
    OK = 0, OVERSIZE = 1, BAD_MARKS = 2, TOO_MUCH = 3, CLOSED = 4, NOTHING_FLUSHED = 5, TOO_FAR = 6, TOO_MANY_BYTES = 7,
    BAD_INDEX = 8, FLUSHED_LEFT = 9, UNKNOWN_PROMISE = 10, NO_MEMORY = 12, NOT_OPEN = 13, ALREADY_OPEN = 14,
    BAD_ESTIMATE = 15, NO_BLOCK = 16, OTHER_VERSION = 17, BUSY = 18, FINISHING = 19, FULL = 20,
    OVER_BUDGET = 21, BAD_BOUNDS = 22,
    UNCHANGED = 0, UNWRITABLE = 1, WRITABLE = 2,
    PRESSURE_UNCHANGED = 0, PRESSURE_BEGAN = 1, PRESSURE_ENDED = 2,
    NO_OUTCOME = 0, SUCCESS = 1, FAILED = 2, CANCELLED = 3,
    UNKNOWN = 0, WAITING = 1, FIXED = 2, SETTLED = 3, SETTLED_BEFORE = 4,
    FRONT_NOTHING = 0, FRONT_BLOCKS = 1, FRONT_EMPTY_BLOCKS = 2, FRONT_REGION = 3, FRONT_OTHER = 4,
    CURRENT_NOTHING = 0, CURRENT_BLOCK = 1, CURRENT_REGION = 2, CURRENT_OTHER = 3,
}

macro_rules! plain {
    ($($(#[$note:meta])* $name:ident $size:literal { $($field:ident at $offset:literal: $kind:ty),* $(,)? })*) => {
        $(
            $(#[$note])*
            #[repr(C)]
            #[derive(Clone, Copy, Debug)]
            pub struct $name { $(#[allow(missing_docs)] pub $field: $kind),* }

            // as the header asserts of its structs
            const _: () = assert!(size_of::<$name>() == $size $(&& offset_of!($name, $field) == $offset)*);
        )*
    };
}

/// A connection: null, or a pointer that owns one. It is freed by `limekeel_free` alone.
#[repr(C)]
#[derive(Debug)]
pub struct Connection {
    /// The archive's.
    pub at: *mut u8,
}

/// A block: null, or a pointer that owns one. It is freed by `limekeel_block_free` alone.
#[repr(C)]
#[derive(Debug)]
pub struct Block {
    /// The archive's.
    pub at: *mut u8,
}

/// A handle of a connection that several threads use: null, or a pointer that owns one. It is freed by
/// `limekeel_shared_free` alone.
#[repr(C)]
#[derive(Debug)]
pub struct Shared {
    /// The archive's.
    pub at: *mut u8,
}

/// The handle of such a connection that sends: null, or a pointer that owns one. It is freed by `limekeel_transport_free`
/// alone.
#[repr(C)]
#[derive(Debug)]
pub struct Transport {
    /// The archive's.
    pub at: *mut u8,
}

/// A managed connection: null, or a pointer that owns one. It is freed by `limekeel_managed_free` alone.
#[repr(C)]
#[derive(Debug)]
pub struct Managed {
    /// The archive's.
    pub at: *mut u8,
}

/// A handle of a budget: null, or a pointer that owns one. It is freed by `limekeel_budget_free` alone.
#[repr(C)]
#[derive(Debug)]
pub struct Budget {
    /// The archive's.
    pub at: *mut u8,
}

/// A connection that a budget covers: null, or a pointer that owns one. It is freed by `limekeel_budgeted_free` alone.
#[repr(C)]
#[derive(Debug)]
pub struct Budgeted {
    /// The archive's.
    pub at: *mut u8,
}

// Each struct with its size, and each field with its offset.
plain! {
    /// `struct limekeel_piece`.
    Piece 16 { at at 0: *const u8, length at 8: usize }
    /// `struct limekeel_written`.
    Written 16 { status at 0: u32, change at 4: u32, id at 8: u64 }
    /// `struct limekeel_flushed`.
    Flushed 16 { status at 0: u32, change at 4: u32, count at 8: u64 }
    /// `struct limekeel_written_and_flushed`.
    WrittenAndFlushed 32 {
        status at 0: u32, change at 4: u32, id at 8: u64, flush_change at 16: u32, count at 24: u64,
    }
    /// `struct limekeel_removed`.
    Removed 32 {
        status at 0: u32, change at 4: u32, any at 8: bool, settled at 9: bool, outcome at 12: u32, cause at 16: u32,
        id at 24: u64,
    }
    /// `struct limekeel_taken`.
    Taken 40 {
        status at 0: u32, change at 4: u32, outcome at 8: u32, cause at 12: u32, count at 16: u64, from at 24: u64,
        to at 32: u64,
    }
    /// `struct limekeel_cancelled`.
    Cancelled 8 { status at 0: u32, in_time at 4: bool }
    /// `struct limekeel_changed`.
    Changed 8 { status at 0: u32, change at 4: u32 }
    /// `struct limekeel_look_told`.
    Look 40 {
        status at 0: u32, total at 4: u32, word at 8: u32, before_unwritable at 12: u32, before_writable at 16: u32,
        size at 24: u64, current_progress at 32: u64,
    }
    /// `struct limekeel_counts_told`.
    Counts 24 { status at 0: u32, unflushed at 8: u64, waiting at 16: u64 }
    /// `struct limekeel_settings_told`.
    Settings 20 { status at 0: u32, low at 4: u32, high at 8: u32, overhead at 12: u32, unknown at 16: u32 }
    /// `struct limekeel_truth`.
    Truth 8 { status at 0: u32, holds at 4: bool }
    /// `struct limekeel_promise_told`.
    Promise 16 { status at 0: u32, state at 4: u32, outcome at 8: u32, cause at 12: u32 }
    /// `struct limekeel_front_told`.
    Front 16 { status at 0: u32, any at 4: bool, id at 8: u64 }
    /// `struct limekeel_current_told`.
    Current 16 { status at 0: u32, kind at 4: u32, number at 8: u64 }
    /// `struct limekeel_gathered`.
    Gathered 16 { status at 0: u32, front at 4: u32, count at 8: usize }
    /// `struct limekeel_glance`.
    Glance 12 { status at 0: u32, word at 4: u32, total at 8: u32 }
    /// `struct limekeel_laid`.
    Laid 16 { status at 0: u32, count at 8: usize }
    /// `struct limekeel_told_done`.
    ToldDone 8 { status at 0: u32, finished at 4: bool }
    /// `struct limekeel_told_flushed`.
    ToldFlushed 24 { flushed at 0: Flushed, finished at 16: bool }
    /// `struct limekeel_told_removed`.
    ToldRemoved 40 { removed at 0: Removed, finished at 32: bool }
    /// `struct limekeel_told_taken`.
    ToldTaken 48 { taken at 0: Taken, finished at 40: bool }
    /// `struct limekeel_told_cancelled`.
    ToldCancelled 12 { cancelled at 0: Cancelled, finished at 8: bool }
    /// `struct limekeel_told_changed`.
    ToldChanged 12 { changed at 0: Changed, finished at 8: bool }
    /// `struct limekeel_budget_told`.
    BudgetTold 16 { status at 0: u32, is_pressed at 4: bool, total at 8: u64 }
    /// `struct limekeel_seat_told`.
    SeatTold 16 { status at 0: u32, is_within at 4: bool, held at 8: u64 }
    /// `struct limekeel_pressed_done`.
    PressedDone 8 { status at 0: u32, pressure at 4: u32 }
    /// `struct limekeel_pressed_written`.
    PressedWritten 16 { status at 0: u32, change at 4: u16, pressure at 6: u16, id at 8: u64 }
    PressedWrittenAndFlushed 40 { done at 0: WrittenAndFlushed, pressure at 32: u32 }
    /// `struct limekeel_pressed_flushed`.
    PressedFlushed 16 { status at 0: u32, change at 4: u16, pressure at 6: u16, count at 8: u64 }
    /// `struct limekeel_pressed_removed`.
    PressedRemoved 40 { removed at 0: Removed, pressure at 32: u32 }
    /// `struct limekeel_pressed_taken`.
    PressedTaken 48 { taken at 0: Taken, pressure at 40: u32 }
    /// `struct limekeel_pressed_cancelled`.
    PressedCancelled 12 { cancelled at 0: Cancelled, pressure at 8: u32 }
    /// `struct limekeel_pressed_changed`.
    PressedChanged 12 { changed at 0: Changed, pressure at 8: u32 }
    /// `struct limekeel_standing`.
    Standing 16 { status at 0: u32, writable at 4: bool, closed at 5: bool, empty at 6: bool, held at 8: u64 }
    /// `struct limekeel_state`.
    State 12 {
        status at 0: u32, writable at 4: bool, closed at 5: bool, empty at 6: bool, finishing at 7: bool,
        finished at 8: bool,
    }
    /// `struct limekeel_count`.
    Count 16 { messages at 0: u64, bytes at 8: u64 }
    /// `struct limekeel_refusals`.
    Refusals 96 {
        closed at 0: u64, finishing at 8: u64, oversize at 16: u64, full at 24: u64, too_much at 32: u64,
        no_memory at 40: u64, nothing_flushed at 48: u64, too_far at 56: u64, too_many_bytes at 64: u64,
        bad_index at 72: u64, flushed_left at 80: u64, unknown_promise at 88: u64,
    }
    /// `struct limekeel_numbers`.
    Numbers 208 {
        status at 0: u32, accepted at 8: Count, sent at 24: Count, failed at 40: Count, cancelled at 56: Count,
        pending at 72: Count, peak at 88: u64, stops at 96: u64, stopped at 104: u64, refusals at 112: Refusals,
    }
}

const _: () = assert!(size_of::<Connection>() == 8 && size_of::<Block>() == 8);
const _: () = assert!(size_of::<Budget>() == 8 && size_of::<Budgeted>() == 8);
const _: () = assert!(size_of::<Shared>() == 8 && size_of::<Transport>() == 8 && size_of::<Managed>() == 8);

#[allow(missing_docs)]
unsafe extern "C" {
    pub fn limekeel_open_for(
        connection: *mut Connection,
        edge: u32,
        low: u32,
        high: u32,
        overhead: u32,
        unknown: u32,
    ) -> u32;
    pub fn limekeel_shrink_to_fit(connection: *mut Connection) -> u32;
    pub fn limekeel_note_newest(connection: *mut Connection) -> u32;
    pub fn limekeel_managed_note_newest(managed: *mut Managed) -> u32;
    pub fn limekeel_budgeted_note_newest(budgeted: *mut Budgeted) -> u32;
    pub fn limekeel_free(connection: *mut Connection) -> u32;
    pub fn limekeel_block_of_bytes(block: *mut Block, bytes: *const u8, length: usize) -> u32;
    pub fn limekeel_block_share(block: *const Block, second: *mut Block) -> u32;
    pub fn limekeel_block_piece(block: *const Block, piece: *mut Piece) -> u32;
    pub fn limekeel_block_free(block: *mut Block) -> u32;
    pub fn limekeel_write_bytes(connection: *mut Connection, bytes: *const u8, length: usize) -> Written;
    pub fn limekeel_write_lent_bytes(connection: *mut Connection, bytes: *const u8, length: usize) -> Written;
    pub fn limekeel_write_pieces(connection: *mut Connection, parts: *const Piece, length: usize) -> Written;
    pub fn limekeel_write_block(connection: *mut Connection, block: *const Block) -> Written;
    pub fn limekeel_write_region(connection: *mut Connection, length: u64) -> Written;
    pub fn limekeel_write_other(connection: *mut Connection, value: u32) -> Written;
    pub fn limekeel_flush(connection: *mut Connection) -> Flushed;
    pub fn limekeel_remove(connection: *mut Connection) -> Removed;
    pub fn limekeel_remove_with(connection: *mut Connection, cause: u32) -> Removed;
    pub fn limekeel_take_sent(connection: *mut Connection, n: u64) -> Taken;
    pub fn limekeel_progress(connection: *mut Connection, n: u64) -> u32;
    pub fn limekeel_cancel(connection: *mut Connection, id: u64) -> Cancelled;
    pub fn limekeel_fail_flushed(connection: *mut Connection, cause: u32, notify: bool) -> Taken;
    pub fn limekeel_close(connection: *mut Connection, cause: u32) -> Taken;
    pub fn limekeel_give_up(connection: *mut Connection, cause: u32) -> Taken;
    pub fn limekeel_user_bit(connection: *mut Connection, index: u32, writable: bool) -> Changed;
    pub fn limekeel_set_marks(connection: *mut Connection, low: u32, high: u32) -> u32;
    pub fn limekeel_look(connection: *const Connection) -> Look;
    pub fn limekeel_is_writable(connection: *const Connection) -> Truth;
    pub fn limekeel_is_closed(connection: *const Connection) -> Truth;
    pub fn limekeel_is_empty(connection: *const Connection) -> Truth;
    pub fn limekeel_counts(connection: *const Connection) -> Counts;
    pub fn limekeel_settings(connection: *const Connection) -> Settings;
    pub fn limekeel_promise(connection: *const Connection, id: u64) -> Promise;
    pub fn limekeel_front(connection: *const Connection) -> Front;
    pub fn limekeel_current(connection: *const Connection) -> Current;
    pub fn limekeel_gather_pieces(
        connection: *const Connection,
        pieces: *mut Piece,
        length: usize,
        max_bytes: u32,
    ) -> Gathered;
    pub fn limekeel_managed_open_for(
        managed: *mut Managed,
        edge: u32,
        low: u32,
        high: u32,
        overhead: u32,
        unknown: u32,
        most_pending: u32,
        window: u64,
        least_bytes: u64,
        now: u64,
    ) -> u32;
    pub fn limekeel_managed_shrink_to_fit(managed: *mut Managed) -> u32;
    pub fn limekeel_managed_free(managed: *mut Managed) -> u32;
    pub fn limekeel_managed_finish(managed: *mut Managed) -> Truth;
    pub fn limekeel_managed_tick(managed: *mut Managed, now: u64) -> Truth;
    pub fn limekeel_managed_write_bytes(managed: *mut Managed, bytes: *const u8, length: usize) -> Written;
    pub fn limekeel_managed_write_block(managed: *mut Managed, block: *const Block) -> Written;
    pub fn limekeel_managed_write_lent_bytes(managed: *mut Managed, bytes: *const u8, length: usize) -> Written;
    pub fn limekeel_managed_write_region(managed: *mut Managed, length: u64) -> Written;
    pub fn limekeel_managed_write_other(managed: *mut Managed, value: u32) -> Written;
    pub fn limekeel_managed_flush(managed: *mut Managed) -> ToldFlushed;
    pub fn limekeel_managed_progress(managed: *mut Managed, n: u64) -> ToldDone;
    pub fn limekeel_managed_cancel(managed: *mut Managed, id: u64) -> ToldCancelled;
    pub fn limekeel_managed_user_bit(managed: *mut Managed, index: u32, writable: bool) -> ToldChanged;
    pub fn limekeel_managed_set_marks(managed: *mut Managed, low: u32, high: u32) -> ToldDone;
    pub fn limekeel_managed_remove(managed: *mut Managed) -> ToldRemoved;
    pub fn limekeel_managed_remove_with(managed: *mut Managed, cause: u32) -> ToldRemoved;
    pub fn limekeel_managed_take_sent(managed: *mut Managed, n: u64) -> ToldTaken;
    pub fn limekeel_managed_fail_flushed(managed: *mut Managed, cause: u32, notify: bool) -> ToldTaken;
    pub fn limekeel_managed_close(managed: *mut Managed, cause: u32) -> ToldTaken;
    pub fn limekeel_managed_give_up(managed: *mut Managed, cause: u32) -> ToldTaken;
    pub fn limekeel_managed_state(managed: *const Managed) -> State;
    pub fn limekeel_managed_numbers(managed: *const Managed) -> Numbers;
    pub fn limekeel_managed_look(managed: *const Managed) -> Look;
    pub fn limekeel_managed_promise(managed: *const Managed, id: u64) -> Promise;
    pub fn limekeel_managed_front(managed: *const Managed) -> Front;
    pub fn limekeel_managed_current(managed: *const Managed) -> Current;
    pub fn limekeel_managed_gather_pieces(
        managed: *const Managed,
        pieces: *mut Piece,
        length: usize,
        max_bytes: u32,
    ) -> Gathered;
    pub fn limekeel_budget_open_for(
        budget: *mut Budget,
        edge: u32,
        room: u64,
        low: u64,
        high: u64,
        quantum: u64,
    ) -> u32;
    pub fn limekeel_budget_share(budget: *mut Budget, second: *mut Budget) -> u32;
    pub fn limekeel_budget_look(budget: *mut Budget) -> BudgetTold;
    pub fn limekeel_budgeted_look_at_budget(budgeted: *mut Budgeted) -> BudgetTold;
    pub fn limekeel_budget_free(budget: *mut Budget) -> u32;
    pub fn limekeel_open_within_for(
        budgeted: *mut Budgeted,
        edge: u32,
        low: u32,
        high: u32,
        overhead: u32,
        unknown: u32,
        budget: *mut Budget,
    ) -> u32;
    pub fn limekeel_budgeted_free(budgeted: *mut Budgeted) -> PressedDone;
    pub fn limekeel_budgeted_rest(budgeted: *mut Budgeted) -> PressedDone;
    pub fn limekeel_budgeted_cover(budgeted: *mut Budgeted, bytes: u32) -> PressedDone;
    pub fn limekeel_budgeted_write_bytes(budgeted: *mut Budgeted, bytes: *const u8, length: usize) -> PressedWritten;
    pub fn limekeel_budgeted_write_block(budgeted: *mut Budgeted, block: *const Block) -> PressedWritten;
    pub fn limekeel_budgeted_write_lent_bytes(
        budgeted: *mut Budgeted,
        bytes: *const u8,
        length: usize,
    ) -> PressedWritten;
    pub fn limekeel_budgeted_write_region(budgeted: *mut Budgeted, length: u64) -> PressedWritten;
    pub fn limekeel_budgeted_write_other(budgeted: *mut Budgeted, value: u32) -> PressedWritten;
    pub fn limekeel_budgeted_flush(budgeted: *mut Budgeted) -> PressedFlushed;
    pub fn limekeel_budgeted_progress(budgeted: *mut Budgeted, n: u64) -> PressedDone;
    pub fn limekeel_budgeted_cancel(budgeted: *mut Budgeted, id: u64) -> PressedCancelled;
    pub fn limekeel_budgeted_user_bit(budgeted: *mut Budgeted, index: u32, writable: bool) -> PressedChanged;
    pub fn limekeel_budgeted_set_marks(budgeted: *mut Budgeted, low: u32, high: u32) -> PressedDone;
    pub fn limekeel_budgeted_remove(budgeted: *mut Budgeted) -> PressedRemoved;
    pub fn limekeel_budgeted_remove_with(budgeted: *mut Budgeted, cause: u32) -> PressedRemoved;
    pub fn limekeel_budgeted_take_sent(budgeted: *mut Budgeted, n: u64) -> PressedTaken;
    pub fn limekeel_budgeted_fail_flushed(budgeted: *mut Budgeted, cause: u32, notify: bool) -> PressedTaken;
    pub fn limekeel_budgeted_close(budgeted: *mut Budgeted, cause: u32) -> PressedTaken;
    pub fn limekeel_budgeted_give_up(budgeted: *mut Budgeted, cause: u32) -> PressedTaken;
    pub fn limekeel_budgeted_state(budgeted: *const Budgeted) -> Standing;
    pub fn limekeel_budgeted_look(budgeted: *const Budgeted) -> Look;
    pub fn limekeel_budgeted_promise(budgeted: *const Budgeted, id: u64) -> Promise;
    pub fn limekeel_budgeted_front(budgeted: *const Budgeted) -> Front;
    pub fn limekeel_budgeted_current(budgeted: *const Budgeted) -> Current;
    pub fn limekeel_budgeted_gather_pieces(
        budgeted: *const Budgeted,
        pieces: *mut Piece,
        length: usize,
        max_bytes: u32,
    ) -> Gathered;
    pub fn limekeel_shared_open_for(
        transport: *mut Transport,
        edge: u32,
        low: u32,
        high: u32,
        overhead: u32,
        unknown: u32,
    ) -> u32;
    pub fn limekeel_transport_another(transport: *mut Transport, second: *mut Shared) -> u32;
    pub fn limekeel_shared_another(shared: *mut Shared, second: *mut Shared) -> u32;
    pub fn limekeel_shared_free(shared: *mut Shared) -> u32;
    pub fn limekeel_transport_free(transport: *mut Transport) -> u32;
    pub fn limekeel_shared_write_bytes(shared: *mut Shared, bytes: *const u8, length: usize) -> Written;
    pub fn limekeel_shared_write_block(shared: *mut Shared, block: *const Block) -> Written;
    pub fn limekeel_shared_write_and_flush_bytes(
        shared: *mut Shared,
        bytes: *const u8,
        length: usize,
    ) -> WrittenAndFlushed;
    pub fn limekeel_shared_write_and_flush_block(shared: *mut Shared, block: *const Block) -> WrittenAndFlushed;
    pub fn limekeel_shared_write_region(shared: *mut Shared, length: u64) -> Written;
    pub fn limekeel_shared_write_other(shared: *mut Shared, value: u32) -> Written;
    pub fn limekeel_shared_write_lent_bytes(shared: *mut Shared, bytes: *const u8, length: usize) -> Written;
    pub fn limekeel_shared_open_within_for(
        transport: *mut Transport,
        edge: u32,
        low: u32,
        high: u32,
        overhead: u32,
        unknown: u32,
        budget: *mut Budget,
    ) -> u32;
    pub fn limekeel_shared_write_bytes_within(shared: *mut Shared, bytes: *const u8, length: usize) -> PressedWritten;
    pub fn limekeel_shared_write_block_within(shared: *mut Shared, block: *const Block) -> PressedWritten;
    pub fn limekeel_shared_write_and_flush_bytes_within(
        shared: *mut Shared,
        bytes: *const u8,
        length: usize,
    ) -> PressedWrittenAndFlushed;
    pub fn limekeel_shared_write_and_flush_block_within(
        shared: *mut Shared,
        block: *const Block,
    ) -> PressedWrittenAndFlushed;
    pub fn limekeel_shared_write_lent_bytes_within(
        shared: *mut Shared,
        bytes: *const u8,
        length: usize,
    ) -> PressedWritten;
    pub fn limekeel_shared_write_region_within(shared: *mut Shared, length: u64) -> PressedWritten;
    pub fn limekeel_shared_write_other_within(shared: *mut Shared, value: u32) -> PressedWritten;
    pub fn limekeel_shared_settle(shared: *mut Shared) -> PressedDone;
    pub fn limekeel_transport_settle(transport: *mut Transport) -> PressedDone;
    pub fn limekeel_shared_rest(shared: *mut Shared) -> PressedDone;
    pub fn limekeel_transport_rest(transport: *mut Transport) -> PressedDone;
    pub fn limekeel_shared_held(shared: *mut Shared) -> SeatTold;
    pub fn limekeel_shared_flush(shared: *mut Shared) -> Flushed;
    pub fn limekeel_shared_cancel(shared: *mut Shared, id: u64) -> Cancelled;
    pub fn limekeel_shared_close(shared: *mut Shared, cause: u32) -> Taken;
    pub fn limekeel_shared_user_bit(shared: *mut Shared, index: u32, writable: bool) -> Changed;
    pub fn limekeel_shared_set_marks(shared: *mut Shared, low: u32, high: u32) -> u32;
    pub fn limekeel_shared_promise(shared: *mut Shared, id: u64) -> Promise;
    pub fn limekeel_shared_look(shared: *mut Shared) -> Look;
    pub fn limekeel_shared_glance(shared: *mut Shared) -> Glance;
    pub fn limekeel_transport_gather_pieces(
        transport: *mut Transport,
        pieces: *mut Piece,
        length: usize,
        max_bytes: u32,
    ) -> Laid;
    pub fn limekeel_transport_take_sent(transport: *mut Transport, n: u64) -> Taken;
    pub fn limekeel_transport_current(transport: *mut Transport) -> Current;
    pub fn limekeel_transport_progress(transport: *mut Transport, n: u64) -> u32;
    pub fn limekeel_transport_remove(transport: *mut Transport) -> Removed;
    pub fn limekeel_transport_remove_with(transport: *mut Transport, cause: u32) -> Removed;
    pub fn limekeel_transport_fail_flushed(transport: *mut Transport, cause: u32, notify: bool) -> Taken;
    pub fn limekeel_transport_give_up(transport: *mut Transport, cause: u32) -> Taken;
}
