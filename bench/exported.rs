//! The proved library `exported`, as a caller from C or Rust declares it, and its calls: a slice is a pointer and a length.

use plain::lent::slices::Lent;
use plain::limits::{Number, Word};

/// Declares functions of the library that are lent all tables, where `lent` stands.
macro_rules! lent_all {
    ($(fn $name:ident([$($before:ident: $handed:ty),*], lent, [$($after:ident: $left:ty),*]) -> $reply:ty;)*) => {
        extern "C" {
            $(fn $name(
                $($before: $handed,)*
                rows: *mut Number,
                rows_length: usize,
                marks: *mut Word,
                marks_length: usize,
                pins: *mut Number,
                pins_length: usize,
                pin_marks: *mut Word,
                pin_marks_length: usize,
                book: *mut Word,
                book_length: usize,
                classes: *mut Number,
                classes_length: usize,
                $($after: $left,)*
            ) -> $reply;)*
        }
    };
}

lent_all! {
    fn weir_start([], lent, []) -> ();
    fn weir_step([line: *const u8, line_length: usize], lent, [found: *mut Number, found_length: usize]) -> i32;
    fn weir_piece(
        [piece: *const u8, piece_length: usize, ended: u32],
        lent,
        [out: *mut u8, out_length: usize, far: *mut Word, far_length: usize]
    ) -> i32;
    fn weir_judge([trace: *const u8, trace_length: usize], lent, [out: *mut u8, out_length: usize]) -> usize;
}

extern "C" {
    fn weir_leaks(
        rows: *const Number,
        rows_length: usize,
        marks: *const Word,
        marks_length: usize,
        pins: *const Number,
        pins_length: usize,
        pin_marks: *const Word,
        pin_marks_length: usize,
        book: *const Word,
        book_length: usize,
        leaks: *mut Number,
        leaks_length: usize,
    ) -> i32;
}

/// Calls one of them.
macro_rules! lend_all {
    ($name:ident([$($before:expr),*], $lent:ident, [$($after:expr),*])) => {
        // SAFETY: each pointer is that of a slice of the length that follows it.
        unsafe {
            $name(
                $($before,)*
                $lent.rows.as_mut_ptr(),
                $lent.rows.len(),
                $lent.marks.as_mut_ptr(),
                $lent.marks.len(),
                $lent.pins.as_mut_ptr(),
                $lent.pins.len(),
                $lent.pin_marks.as_mut_ptr(),
                $lent.pin_marks.len(),
                $lent.book.as_mut_ptr(),
                $lent.book.len(),
                $lent.classes.as_mut_ptr(),
                $lent.classes.len(),
                $($after,)*
            )
        }
    };
}

pub fn start(lent: Lent) {
    lend_all!(weir_start([], lent, []))
}

pub fn step(line: &[u8], lent: Lent, found: &mut [Number]) -> i32 {
    lend_all!(weir_step([line.as_ptr(), line.len()], lent, [found.as_mut_ptr(), found.len()]))
}

pub fn piece(piece: &[u8], ended: u32, lent: Lent, out: &mut [u8], far: &mut [Word]) -> i32 {
    lend_all!(weir_piece(
        [piece.as_ptr(), piece.len(), ended],
        lent,
        [out.as_mut_ptr(), out.len(), far.as_mut_ptr(), far.len()]
    ))
}

pub fn judge(trace: &[u8], lent: Lent, out: &mut [u8]) -> usize {
    lend_all!(weir_judge([trace.as_ptr(), trace.len()], lent, [out.as_mut_ptr(), out.len()]))
}

pub fn leaks(lent: Lent, leaks: &mut [Number]) -> i32 {
    // SAFETY: each pointer is that of a slice of the length that follows it.
    unsafe {
        weir_leaks(
            lent.rows.as_ptr(),
            lent.rows.len(),
            lent.marks.as_ptr(),
            lent.marks.len(),
            lent.pins.as_ptr(),
            lent.pins.len(),
            lent.pin_marks.as_ptr(),
            lent.pin_marks.len(),
            lent.book.as_ptr(),
            lent.book.len(),
            leaks.as_mut_ptr(),
            leaks.len(),
        )
    }
}
