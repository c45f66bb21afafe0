//! The proved libraries `reader` and `recorder`, as a caller from C or Rust declares them (include/weir.h), and their calls.

use plain::called::Handed;
use plain::form::MOST_NUMBERS;
use plain::limits::{Class, Handle, Number};
use std::ptr::{null, null_mut};

extern "C" {
    fn weir_read(line: *const u8, length: usize, numbers: *mut Number, count: *mut u32) -> i32;
    fn weir_enter(
        d: *mut u8,
        length: usize,
        thread: u32,
        env: Handle,
        count: u32,
        handles: *const Handle,
    ) -> i32;
    fn weir_leave(d: *mut u8, length: usize, thread: u32, result: Handle) -> i32;
    fn weir_call(
        d: *mut u8,
        length: usize,
        thread: u32,
        env: Handle,
        function: u32,
        a: Handle,
        b: Handle,
        c: Handle,
        n: i32,
    ) -> i32;
    fn weir_return(
        d: *mut u8,
        length: usize,
        thread: u32,
        function: u32,
        result: Handle,
        status: i32,
        pending: u32,
    ) -> i32;
    fn weir_attach(d: *mut u8, length: usize, thread: u32, env: Handle) -> i32;
    fn weir_detach(d: *mut u8, length: usize, thread: u32) -> i32;
    fn weir_declare(d: *mut u8, length: usize, class: Class, superclass: Class) -> i32;
    fn weir_state(d: *mut u8, length: usize, thread: u32, handle: Handle, class: Class) -> i32;
    fn weir_identify(
        d: *mut u8,
        length: usize,
        identity: Handle,
        sort: u32,
        class: Class,
        is_static: u32,
        is_final: u32,
    ) -> i32;
    fn weir_end(d: *mut u8, length: usize) -> i32;
}

pub fn read(line: &[u8], numbers: &mut [Number; MOST_NUMBERS], count: &mut u32) -> i32 {
    // SAFETY: the pointer is that of a slice of the length that follows it; ten numbers and their count are written.
    unsafe { weir_read(line.as_ptr(), line.len(), numbers.as_mut_ptr(), count) }
}

/// Reads no bytes, for which a caller may lend NULL.
pub fn read_null(numbers: &mut [Number; MOST_NUMBERS], count: &mut u32) -> i32 {
    // SAFETY: no byte is read; ten numbers and their count are written.
    unsafe { weir_read(null(), 0, numbers.as_mut_ptr(), count) }
}

pub fn write(handed: &Handed, buffer: &mut [u8]) -> i32 {
    // SAFETY: the pointer is that of a slice of the length that follows it.
    unsafe { write_at(handed, buffer.as_mut_ptr(), buffer.len()) }
}

/// Writes into no bytes, for which a caller may lend NULL.
pub fn write_null(handed: &Handed) -> i32 {
    // SAFETY: no byte is written.
    unsafe { write_at(handed, null_mut(), 0) }
}

/// `length` bytes may be written from `d` on.
unsafe fn write_at(handed: &Handed, d: *mut u8, length: usize) -> i32 {
    match *handed {
        Handed::Enter {
            thread,
            env,
            count,
            ref handles,
        } => weir_enter(d, length, thread, env, count, handles.as_ptr()),
        Handed::Leave { thread, result } => weir_leave(d, length, thread, result),
        Handed::Call {
            thread,
            env,
            function,
            places: [a, b, c],
            capacity,
        } => weir_call(d, length, thread, env, function, a, b, c, capacity),
        Handed::Return {
            thread,
            function,
            result,
            status,
            pending,
        } => weir_return(d, length, thread, function, result, status, pending),
        Handed::Attach { thread, env } => weir_attach(d, length, thread, env),
        Handed::Detach { thread } => weir_detach(d, length, thread),
        Handed::Declare { class, superclass } => weir_declare(d, length, class, superclass),
        Handed::State {
            thread,
            handle,
            class,
        } => weir_state(d, length, thread, handle, class),
        Handed::Identify {
            identity,
            sort,
            class,
            is_static,
            is_final,
        } => weir_identify(d, length, identity, sort, class, is_static, is_final),
        Handed::End => weir_end(d, length),
    }
}
