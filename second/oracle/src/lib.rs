//! The calls for C as the second program answers them, each with the signature of the header's.
//! Only this layer is unsafe: it makes slices and references of what C lends, as the header demands of every host.
#![deny(unsafe_op_in_unsafe_fn)]

pub mod calls;

use compare::lent_records::layout::RECORD;
use std::slice;

/// What a call writes where it is taken, and the number that it answers.
fn told<T>(answer: Result<T, u32>, write: impl FnOnce(T)) -> u32 {
    answer.map(write).err().unwrap_or(0)
}

/// # Safety
/// The record's bytes are lent, to this call alone.
unsafe fn record<'a>(held: *mut u8) -> &'a mut [u8; RECORD] {
    // SAFETY: so many bytes are lent, and any bytes are an array of bytes.
    unsafe { &mut *held.cast() }
}

/// # Safety
/// So many bytes are lent, or none and the pointer may be null.
unsafe fn bytes<'a>(start: *const u8, length: usize) -> &'a [u8] {
    if length == 0 {
        return &[];
    }
    // SAFETY: it is not null, for bytes are lent there.
    unsafe { slice::from_raw_parts(start, length) }
}

/// # Safety
/// So many bytes are lent, to this call alone, or none and the pointer may be null.
unsafe fn buffer<'a>(start: *mut u8, length: usize) -> &'a mut [u8] {
    if length == 0 {
        return &mut [];
    }
    // SAFETY: it is not null, for bytes are lent there.
    unsafe { slice::from_raw_parts_mut(start, length) }
}

/// # Safety
/// The table is lent.
#[no_mangle]
pub unsafe extern "C" fn oracle_admit(cores: u32, table: *const u8, table_len: usize) -> u32 {
    // SAFETY: the table is lent.
    calls::admit(cores, unsafe { bytes(table, table_len) })
}

/// # Safety
/// The table is lent, and the buffer to this call alone.
#[no_mangle]
pub unsafe extern "C" fn oracle_listing(
    cores: u32,
    table: *const u8,
    table_len: usize,
    buf: *mut u8,
    buf_len: usize,
) -> i64 {
    // SAFETY: both are lent, and do not overlap.
    let (table, buf) = unsafe { (bytes(table, table_len), buffer(buf, buf_len)) };
    calls::listing(cores, table, buf)
}

/// # Safety
/// The table is lent, and the record to this call alone.
#[no_mangle]
pub unsafe extern "C" fn oracle_start(
    held: *mut u8,
    cores: u32,
    table: *const u8,
    table_len: usize,
) -> u32 {
    // SAFETY: both are lent, and do not overlap.
    let (held, table) = unsafe { (record(held), bytes(table, table_len)) };
    told(calls::start(held, cores, table), |()| {})
}

/// # Safety
/// The record and the answer's numbers are lent, to this call alone.
#[no_mangle]
pub unsafe extern "C" fn oracle_release(
    held: *mut u8,
    task: usize,
    time: u64,
    core: *mut usize,
    deadline: *mut u64,
) -> u32 {
    // SAFETY: all three are lent, and do not overlap.
    let (held, core, deadline) = unsafe { (record(held), &mut *core, &mut *deadline) };
    told(calls::release(held, task as u64, time), |answer| {
        (*core, *deadline) = (answer.0 as usize, answer.1);
    })
}

/// # Safety
/// The record and the answer's number are lent, to this call alone.
#[no_mangle]
pub unsafe extern "C" fn oracle_finish(
    held: *mut u8,
    task: usize,
    time: u64,
    late: *mut i64,
) -> u32 {
    // SAFETY: both are lent, and do not overlap.
    let (held, late) = unsafe { (record(held), &mut *late) };
    told(calls::finish(held, task as u64, time), |answer| {
        *late = answer
    })
}

/// # Safety
/// The record and the answer's three numbers are lent, to this call alone.
#[no_mangle]
pub unsafe extern "C" fn oracle_look(
    held: *mut u8,
    core: usize,
    time: u64,
    choice: *mut [u64; 3],
) -> u32 {
    // SAFETY: both are lent, and do not overlap.
    let (held, choice) = unsafe { (record(held), &mut *choice) };
    told(calls::look(held, core as u64, time), |answer| {
        *choice = answer
    })
}

/// # Safety
/// The record is lent, and the buffer and the answer's number to this call alone.
#[no_mangle]
pub unsafe extern "C" fn oracle_list(
    held: *const u8,
    buf: *mut u8,
    buf_len: usize,
    len: *mut i64,
) -> u32 {
    // SAFETY: all three are lent, and do not overlap.
    let (held, buf, len) = unsafe { (bytes(held, RECORD), buffer(buf, buf_len), &mut *len) };
    told(calls::list(held, buf), |answer| *len = answer as i64)
}
