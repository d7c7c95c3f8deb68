//! The product's calls, of libcapi.a.
use crate::fast::{Compiled, Ran};

type Run = unsafe extern "C" fn(
    *const u8,
    usize,
    *const u8,
    usize,
    *const u8,
    usize,
    *mut u8,
    usize,
    *mut u64,
    *mut u64,
    *mut u64,
) -> u8;

extern "C" {
    fn zimtleiter_read_schedule(file: *const u8, file_len: usize) -> u8;
    fn zimtleiter_read_table(table: *const u8, table_len: usize) -> u8;
    fn zimtleiter_size(file: *const u8, file_len: usize, locations: *mut u64, entries: *mut u64) -> u8;
    fn zimtleiter_compile(file: *const u8, file_len: usize, table: *mut u8, room: usize, length: *mut u64, comparisons: *mut u64) -> u8;
    fn zimtleiter_rule_run(
        file: *const u8,
        file_len: usize,
        start: *const u8,
        start_len: usize,
        events: *const u8,
        events_len: usize,
        records: *mut u8,
        room: usize,
        taken: *mut u64,
        turned_away: *mut u64,
        faulted: *mut u64,
    ) -> u8;
    fn zimtleiter_table_run(
        table: *const u8,
        table_len: usize,
        start: *const u8,
        start_len: usize,
        events: *const u8,
        events_len: usize,
        records: *mut u8,
        room: usize,
        taken: *mut u64,
        turned_away: *mut u64,
        faulted: *mut u64,
    ) -> u8;
    fn zimtleiter_practice(seed: u32, count: u64, events: *mut u8, room: usize, length: *mut u64) -> u8;
}

pub fn read_schedule(file: &[u8]) -> u8 {
    // SAFETY: the pointer is lent with its length.
    unsafe { zimtleiter_read_schedule(file.as_ptr(), file.len()) }
}

pub fn read_table(table: &[u8]) -> u8 {
    // SAFETY: as above
    unsafe { zimtleiter_read_table(table.as_ptr(), table.len()) }
}

pub fn compile(file: &[u8], table: &mut [u8]) -> Result<Compiled, u8> {
    let [mut length, mut comparisons] = [0; 2];
    // SAFETY: each pointer is lent with its length.
    let refusal = unsafe { zimtleiter_compile(file.as_ptr(), file.len(), table.as_mut_ptr(), table.len(), &mut length, &mut comparisons) };
    if refusal == 0 { Ok(Compiled { length: length as usize, comparisons }) } else { Err(refusal) }
}

pub fn size(file: &[u8]) -> Result<[u64; 2], u8> {
    let [mut locations, mut entries] = [0; 2];
    // SAFETY: as above
    let refusal = unsafe { zimtleiter_size(file.as_ptr(), file.len(), &mut locations, &mut entries) };
    if refusal == 0 { Ok([locations, entries]) } else { Err(refusal) }
}

fn run(call: Run, program: &[u8], start: &[u8], events: &[u8], records: &mut [u8]) -> Result<Ran, u8> {
    let mut r = Ran::default();
    // SAFETY: as above
    let refusal = unsafe {
        call(
            program.as_ptr(),
            program.len(),
            start.as_ptr(),
            start.len(),
            events.as_ptr(),
            events.len(),
            records.as_mut_ptr(),
            records.len(),
            &mut r.taken,
            &mut r.turned_away,
            &mut r.faulted,
        )
    };
    if refusal == 0 { Ok(r) } else { Err(refusal) }
}

pub fn rule_run(file: &[u8], start: &[u8], events: &[u8], records: &mut [u8]) -> Result<Ran, u8> {
    run(zimtleiter_rule_run, file, start, events, records)
}

pub fn table_run(table: &[u8], start: &[u8], events: &[u8], records: &mut [u8]) -> Result<Ran, u8> {
    run(zimtleiter_table_run, table, start, events, records)
}

pub fn practice(seed: u32, count: u64, events: &mut [u8]) -> Result<usize, u8> {
    let mut length = 0;
    // SAFETY: as above
    let refusal = unsafe { zimtleiter_practice(seed, count, events.as_mut_ptr(), events.len(), &mut length) };
    if refusal == 0 { Ok(length as usize) } else { Err(refusal) }
}
