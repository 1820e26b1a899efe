//! The calls of the archive. All `unsafe` of this crate is in this file.
//!
//! What a call asks (`include/lorikvar.h`) a slice of Rust has: its pointer is aligned and valid for its
//! length, of no element too; what a `&mut` lends overlaps nothing else that is lent, and nobody else looks at
//! it meanwhile. The calls keep no pointer, so what is lent ends with the call.

/// What a check or a read says: a number, and a count or two places.
#[derive(Clone, Copy)]
pub(crate) struct Said {
    pub(crate) number: u32,
    pub(crate) values: [usize; 4],
}

type Check = unsafe extern "C" fn(*const u8, usize, *mut [usize; 4]) -> u32;

type Read = unsafe extern "C" fn(*const u8, usize, *mut u32, usize, *mut [usize; 4]) -> u32;

extern "C" {
    fn lorikvar_check_stage(input: *const u8, length: usize, values: *mut [usize; 4]) -> u32;
    fn lorikvar_check_run(input: *const u8, length: usize, values: *mut [usize; 4]) -> u32;
    fn lorikvar_read_stage(
        input: *const u8,
        length: usize,
        table: *mut u32,
        words: usize,
        values: *mut [usize; 4],
    ) -> u32;
    fn lorikvar_read_run(
        input: *const u8,
        length: usize,
        table: *mut u32,
        words: usize,
        values: *mut [usize; 4],
    ) -> u32;
    fn lorikvar_span_bytes(
        input: *const u8,
        length: usize,
        start: usize,
        end: usize,
        part: *mut [usize; 2],
    ) -> bool;
    fn lorikvar_record_bytes(
        input: *const u8,
        length: usize,
        table: *const u32,
        words: usize,
        count: usize,
        number: usize,
        part: *mut [usize; 2],
    ) -> bool;
}

pub(crate) fn check_stage(input: &[u8]) -> Said {
    check(lorikvar_check_stage, input)
}

pub(crate) fn check_run(input: &[u8]) -> Said {
    check(lorikvar_check_run, input)
}

pub(crate) fn read_stage(input: &[u8], words: &mut [u32]) -> Said {
    read(lorikvar_read_stage, input, words)
}

pub(crate) fn read_run(input: &[u8], words: &mut [u32]) -> Said {
    read(lorikvar_read_run, input, words)
}

fn check(call: Check, input: &[u8]) -> Said {
    let mut values = [0; 4];
    // SAFETY: `call` is one of the two checks above; `input` is a slice, and `values` is this function's own.
    let number = unsafe { call(input.as_ptr(), input.len(), &mut values) };
    Said { number, values }
}

fn read(call: Read, input: &[u8], words: &mut [u32]) -> Said {
    let mut values = [0; 4];
    // SAFETY: `call` is one of the two reads above; `input` and `words` are slices, `words` is lent by a
    // `&mut`, and `values` is this function's own.
    let number = unsafe {
        call(
            input.as_ptr(),
            input.len(),
            words.as_mut_ptr(),
            words.len(),
            &mut values,
        )
    };
    Said { number, values }
}

/// The start and end of a span, where it is in range.
pub(crate) fn span_part(input: &[u8], start: usize, end: usize) -> Option<[usize; 2]> {
    let mut part = [0; 2];
    // SAFETY: `input` is a slice, and `part` is this function's own.
    let found = unsafe { lorikvar_span_bytes(input.as_ptr(), input.len(), start, end, &mut part) };
    found.then_some(part)
}

/// The start and end of a record, where it is in range; `words` may be any.
pub(crate) fn record_part(
    input: &[u8],
    words: &[u32],
    count: usize,
    number: usize,
) -> Option<[usize; 2]> {
    let mut part = [0; 2];
    let (bytes, length) = (input.as_ptr(), input.len());
    // SAFETY: `input` and `words` are slices that are only read, so they may overlap; `part` is this function's
    // own.
    let found = unsafe {
        lorikvar_record_bytes(
            bytes,
            length,
            words.as_ptr(),
            words.len(),
            count,
            number,
            &mut part,
        )
    };
    found.then_some(part)
}
