//! The functions of the library as they are, for any bytes and any lent buffers.
//!
//! Each lends its slices to the C function of the same name and gives the answer's number and
//! place. The number is 0 for a result; what the place then is stands at each function. A work area
//! or a state has at least [`work_length`] words; all is safe at any length.
//!
//! ```
//! use zeldrupa::raw;
//!
//! let mut work = vec![0; raw::work_length()];
//! let mut bundle = [0; 64];
//! let sheet = b"\x4D\x01\0\0\0\0\x54\x07\0\0\0\x51";
//! assert_eq!(raw::plan(sheet, &mut work, &mut bundle), (0, 9));
//! assert_eq!(bundle[..9], [0x50, 0, 0x52, 0, 0x5A, 7, 0, 0, 0]);
//! assert_eq!(raw::plan(sheet, &mut work, &mut bundle[..8]), (12, 9));
//! ```

#[macro_use]
mod calls;

use std::mem::MaybeUninit;
use std::slice;

/// The number and the place of an answer.
pub type Answer = (u8, u64);

interface! {
    /// Reads a sheet into tables of values and the board: processors, limit, task count, link count,
    /// unpacking time, and 1 for a cube.
    read_sheet = zeldrupa_read_sheet(
        sheet: &[u8], work: &mut [u32], tasks: &mut [u16], links: &mut [u16], board: &mut [u32; 6]
    );

    /// Writes the sheet of these values, in which an unpacking time of 0 is none and a `cube` of 0 is
    /// none; the place is its length.
    #[allow(clippy::too_many_arguments)]
    write_sheet = zeldrupa_write_sheet(
        processors: u8, limit: u32, unpacking: u16, cube: u8, tasks: &[u16], links: &[u16],
        work: &mut [u32], out: &mut [u8]
    );

    /// Writes the sheet that a seed gives, with so many tasks and tries for links; the place is its
    /// length.
    generate = zeldrupa_generate(
        seed: u32, tasks: u32, tries: u32, processors: u32, limit: u32, work: &mut [u32],
        out: &mut [u8]
    );

    /// Writes the level of each task; the place is their count.
    levels = zeldrupa_levels(sheet: &[u8], work: &mut [u32], out: &mut [u32]);

    /// Plans a sheet and writes the bundle; the place is its length.
    plan = zeldrupa_plan(sheet: &[u8], work: &mut [u32], out: &mut [u8]);

    /// Writes the best bundle of a sheet of at most six tasks; the place is its length.
    least = zeldrupa_least(sheet: &[u8], work: &mut [u32], out: &mut [u8]);

    /// Writes the listing of a sheet's plan, or of its refusal; the place is its length.
    listing = zeldrupa_listing(sheet: &[u8], work: &mut [u32], out: &mut [u8]);

    /// Reads a bundle for a sheet into a table of values, whose length is the place, and the claim.
    read_bundle = zeldrupa_read_bundle(
        sheet: &[u8], bundle: &[u8], work: &mut [u32], commands: &mut [u16], claim: &mut u32
    );

    /// Writes the bundle of these values for a sheet; the place is its length.
    write_bundle = zeldrupa_write_bundle(
        sheet: &[u8], commands: &[u16], claim: u32, work: &mut [u32], out: &mut [u8]
    );

    /// Checks a bundle for a sheet.
    check = zeldrupa_check(sheet: &[u8], bundle: &[u8], work: &mut [u32]);

    /// Writes an accepted bundle with its releases; the place is its length.
    release = zeldrupa_release(sheet: &[u8], bundle: &[u8], work: &mut [u32], out: &mut [u8]);

    /// Writes how far each task's time may drift, four bytes each; the place is their count.
    drift = zeldrupa_drift(sheet: &[u8], bundle: &[u8], work: &mut [u32], out: &mut [u8]);

    /// The weight of a formula, with the values of the letters a to z; the place is the weight.
    weight = zeldrupa_weight(text: &[u8], letters: &[u32]);

    /// Starts the machine; `state` keeps its state from then on.
    start = zeldrupa_start(sheet: &[u8], bundle: &[u8], work: &mut [u32], state: &mut [u32]);

    /// Starts the machine and makes these choices; the place is how many of them stepped.
    run = zeldrupa_run(
        sheet: &[u8], bundle: &[u8], choices: &[u8], work: &mut [u32], state: &mut [u32]
    );

    /// One command of the chosen processor; the place is 1 if it stepped, 0 if it could not.
    step = zeldrupa_step(sheet: &[u8], bundle: &[u8], state: &mut [u32], choice: u64);

    /// The place is the count of commands still to do.
    left = zeldrupa_left(bundle: &[u8], state: &[u32]);

    /// Gives the clock, the position and the store in use of processor k.
    processor = zeldrupa_processor(bundle: &[u8], state: &[u32], k: u64, numbers: &mut [u32; 3]);

    /// The place is one more than the stamp of a link's message, or 0 while it is not sent.
    stamp = zeldrupa_stamp(state: &[u32], link: u64);
}

/// Lent bytes as C has them: `struct zeldrupa_bytes`.
#[repr(C)]
struct Bytes {
    at: *const u8,
    length: usize,
}

/// Checks two bundles for a sheet and gives the better one, the very slice that was lent; the place
/// is its length. A refusal gives the empty front of the first.
#[inline]
pub fn better<'a>(
    sheet: &[u8],
    first: &'a [u8],
    second: &'a [u8],
    work: &mut [u32],
) -> (Answer, &'a [u8]) {
    extern "C" {
        fn zeldrupa_better(
            sheet: *const u8,
            sheet_length: usize,
            first: *const u8,
            first_length: usize,
            second: *const u8,
            second_length: usize,
            work: *mut u32,
            work_length: usize,
            kept: *mut Bytes,
            place: *mut u64,
        ) -> u8;
    }
    let none: &[u8] = &[];
    let mut kept = Bytes { at: none.as_ptr(), length: none.len() };
    // SAFETY: each pointer and length is that of a live slice, and nothing else is lent that is
    // written.
    let answer = answer(|place| unsafe {
        zeldrupa_better(
            sheet.as_ptr(),
            sheet.len(),
            first.as_ptr(),
            first.len(),
            second.as_ptr(),
            second.len(),
            work.as_mut_ptr(),
            work.len(),
            &mut kept,
            place,
        )
    });
    // SAFETY: what is kept is one of the two slices or the empty front of the first; that is part of
    // the proved promise.
    (answer, unsafe { slice::from_raw_parts(kept.at, kept.length) })
}

/// The fixed length of work areas and of states, in words: what the product says to an area of none.
pub fn work_length() -> usize {
    let (number, place) = levels(&[], &mut [], &mut []);
    assert_eq!(number, 13, "an empty work area is short");
    usize::try_from(place).expect("a length")
}

/// Calls with a place to write to. In a debug build it starts as no length or offset is, so that a
/// call which left it alone would show.
#[inline]
fn answer(call: impl FnOnce(*mut u64) -> u8) -> Answer {
    let mut place = MaybeUninit::uninit();
    if cfg!(debug_assertions) {
        place.write(u64::MAX);
    }
    let number = call(place.as_mut_ptr());
    // SAFETY: every call writes the place, whatever it answers; that is part of each proved promise.
    (number, unsafe { place.assume_init() })
}
