//! The monitor's static library. Every foreign call stands in this file, behind a safe function.

/// Runs the library on a book and a trace and puts the line into `out`.
/// Answers the number of bytes of the line, or 0 where `out` is too short for it.
#[cfg(not(no_library))]
pub fn run_into(book: &[u8], trace: &[u8], out: &mut [u8]) -> usize {
    // SAFETY: each pointer comes from a slice that lives through the call, and stands with that slice's length.
    let written = unsafe {
        foreign::rulewatch_run(book.as_ptr(), book.len(), trace.as_ptr(), trace.len(), out.as_mut_ptr(), out.len())
    };
    assert!(written <= out.len(), "the library says that it wrote {written} bytes into {}", out.len());
    written
}

#[cfg(not(no_library))]
mod foreign {
    unsafe extern "C" {
        pub fn rulewatch_run(
            book: *const u8,
            book_len: usize,
            trace: *const u8,
            trace_len: usize,
            out: *mut u8,
            out_len: usize,
        ) -> usize;
    }
}

/// The same without the library: the program's own monitor stands in for it.
#[cfg(no_library)]
pub fn run_into(book: &[u8], trace: &[u8], out: &mut [u8]) -> usize {
    let line = crate::monitor::run(book, trace);
    let Some(room) = out.get_mut(..line.len()) else {
        return 0;
    };
    room.copy_from_slice(line.as_bytes());
    line.len()
}

/// What the second column of every table is.
pub fn name() -> &'static str {
    if cfg!(no_library) { "stand-in" } else { "library" }
}
