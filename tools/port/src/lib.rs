//! The port's `compile2`, through its static library (include/havzeltis.h).

#[repr(C)]
struct Told {
    number: u32,
    value: usize,
}

unsafe extern "C" {
    fn havzeltis_compile2(
        text: *const u8,
        text_count: usize,
        spans: *const u32,
        spans_count: usize,
        options: u32,
        out: *mut u8,
        out_count: usize,
    ) -> Told;
}

#[derive(Clone, Copy, Debug, PartialEq)]
pub enum Answer {
    /// the listing's length: it stands at the start of the output
    Listed(usize),
    /// a number from 1 to 14, and the place
    Refused(u32, usize),
}

/// More than enough stack for a thread that calls `compile2`: the store of elements is a local.
pub const STACK: usize = 64 << 20;

/// Lists the tree of a text into `out`, or says why not.
pub fn compile2(text: &[u8], spans: &[u32], options: u32, out: &mut [u8]) -> Answer {
    // SAFETY: references are not null, are aligned, and `out` is lent to this call alone. The entry asks
    // nothing else: its contract has no `requires`.
    let told = unsafe {
        havzeltis_compile2(
            text.as_ptr(),
            text.len(),
            spans.as_ptr(),
            spans.len(),
            options,
            out.as_mut_ptr(),
            out.len(),
        )
    };
    match told.number {
        0 => Answer::Listed(told.value),
        n => Answer::Refused(n, told.value),
    }
}

/// Runs on a thread with room for `compile2`, and hands on its panic.
pub fn with_stack(run: impl FnOnce() + Send + 'static) {
    let thread = std::thread::Builder::new()
        .stack_size(STACK)
        .spawn(run)
        .unwrap();
    if thread.join().is_err() {
        std::process::exit(1);
    }
}
