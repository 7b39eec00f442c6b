//! Whether standard input and standard output were closed when the program began.
//!
//! Rust's start opens `/dev/null` in their place, so that later on nobody can tell `>&-` from `> /dev/null`: what is printed would be
//! lost, and the exit status say that all is well. So it is asked before that start.
//!
//! And a file over the size that a process may write is told as a failure, like a full disk: by default a signal would end the program,
//! with its file half written.

#![allow(unsafe_code)]

use std::sync::atomic::{AtomicBool, Ordering};

static CLOSED: [AtomicBool; 2] = [AtomicBool::new(false), AtomicBool::new(false)];

extern "C" {
    fn fcntl(descriptor: i32, command: i32, ...) -> i32;
    fn signal(number: i32, handler: usize) -> usize;
}

/// `F_GETFD`, which fails exactly where the descriptor isn't open.
const GET_FLAGS: i32 = 1;

/// `SIGXFSZ` and `SIG_IGN`, on x86-64 and aarch64 alike.
const FILE_TOO_LARGE: i32 = 25;
const IGNORED: usize = 1;

extern "C" fn look() {
    // SAFETY: a signal that is ignored calls no handler.
    unsafe { signal(FILE_TOO_LARGE, IGNORED) };
    for (descriptor, closed) in (0..).zip(&CLOSED) {
        // SAFETY: F_GETFD takes no third argument, reads no memory of ours and changes nothing.
        closed.store(
            unsafe { fcntl(descriptor, GET_FLAGS) } == -1,
            Ordering::Relaxed,
        );
    }
}

// SAFETY: the C library calls each entry of this section once, before `main`; `look` needs nothing that Rust's start sets up.
#[used]
#[link_section = ".init_array"]
static LOOK: extern "C" fn() = look;

pub fn standard_input() -> bool {
    CLOSED[0].load(Ordering::Relaxed)
}

pub fn standard_output() -> bool {
    CLOSED[1].load(Ordering::Relaxed)
}
