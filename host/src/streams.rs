//! Standard input and output, through their descriptors.
//!
//! Before `main` Rust puts /dev/null where one of them is closed, and its own handles take one that is open the other way
//! for an empty one, or for one that takes everything: a command that saves nothing would say that it is done. So whether
//! they are open is looked at before Rust does, and they are read and written as files. And a signal that a write can end
//! the process with.
use std::ffi::c_int;
use std::fs::File;
use std::io;
use std::os::fd::{AsFd, BorrowedFd};
use std::sync::atomic::{AtomicBool, Ordering};

static INPUT_CLOSED: AtomicBool = AtomicBool::new(false);
static OUTPUT_CLOSED: AtomicBool = AtomicBool::new(false);

/// Called by the system when the program is loaded, before Rust's own start.
#[used]
// SAFETY: this section has the functions that are called at the start, and `look` can be called there: it needs nothing
// that Rust has not set up yet.
#[unsafe(link_section = ".init_array")]
static LOOK: extern "C" fn() = look;

extern "C" fn look() {
    INPUT_CLOSED.store(is_closed(0), Ordering::Relaxed);
    OUTPUT_CLOSED.store(is_closed(1), Ordering::Relaxed);
}

fn is_closed(descriptor: c_int) -> bool {
    const F_GETFD: c_int = 1;
    // SAFETY: so the system's header declares it.
    unsafe extern "C" {
        fn fcntl(descriptor: c_int, command: c_int, ...) -> c_int;
    }
    // SAFETY: F_GETFD reads the flags of a descriptor, of any number, and changes nothing.
    unsafe { fcntl(descriptor, F_GETFD) == -1 }
}

/// Has a write past the limit on the length of files (`ulimit -f`) fail with an error that can be told. It would end the
/// process, and leave the new file of a save behind.
pub fn let_writes_past_the_limit_fail() {
    const SIGXFSZ: c_int = 25;
    const SIG_IGN: usize = 1;
    // SAFETY: so the system's header declares it, a handler as its address.
    unsafe extern "C" {
        fn signal(number: c_int, handler: usize) -> usize;
    }
    // SAFETY: SIG_IGN is no function that would be called.
    unsafe { signal(SIGXFSZ, SIG_IGN) };
}

pub fn standard_input() -> io::Result<File> {
    opened(&INPUT_CLOSED, io::stdin().as_fd())
}

pub fn standard_output() -> io::Result<File> {
    opened(&OUTPUT_CLOSED, io::stdout().as_fd())
}

fn opened(closed: &AtomicBool, stream: BorrowedFd) -> io::Result<File> {
    if closed.load(Ordering::Relaxed) {
        return Err(io::Error::other("it is closed"));
    }
    Ok(stream.try_clone_to_owned()?.into())
}
