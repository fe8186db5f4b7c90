//! What the standard library does not offer: standard streams that were
//! closed when the program started, and the signal at a limit on file size.

use std::fs::File;
use std::io;
use std::os::fd::AsFd;
use std::sync::atomic::{AtomicBool, Ordering};

extern "C" {
    fn fcntl(descriptor: i32, command: i32, ...) -> i32;
    fn signal(number: i32, handler: usize) -> usize;
}

// Linux on x86-64, which the library asks for.
const F_GETFD: i32 = 1;
const EBADF: i32 = 9;
pub const EISDIR: i32 = 21;
pub const ELOOP: i32 = 40;
const SIGXFSZ: i32 = 25;
const SIG_IGN: usize = 1;

static INPUT_CLOSED: AtomicBool = AtomicBool::new(false);
static OUTPUT_CLOSED: AtomicBool = AtomicBool::new(false);

/// Rust's runtime opens /dev/null in the place of a standard stream that is
/// closed, before `main`: what is written there would be lost in silence. So
/// this looks before the runtime does.
extern "C" fn look_at_streams() {
    // SAFETY: asks for a descriptor's flags; any number may be asked about.
    let closed = |descriptor| unsafe { fcntl(descriptor, F_GETFD) == -1 };
    INPUT_CLOSED.store(closed(0), Ordering::Relaxed);
    OUTPUT_CLOSED.store(closed(1), Ordering::Relaxed);
}

#[used]
#[link_section = ".init_array"]
static LOOK: extern "C" fn() = look_at_streams;

/// A write past the limit on a file's size is answered with an error, and does
/// not end the program.
pub fn have_size_limit_answered() {
    // SAFETY: no handler runs; the signal is ignored.
    unsafe { signal(SIGXFSZ, SIG_IGN) };
}

/// Standard input, with no buffer between.
pub fn standard_input() -> io::Result<File> {
    open(&INPUT_CLOSED, io::stdin())
}

/// Standard output, with no buffer between.
pub fn standard_output() -> io::Result<File> {
    open(&OUTPUT_CLOSED, io::stdout())
}

fn open(closed: &AtomicBool, stream: impl AsFd) -> io::Result<File> {
    if closed.load(Ordering::Relaxed) {
        return Err(io::Error::from_raw_os_error(EBADF));
    }
    Ok(File::from(stream.as_fd().try_clone_to_owned()?))
}
