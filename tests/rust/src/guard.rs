//! Memory to lend: the lent part stands at the very edge of a page that no
//! one may touch, and known octets fill the rest.

use std::ops::Range;
use std::ptr;
use std::sync::atomic::{AtomicPtr, AtomicUsize, Ordering::Relaxed};
use std::sync::Once;

const PAGE: usize = 4096;
const GUARD: u8 = 0xA5;

const PROT_NONE: i32 = 0;
const PROT_READ_WRITE: i32 = 3;
const MAP_PRIVATE_ANONYMOUS: i32 = 0x22;

extern "C" {
    fn mmap(address: *mut u8, length: usize, protection: i32, flags: i32, file: i32, offset: i64) -> *mut u8;
    fn mprotect(address: *mut u8, length: usize, protection: i32) -> i32;
    fn munmap(address: *mut u8, length: usize) -> i32;
    fn signal(number: i32, handler: extern "C" fn(i32)) -> usize;
    fn write(file: i32, octets: *const u8, count: usize) -> isize;
    fn _exit(status: i32) -> !;
}

const SIGSEGV: i32 = 11;
const SIGBUS: i32 = 7;

/// Which closed page the lent part touches.
#[derive(Clone, Copy, Debug, PartialEq, Eq)]
pub enum Side {
    Start,
    End,
}

/// Open pages between two closed ones. A read or a write one octet past the
/// lent part, on the side chosen, ends the process.
pub struct Fence {
    map: *mut u8,
    open: usize,
}

impl Fence {
    /// Room for at least `capacity` octets.
    pub fn new(capacity: usize) -> Fence {
        let open = capacity.div_ceil(PAGE).max(1) * PAGE;
        // SAFETY: a fresh private mapping; only its middle is opened.
        unsafe {
            let map = mmap(ptr::null_mut(), open + 2 * PAGE, PROT_NONE, MAP_PRIVATE_ANONYMOUS, -1, 0);
            assert!(map as isize != -1, "mmap");
            assert_eq!(mprotect(map.add(PAGE), open, PROT_READ_WRITE), 0, "mprotect");
            ptr::write_bytes(map.add(PAGE), GUARD, open);
            Fence { map, open }
        }
    }

    fn all(&mut self) -> &mut [u8] {
        // SAFETY: the open pages belong to this value alone.
        unsafe { std::slice::from_raw_parts_mut(self.map.add(PAGE), self.open) }
    }

    /// Puts `content` at the chosen edge, guard octets everywhere else.
    pub fn place(&mut self, content: &[u8], side: Side) -> Range<usize> {
        let range = match side {
            Side::Start => 0..content.len(),
            Side::End => self.open - content.len()..self.open,
        };
        let all = self.all();
        all.fill(GUARD);
        all[range.clone()].copy_from_slice(content);
        range
    }

    pub fn octets(&mut self, range: &Range<usize>) -> &mut [u8] {
        &mut self.all()[range.clone()]
    }

    /// The same for 32-bit numbers; both edges are aligned for them.
    pub fn place_words(&mut self, content: &[u32], side: Side) -> Range<usize> {
        let octets: Vec<u8> = content.iter().flat_map(|n| n.to_le_bytes()).collect();
        self.place(&octets, side)
    }

    pub fn words(&mut self, range: &Range<usize>) -> &mut [u32] {
        let octets = self.octets(range);
        // SAFETY: edges of pages are aligned, and so is any multiple of 4 octets away.
        unsafe { std::slice::from_raw_parts_mut(octets.as_mut_ptr().cast(), octets.len() / 4) }
    }

    /// Whether every octet outside of `range` is still a guard octet.
    pub fn intact(&mut self, range: &Range<usize>) -> bool {
        let all = self.all();
        let guards = |octets: &[u8]| octets.chunks(PAGE).all(|part| *part == [GUARD; PAGE][..part.len()]);
        guards(&all[..range.start]) && guards(&all[range.end..])
    }
}

impl Drop for Fence {
    fn drop(&mut self) {
        // SAFETY: the mapping made in `new`, of that length.
        unsafe {
            munmap(self.map, self.open + 2 * PAGE);
        }
    }
}

/// What the call under way was handed for reading: told if it goes astray.
static HANDED: [(AtomicPtr<u8>, AtomicUsize); 2] =
    [const { (AtomicPtr::new(ptr::null_mut()), AtomicUsize::new(0)) }; 2];

/// Notes what a call is handed, up to two parts, and has a touch of a closed
/// page end the process with a line that shows them.
pub fn hand_over(parts: [&[u8]; 2]) {
    static HANDLER: Once = Once::new();
    HANDLER.call_once(|| {
        // SAFETY: the handler calls nothing but write and _exit.
        unsafe {
            signal(SIGSEGV, astray);
            signal(SIGBUS, astray);
        }
    });
    for (noted, part) in HANDED.iter().zip(parts) {
        noted.0.store(part.as_ptr().cast_mut(), Relaxed);
        noted.1.store(part.len(), Relaxed);
    }
}

extern "C" fn astray(_: i32) {
    let tell = |text: &[u8]| {
        // SAFETY: a valid slice; the result does not matter any more.
        unsafe { write(2, text.as_ptr(), text.len()) };
    };
    tell(b"\nmemory outside of what was lent was touched; the call was handed, in hexadecimal:\n");
    for (part, length) in &HANDED {
        for i in 0..length.load(Relaxed) {
            // SAFETY: fenced memory that stays while the call runs.
            let octet = unsafe { *part.load(Relaxed).add(i) };
            let digit = |n: u8| b"0123456789abcdef"[usize::from(n)];
            tell(&[digit(octet >> 4), digit(octet & 15)]);
        }
        tell(b"\n");
    }
    // SAFETY: ends the process at once, as the touch itself would have.
    unsafe { _exit(134) }
}
