//! The bytes of a file in private memory. Each part is filled from the file once, when it is touched for the first time, and
//! stands still from then on, whatever becomes of the file.
//!
//! The bytes have an address from the start, but no access is allowed. The first access to a page raises a signal. Its
//! handler reads the page from the file into memory at an address that nobody else knows, and then moves that memory to the
//! address of the page. So no thread ever sees a part of a page.
//!
//! The system does not raise the signal for its own accesses: a call such as `write` fails if it is given bytes that were
//! never touched. So copy bytes before they go to the system.

use crate::calls::*;
use crate::ending::end;
use crate::spin::Spin;
use crate::zeros::map;
use std::ffi::{c_int, c_void};
use std::fs::File;
use std::io;
use std::iter;
use std::mem;
use std::ops::{Deref, Range};
use std::os::fd::AsRawFd;
use std::ptr::{null, null_mut};
use std::slice;
use std::sync::OnceLock;

/// Memory is filled in pages, as the machine has them.
const PAGE: usize = 1 << 12;
/// At most this many pages are filled at once, until `SMALL_FILLS` fills were needed.
const MOST_AHEAD: usize = 256;
/// After this many fills, whole groups of pages are filled.
const SMALL_FILLS: usize = 1 << 13;
/// A file has at most this many groups.
///
/// Each fill in the middle of pages that are not filled splits a map of the system into up to three. So there are at most
/// 2 * (8,192 + 4,096) + 1 maps, and the system allows 65,530.
const GROUPS: usize = 1 << 12;
/// A group has at least this many bytes.
const LEAST_GROUP: usize = 1 << 20;

/// Memory that belongs to this process alone, and that takes nothing until it is used.
const PRIVATE_MEMORY: c_int = MAP_PRIVATE | MAP_ANONYMOUS | MAP_NORESERVE;
/// The index of the processor's error code in the `ucontext_t` that a signal handler is given, in words of eight bytes: five
/// words come before the registers, and it is register 19.
const ERROR_CODE: usize = 24;
/// The bit of the error code for an access that writes.
const WRITES: u64 = 1 << 1;
/// The bit of the error code for the fetch of an instruction.
const FETCHES: u64 = 1 << 4;

/// All bytes that may be touched now. The signal handler looks here.
static HELD: Spin<Vec<Held>> = Spin::new(Vec::new());
/// What the process did on this signal before `install`.
static FORMER: OnceLock<SignalAction> = OnceLock::new();
/// Whether the signal handler is installed.
static INSTALLED: OnceLock<bool> = OnceLock::new();

/// What the process says before it ends with status 2, if bytes cannot be filled. Each is a line with its end.
pub struct Sentences {
    /// The file has fewer bytes than it had.
    pub shortened: String,
    /// The file cannot be read.
    pub unreadable: String,
    /// There is no memory for the bytes.
    pub no_memory: String,
}

/// The bytes of a file. They can be read, and they are lent to be changed. Changes do not reach the file.
pub struct Filled {
    /// Null if there are no bytes, because the system does not make an empty map.
    start: Address,
    length: usize,
}

impl Filled {
    /// Holds the first `length` bytes of a file. Nothing is read yet. Threads that begin later must not block SIGSEGV if they
    /// touch the bytes.
    pub fn new(file: &File, length: usize, sentences: Sentences) -> io::Result<Filled> {
        if length == 0 {
            let start = null_mut();
            return Ok(Filled { start, length });
        }
        let held = Held::new(file.try_clone()?, length, sentences)?;
        let start = held.start as Address;
        install()?;
        HELD.with(|all| all.push(held));
        Ok(Filled { start, length })
    }

    /// Lends the bytes to be changed.
    pub fn lend(&mut self) -> io::Result<&mut [u8]> {
        if self.length == 0 {
            return Ok(&mut []);
        }
        HELD.with(|all| match all.iter_mut().find(|held| self.is(held)) {
            Some(held) => held.allow_writing(),
            None => Ok(()),
        })?;
        // SAFETY: the map has this length, can be read and written wherever it is touched, and only the borrower of `self`
        // has the slice.
        Ok(unsafe { slice::from_raw_parts_mut(self.start.cast(), self.length) })
    }

    /// Whether these are the held bytes.
    fn is(&self, held: &Held) -> bool {
        held.start == self.start as usize
    }
}

impl Deref for Filled {
    type Target = [u8];

    fn deref(&self) -> &[u8] {
        if self.length == 0 {
            return &[];
        }
        // SAFETY: the map has this length, and can be read wherever it is touched until it is dropped. A byte never
        // changes after it was read for the first time, except through `lend`.
        unsafe { slice::from_raw_parts(self.start.cast(), self.length) }
    }
}

impl Drop for Filled {
    fn drop(&mut self) {
        let held = HELD.with(|all| {
            let position = all.iter().position(|held| self.is(held));
            position.map(|position| all.swap_remove(position))
        });
        drop(held);
    }
}

/// The bytes of one file, as the signal handler sees them.
struct Held {
    /// The address of the first byte.
    start: usize,
    length: usize,
    file: File,
    /// One bit for each page: whether it is filled.
    filled: Vec<u64>,
    /// How many times something was filled.
    fills: usize,
    is_writable: bool,
    sentences: Sentences,
}

/// Why pages are not filled.
enum Trouble {
    Shortened,
    Unreadable,
    NoMemory,
}

impl Held {
    fn new(file: File, length: usize, sentences: Sentences) -> io::Result<Held> {
        let start = map(length, PROT_NONE, PRIVATE_MEMORY, NO_FILE)?;
        Ok(Held {
            start: start as usize,
            length,
            file,
            filled: vec![0; length.div_ceil(PAGE).div_ceil(64)],
            fills: 0,
            is_writable: false,
            sentences,
        })
    }

    /// Makes the page with this byte accessible. Returns false if an access of this kind is never allowed.
    fn make_accessible(&mut self, offset: usize, writes: bool) -> bool {
        if writes && !self.is_writable {
            return false;
        }
        let page = offset / PAGE;
        // Otherwise another thread has touched the same page and was faster.
        if !self.is_filled(page) {
            match self.fill(page) {
                Ok(()) => (),
                Err(Trouble::Shortened) => end(self.sentences.shortened.as_bytes()),
                Err(Trouble::Unreadable) => end(self.sentences.unreadable.as_bytes()),
                Err(Trouble::NoMemory) => end(self.sentences.no_memory.as_bytes()),
            }
        }
        true
    }

    /// Fills a page that was touched, and others with it.
    fn fill(&mut self, page: usize) -> Result<(), Trouble> {
        let pages = match self.fills < SMALL_FILLS {
            true => self.pages_from(page),
            false => self.group_of(page),
        };
        for run in self.runs(pages.clone(), false) {
            let bytes = self.bytes_of(run);
            let staged = Staged::new(bytes.len())?;
            self.read(bytes.clone(), &staged)?;
            staged.move_to(bytes.start, self.protection())?;
        }
        for page in pages {
            self.filled[page / 64] |= 1 << (page % 64);
        }
        self.fills += 1;
        Ok(())
    }

    fn is_filled(&self, page: usize) -> bool {
        self.filled[page / 64] >> (page % 64) & 1 == 1
    }

    fn pages(&self) -> usize {
        self.length.div_ceil(PAGE)
    }

    /// Returns this page, and as many after it as were filled before it: bytes that are read one after another are filled in
    /// ever larger parts, and a header that is far from everything else takes one page.
    fn pages_from(&self, page: usize) -> Range<usize> {
        let before = page.saturating_sub(MOST_AHEAD)..page;
        let before = before.rev().take_while(|&page| self.is_filled(page));
        let end = (page + before.count().max(1)).min(self.pages());
        let mut after = page..end;
        page..after.find(|&page| self.is_filled(page)).unwrap_or(end)
    }

    /// Returns the group of pages around this one.
    fn group_of(&self, page: usize) -> Range<usize> {
        let bytes = (self.length / GROUPS).next_power_of_two().max(LEAST_GROUP);
        let pages = bytes / PAGE;
        let first = page / pages * pages;
        first..(first + pages).min(self.pages())
    }

    /// Returns the parts of a range of pages in which all are filled, or none is.
    fn runs(&self, pages: Range<usize>, filled: bool) -> impl Iterator<Item = Range<usize>> + '_ {
        let Range { mut start, end } = pages;
        iter::from_fn(move || {
            start = (start..end).find(|&page| self.is_filled(page) == filled)?;
            let mut rest = start..end;
            let run_end = rest.find(|&page| self.is_filled(page) != filled);
            let run = start..run_end.unwrap_or(end);
            start = run.end;
            Some(run)
        })
    }

    /// Returns where pages are in memory.
    fn bytes_of(&self, pages: Range<usize>) -> Range<usize> {
        let end = (pages.end * PAGE).min(self.length);
        self.start + pages.start * PAGE..self.start + end
    }

    /// Reads from the file what belongs at these addresses.
    fn read(&self, bytes: Range<usize>, staged: &Staged) -> Result<(), Trouble> {
        let file = self.file.as_raw_fd();
        let mut done = 0;
        while done < bytes.len() {
            let address = staged.start.wrapping_byte_add(done);
            let offset = (bytes.start - self.start + done) as i64;
            // SAFETY: this many bytes of this memory are left, and nobody else knows it.
            match unsafe { pread(file, address, bytes.len() - done, offset) } {
                0 => return Err(Trouble::Shortened),
                count if count > 0 => done += count as usize,
                // SAFETY: every thread has this number.
                _ => match unsafe { *__errno_location() } {
                    EINTR => (),
                    EFAULT => return Err(Trouble::NoMemory),
                    _ => return Err(Trouble::Unreadable),
                },
            }
        }
        Ok(())
    }

    /// Returns what may be done with bytes that are filled.
    fn protection(&self) -> c_int {
        match self.is_writable {
            true => PROT_READ | PROT_WRITE,
            false => PROT_READ,
        }
    }

    /// Allows writing to all that is filled, and to all that will be.
    fn allow_writing(&mut self) -> io::Result<()> {
        self.is_writable = true;
        let mut filled = self.runs(0..self.pages(), true);
        filled.try_for_each(|run| {
            let bytes = self.bytes_of(run);
            protect(bytes.start as Address, bytes.len(), self.protection())
        })
    }
}

impl Drop for Held {
    fn drop(&mut self) {
        // SAFETY: the map was made with this length, and every slice of it is gone.
        unsafe { munmap(self.start as Address, self.length) };
    }
}

/// Memory that is filled before anybody else can see it.
struct Staged {
    start: Address,
    length: usize,
}

impl Staged {
    fn new(length: usize) -> Result<Staged, Trouble> {
        let (protection, flags) = (PROT_READ | PROT_WRITE, PRIVATE_MEMORY | MAP_POPULATE);
        let start = map(length, protection, flags, NO_FILE).map_err(|_| Trouble::NoMemory)?;
        Ok(Staged { start, length })
    }

    /// Moves the memory to an address where nothing was accessible before.
    fn move_to(self, address: usize, protection: c_int) -> Result<(), Trouble> {
        protect(self.start, self.length, protection).map_err(|_| Trouble::NoMemory)?;
        let flags = MREMAP_MAYMOVE | MREMAP_FIXED;
        let address = address as Address;
        // SAFETY: there is a part of a map of ours, and nobody has seen a byte of it.
        let moved = unsafe { mremap(self.start, self.length, self.length, flags, address) };
        match moved == address {
            true => {
                // There is nothing left to be given back.
                mem::forget(self);
                Ok(())
            }
            false => Err(Trouble::NoMemory),
        }
    }
}

impl Drop for Staged {
    fn drop(&mut self) {
        // SAFETY: the map was made with this length, and nobody else knows it.
        unsafe { munmap(self.start, self.length) };
    }
}

/// Sets what may be done with memory.
fn protect(start: Address, length: usize, protection: c_int) -> io::Result<()> {
    // SAFETY: this is called for maps of ours alone, and never takes away what a slice needs.
    match unsafe { mprotect(start, length, protection) } {
        0 => Ok(()),
        _ => Err(io::Error::last_os_error()),
    }
}

/// Installs the signal handler, once.
fn install() -> io::Result<()> {
    let is_installed = *INSTALLED.get_or_init(|| {
        let mut former = SignalAction::NONE;
        let action = SignalAction {
            handler: handle as *const () as usize,
            flags: SA_SIGINFO | SA_ONSTACK,
            ..SignalAction::NONE
        };
        // SAFETY: all pointers are valid. The former handler is known before ours can be called.
        unsafe {
            sigaction(SIGSEGV, null(), &mut former) == 0
                && *FORMER.get_or_init(|| former) == former
                && sigaction(SIGSEGV, &action, null_mut()) == 0
        }
    });
    match is_installed && unblock() {
        true => Ok(()),
        false => Err(io::Error::other("no signal handler can be installed")),
    }
}

/// Lets the signal reach this thread. Whoever started it may have blocked the signal, and then the first access would end the
/// process.
fn unblock() -> bool {
    let mut signals = [0; 16];
    signals[0] = 1 << (SIGSEGV - 1);
    // SAFETY: the set is valid, and nobody asks for the former one.
    unsafe { pthread_sigmask(SIG_UNBLOCK, &signals, null_mut()) == 0 }
}

/// Is called when an access is not allowed. When it returns, the access is made again.
extern "C" fn handle(signal: c_int, info: *const SignalInfo, context: *const c_void) {
    // SAFETY: the system passes both, and every thread has an error number.
    let (details, error_code, error_number) = unsafe {
        let words: *const u64 = context.cast();
        (&*info, *words.add(ERROR_CODE), *__errno_location())
    };
    // A signal that another process sent has no address. It ends the process, as whoever sent it wants.
    if details.code <= 0 {
        return end_by(signal);
    }
    let is_ours = error_code & FETCHES == 0
        && HELD.with(|all| {
            let offset = |held: &Held| details.address.wrapping_sub(held.start);
            let held = all.iter_mut().find(|held| offset(held) < held.length);
            held.is_some_and(|held| held.make_accessible(offset(held), error_code & WRITES != 0))
        });
    if !is_ours {
        hand_on(signal, info, context);
    }
    // SAFETY: every thread has an error number. The code that was interrupted may be about to look at it.
    unsafe { *__errno_location() = error_number };
}

/// Ends the process by a signal.
fn end_by(signal: c_int) {
    // SAFETY: the action is valid. The signal is blocked until the handler returns.
    unsafe {
        sigaction(signal, &SignalAction::NONE, null_mut());
        raise(signal);
    }
}

/// Lets the former handler decide.
fn hand_on(signal: c_int, info: *const SignalInfo, context: *const c_void) {
    type Handler = extern "C" fn(c_int, *const SignalInfo, *const c_void);
    let Some(former) = FORMER.get() else { return };
    // SAFETY: the system would have called the former handler with the same words. A handler without SA_SIGINFO does not look
    // at what it is given beyond the first. Without a handler the access is made again and ends the process.
    unsafe {
        match former.handler {
            DEFAULT | IGNORED => {
                sigaction(signal, &SignalAction::NONE, null_mut());
            }
            handler => mem::transmute::<usize, Handler>(handler)(signal, info, context),
        }
    }
}

#[cfg(test)]
mod tests;
