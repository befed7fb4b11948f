//! The functions of the C library that are called, and their constants, as x86-64 Linux has them.

use std::ffi::{c_char, c_int, c_uint, c_void};

pub type Address = *mut c_void;

/// What the system reports about a signal. Only the fields that are read have names.
#[repr(C)]
pub struct SignalInfo {
    pub signal: c_int,
    pub error: c_int,
    pub code: c_int,
    padding: c_int,
    /// For SIGSEGV: the address that could not be accessed.
    pub address: usize,
}

/// What is done when a signal arrives.
#[repr(C)]
#[derive(Clone, Copy, PartialEq)]
pub struct SignalAction {
    /// `DEFAULT`, `IGNORED`, or the address of a function.
    pub handler: usize,
    pub blocked: [u64; 16],
    pub flags: c_int,
    pub restorer: usize,
}

impl SignalAction {
    /// What the system does by itself.
    pub const NONE: SignalAction = SignalAction {
        handler: DEFAULT,
        blocked: [0; 16],
        flags: 0,
        restorer: 0,
    };
}

/// An entry of the list of users. Only the field that is read has a name.
#[repr(C)]
pub struct UserEntry {
    pub name: *const c_char,
}

extern "C" {
    pub fn mmap(
        address: Address,
        length: usize,
        protection: c_int,
        flags: c_int,
        file: c_int,
        offset: i64,
    ) -> Address;
    pub fn mprotect(address: Address, length: usize, protection: c_int) -> c_int;
    pub fn munmap(address: Address, length: usize) -> c_int;
    pub fn mremap(old: Address, old_length: usize, length: usize, flags: c_int, ...) -> Address;
    pub fn pread(file: c_int, bytes: Address, length: usize, offset: i64) -> isize;
    pub fn write(file: c_int, bytes: *const c_void, length: usize) -> isize;
    pub fn sigaction(signal: c_int, new: *const SignalAction, old: *mut SignalAction) -> c_int;
    pub fn pthread_sigmask(how: c_int, set: *const [u64; 16], old: *mut [u64; 16]) -> c_int;
    pub fn raise(signal: c_int) -> c_int;
    pub fn _exit(status: c_int) -> !;
    pub fn __errno_location() -> *mut c_int;
    pub fn fcntl(file: c_int, command: c_int, ...) -> c_int;
    pub fn openat(folder: c_int, name: *const c_char, flags: c_int, ...) -> c_int;
    pub fn unlinkat(folder: c_int, name: *const c_char, flags: c_int) -> c_int;
    pub fn linkat(
        from_folder: c_int,
        from: *const c_char,
        to_folder: c_int,
        to: *const c_char,
        flags: c_int,
    ) -> c_int;
    pub fn renameat(
        from_folder: c_int,
        from: *const c_char,
        to_folder: c_int,
        to: *const c_char,
    ) -> c_int;
    pub fn renameat2(
        from_folder: c_int,
        from: *const c_char,
        to_folder: c_int,
        to: *const c_char,
        flags: c_uint,
    ) -> c_int;
    pub fn syncfs(file: c_int) -> c_int;
    pub fn geteuid() -> c_uint;
    pub fn getpwuid(user: c_uint) -> *const UserEntry;
}

pub const PROT_NONE: c_int = 0;
pub const PROT_READ: c_int = 1;
pub const PROT_WRITE: c_int = 2;
pub const MAP_PRIVATE: c_int = 0x2;
pub const MAP_ANONYMOUS: c_int = 0x20;
pub const MAP_NORESERVE: c_int = 0x4000;
pub const MAP_POPULATE: c_int = 0x8000;
pub const NO_FILE: c_int = -1;
pub const MREMAP_MAYMOVE: c_int = 1;
pub const MREMAP_FIXED: c_int = 2;

pub const SIGSEGV: c_int = 11;
pub const SIGXFSZ: c_int = 25;
pub const SIG_UNBLOCK: c_int = 1;
pub const DEFAULT: usize = 0;
pub const IGNORED: usize = 1;
/// The handler is given the signal's details.
pub const SA_SIGINFO: c_int = 4;
/// The handler runs on the thread's stack for signals, if it has one.
pub const SA_ONSTACK: c_int = 0x0800_0000;

pub const EINTR: c_int = 4;
pub const EFAULT: c_int = 14;

pub const O_RDWR: c_int = 0o2;
pub const O_WRONLY: c_int = 0o1;
pub const O_CREAT: c_int = 0o100;
pub const O_EXCL: c_int = 0o200;
pub const O_NOCTTY: c_int = 0o400;
pub const O_NONBLOCK: c_int = 0o4000;
pub const O_DIRECTORY: c_int = 0o200_000;
pub const O_NOFOLLOW: c_int = 0o400_000;
pub const O_CLOEXEC: c_int = 0o2_000_000;
pub const O_PATH: c_int = 0o10_000_000;
pub const RENAME_NOREPLACE: c_uint = 1;
pub const F_GETFD: c_int = 1;
