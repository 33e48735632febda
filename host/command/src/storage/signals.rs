//! Ctrl-C, TERM and a closed terminal: a file that is being written beside another one is removed before the call ends.

use std::ffi::{c_char, c_int, CStr, CString};
use std::io;
use std::ptr;
use std::sync::atomic::{AtomicPtr, Ordering};

/// signal.h of Linux.
const SIGHUP: c_int = 1;
const SIGINT: c_int = 2;
const SIGTERM: c_int = 15;
const ENDING: [c_int; 3] = [SIGHUP, SIGINT, SIGTERM];
const SIG_DFL: usize = 0;
const SIG_IGN: usize = 1;
const SIG_BLOCK: c_int = 0;
const SIG_SETMASK: c_int = 2;

/// A set of signals: 1,024 bits, in glibc and in musl.
pub type Signals = [u64; 16];

extern "C" {
    fn signal(number: c_int, handler: usize) -> usize;
    fn raise(number: c_int) -> c_int;
    fn unlink(path: *const c_char) -> c_int;
    fn sigemptyset(set: *mut Signals) -> c_int;
    fn sigaddset(set: *mut Signals, number: c_int) -> c_int;
    fn pthread_sigmask(how: c_int, set: *const Signals, old: *mut Signals) -> c_int;
}

/// The path of the file that is being written, if there is one; it comes from `CString::into_raw`.
static UNFINISHED: AtomicPtr<c_char> = AtomicPtr::new(ptr::null_mut());

/// Makes a file, and has it removed if the call is ended before `finished`. No signal comes between the two: a file
/// that was there before is never removed.
pub fn unfinished<T>(path: &CStr, make: impl FnOnce() -> io::Result<T>) -> io::Result<T> {
    let before = held_back();
    ENDING.into_iter().for_each(heed);
    let made = make();
    if made.is_ok() {
        note(path.to_owned().into_raw());
    }
    let_through(&before);
    made
}

/// The file has its name, or is gone.
pub fn finished() {
    note(ptr::null_mut());
}

fn note(path: *mut c_char) {
    let before = UNFINISHED.swap(path, Ordering::SeqCst);
    if !before.is_null() {
        // Safety: what stands there comes from `into_raw`, and was taken out just now.
        drop(unsafe { CString::from_raw(before) });
    }
}

/// A signal that the caller has ignored (nohup) stays ignored.
fn heed(number: c_int) {
    let handler: extern "C" fn(c_int) = ended;
    // Safety: the handler calls nothing but what may be called in one.
    unsafe {
        if signal(number, handler as usize) == SIG_IGN {
            signal(number, SIG_IGN);
        }
    }
}

/// Holds back the signals that end the call, on this thread; what was held back before.
fn held_back() -> Signals {
    let (mut set, mut before): (Signals, Signals) = ([0; 16], [0; 16]);
    // Safety: both sets are as long as the C library's.
    unsafe {
        sigemptyset(&mut set);
        for number in ENDING {
            sigaddset(&mut set, number);
        }
        pthread_sigmask(SIG_BLOCK, &set, &mut before);
    }
    before
}

/// This thread has the signals that are not in the set.
fn let_through(before: &Signals) {
    // Safety: the set is one that was taken, whole.
    unsafe { pthread_sigmask(SIG_SETMASK, before, ptr::null_mut()) };
}

/// The handler. The call ends by the signal, as it would without one.
extern "C" fn ended(number: c_int) {
    let path = UNFINISHED.load(Ordering::SeqCst);
    // Safety: signal, raise and unlink may be called in a handler, and the path ends with a zero.
    unsafe {
        if !path.is_null() {
            unlink(path);
        }
        signal(number, SIG_DFL);
        raise(number);
    }
}
