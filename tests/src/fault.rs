//! What is said when a call into the library ends in a signal, such as by the touch of a forbidden
//! page: the call and the bytes that were lent to it. No comparison would get to say it.

use std::cell::Cell;
use std::ffi::{c_int, c_void};
use std::mem::transmute;
use std::ptr;
use std::sync::Once;

extern "C" {
    fn sigaction(signal: c_int, action: *const Action, before: *mut Action) -> c_int;
    fn write(file: c_int, bytes: *const c_void, length: usize) -> isize;
}

/// The C library's `struct sigaction` on x86-64.
#[repr(C)]
struct Action {
    handler: extern "C" fn(c_int),
    mask: [u64; 16],
    flags: c_int,
    restorer: usize,
}

// SIGILL, SIGABRT, SIGBUS, SIGFPE and SIGSEGV.
const DEADLY: [c_int; 5] = [4, 6, 7, 8, 11];

// On the thread's second stack, as the first may be used up; and the first time only, so that what
// is done again after the report is deadly.
const SA_ONSTACK: c_int = 0x0800_0000;
const SA_RESETHAND: c_int = 0x8000_0000_u32 as c_int;

/// What is lent for reading, by its name.
pub type Lent<'a> = (&'static str, &'a [u8]);

#[derive(Clone, Copy)]
struct Call {
    name: &'static str,
    /// In truth only as long as the call lasts.
    lent: &'static [Lent<'static>],
}

thread_local! {
    static CALL: Cell<Option<Call>> = const { Cell::new(None) };
}

static LISTENING: Once = Once::new();

/// Makes the call and has it on record while it lasts.
pub fn on_record(name: &'static str, lent: &[Lent], call: impl FnOnce() -> u64) -> u64 {
    LISTENING.call_once(|| {
        let action = Action {
            handler: report,
            mask: [0; 16],
            flags: SA_ONSTACK | SA_RESETHAND,
            restorer: 0,
        };
        for number in DEADLY {
            // SAFETY: the handler does only what a handler may.
            let done = unsafe { sigaction(number, &action, ptr::null_mut()) };
            assert_eq!(done, 0, "sigaction");
        }
    });
    // SAFETY: what is lent outlives the call, and after that it is off the record.
    let lent = unsafe { transmute::<&[Lent], &'static [Lent<'static>]>(lent) };
    CALL.set(Some(Call { name, lent }));
    let answer = call();
    CALL.set(None);
    answer
}

/// Allocates nothing and takes no lock, as it may interrupt anything.
extern "C" fn report(_: c_int) {
    if let Some(call) = CALL.get() {
        say(b"\na signal ended the call of ");
        say(call.name.as_bytes());
        for (name, bytes) in call.lent {
            say(b"\n");
            say(name.as_bytes());
            say(b": ");
            say_hexadecimal(bytes);
        }
        say(b"\n");
    }
}

fn say(bytes: &[u8]) {
    // SAFETY: the bytes are a slice's.
    unsafe { write(2, bytes.as_ptr().cast(), bytes.len()) };
}

fn say_hexadecimal(bytes: &[u8]) {
    const DIGITS: &[u8; 16] = b"0123456789abcdef";
    // No image that is lent for its content is longer.
    for chunk in bytes[..bytes.len().min(1 << 18)].chunks(256) {
        let mut text = [0; 512];
        for (digits, byte) in text.chunks_exact_mut(2).zip(chunk) {
            digits[0] = DIGITS[usize::from(byte >> 4)];
            digits[1] = DIGITS[usize::from(byte & 15)];
        }
        say(&text[..2 * chunk.len()]);
    }
}
