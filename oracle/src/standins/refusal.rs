//! Refusals that the Rust meets as panics, and the call that turns them into numbers.

use std::any::Any;
use std::cell::Cell;
use std::panic::{self, AssertUnwindSafe};
use std::sync::Once;

use super::Result;

/// What a stand-in panics with, in place of the runtime's own panic.
struct Refused(u64);

/// `do_branding` itself asserts that bindings and parameters are equal in number.
const COUNTS_DIFFER: &str = "assertion `left == right` failed";

thread_local! {
    static CATCHING: Cell<bool> = const { Cell::new(false) };
}

/// Stops the running function of capnpc with a number of document 01.
pub fn refuse(number: u64) -> ! {
    panic::panic_any(Refused(number))
}

/// What `run`, a call of capnpc's functions, gives, or the number of its refusal. Any other panic or error is a fault
/// of the stand-ins and is passed on.
pub fn caught<T>(run: impl FnOnce() -> Result<T>) -> std::result::Result<T, u64> {
    keep_refusals_silent();
    let before = CATCHING.replace(true);
    let result = panic::catch_unwind(AssertUnwindSafe(run));
    CATCHING.set(before);
    match result {
        Ok(Ok(value)) => Ok(value),
        Ok(Err(error)) => Err(error.refusal().unwrap_or_else(|| panic!("an error without a number: {error:?}"))),
        Err(payload) => Err(number(payload.as_ref()).unwrap_or_else(|| panic::resume_unwind(payload))),
    }
}

fn number(payload: &(dyn Any + Send)) -> Option<u64> {
    if let Some(Refused(number)) = payload.downcast_ref() {
        return Some(*number);
    }
    payload.downcast_ref::<String>().filter(|message| message.starts_with(COUNTS_DIFFER)).map(|_| 8)
}

/// A caught panic prints nothing, unless it is no refusal.
fn keep_refusals_silent() {
    static ONCE: Once = Once::new();
    ONCE.call_once(|| {
        let print = panic::take_hook();
        panic::set_hook(Box::new(move |info| {
            if !CATCHING.get() || number_of(info).is_none() {
                print(info);
            }
        }));
    });
}

fn number_of(info: &panic::PanicHookInfo) -> Option<u64> {
    let payload = info.payload();
    if let Some(Refused(number)) = payload.downcast_ref() {
        return Some(*number);
    }
    info.payload_as_str().filter(|message| message.starts_with(COUNTS_DIFFER)).map(|_| 8)
}
