//! Runs a program, and ends it with its status.

use std::ffi::OsString;
use std::panic;
use std::process::exit;
use std::sync::Mutex;

use signal_hook::consts::SIGPIPE;
use signal_hook::low_level::emulate_default_handler;

use crate::failure::{Failure, Outcome};
use crate::messages::say;

/// Where a panic happened. What it says may hold bytes of the input, and is not told.
static PLACE: Mutex<String> = Mutex::new(String::new());

/// Runs a program by its words. What goes wrong is one line on standard error, a panic too; but where nobody reads
/// standard output any more it ends by SIGPIPE.
pub fn run(program: &str, main: fn(Vec<OsString>) -> Outcome) -> ! {
    panic::set_hook(Box::new(|panicked| {
        if let (Some(place), Ok(mut known)) = (panicked.location(), PLACE.lock()) {
            *known = format!(" at {}:{}", place.file(), place.line());
        }
    }));
    let words = std::env::args_os().skip(1).collect();
    exit(match panic::catch_unwind(|| main(words)) {
        Ok(Ok(status)) => status,
        Ok(Err(Failure::Unread)) => {
            let _ = emulate_default_handler(SIGPIPE);
            Failure::Unread.status()
        }
        Ok(Err(failure)) => {
            say(program, failure.message());
            failure.status()
        }
        Err(_) => {
            let place = PLACE.lock().map(|place| place.clone()).unwrap_or_default();
            say(program, &format!("an error of the program itself{place}: please report it"));
            Failure::Memory.status()
        }
    })
}
