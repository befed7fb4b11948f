//! What tests can make happen in the steps of a change. The tool has this only if it is built with the feature `hooks`.

use crate::failure::note;
use std::env;
use std::io;
use std::path::Path;
use std::process;
use std::thread::sleep;
use std::time::{Duration, Instant};

/// The environment variable that says what happens at which step, such as `stop 3`.
const HOOK: &str = "ASDF_LAYOUT_HOOK";
/// The environment variable with the name of a file. The tool waits until there is such a file.
const GO: &str = "ASDF_LAYOUT_GO";
/// The system's number for an error of a device.
const EIO: i32 = 5;

/// What happens at a step.
#[derive(Clone, Copy, PartialEq)]
enum Event {
    /// The step is not done, as if a device failed.
    Fail,
    /// The tool stops immediately after the step, as if the power failed.
    Stop,
    /// The tool waits after the step.
    Wait,
}

/// Counts the steps, and makes something happen at one of them.
pub struct Hooks {
    begun: u32,
    asked: Option<(Event, u32)>,
}

impl Hooks {
    /// Reads from the environment what a test asked for.
    pub fn from_environment() -> Hooks {
        let asked = env::var(HOOK).ok();
        Hooks {
            begun: 0,
            asked: asked.and_then(|asked| parse(&asked)),
        }
    }

    /// Counts a step that begins, and makes it fail if a test asked for that.
    pub fn before(&mut self) -> io::Result<()> {
        self.begun += 1;
        match self.asked == Some((Event::Fail, self.begun)) {
            true => Err(io::Error::from_raw_os_error(EIO)),
            false => Ok(()),
        }
    }

    /// Stops or waits after a step if a test asked for that.
    pub fn after(&self) {
        match self.asked {
            Some((Event::Stop, step)) if step == self.begun => process::abort(),
            Some((Event::Wait, step)) if step == self.begun => wait(),
            _ => (),
        }
    }
}

/// Reads what a test asked for.
fn parse(asked: &str) -> Option<(Event, u32)> {
    let (event, step) = asked.split_once(' ')?;
    let event = match event {
        "fail" => Event::Fail,
        "stop" => Event::Stop,
        "wait" => Event::Wait,
        _ => return None,
    };
    Some((event, step.parse().ok()?))
}

/// Says that it waits, and waits. If the test is gone, it ends after a while.
fn wait() {
    note("waiting for a test");
    let go = env::var_os(GO).unwrap_or_default();
    let begun = Instant::now();
    while !Path::new(&go).exists() {
        if begun.elapsed() > Duration::from_secs(60) {
            process::abort();
        }
        sleep(Duration::from_millis(1));
    }
}
