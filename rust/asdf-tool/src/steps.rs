//! The steps of a change to a file. Tests build the tool with the feature `hooks`, in which a step can be made to fail, and the
//! tool can be made to stop or wait after it.

use std::io;

#[cfg(feature = "hooks")]
use crate::hooks::Hooks;

/// Does the steps of one change.
pub struct Steps {
    #[cfg(feature = "hooks")]
    hooks: Hooks,
}

impl Steps {
    /// Begins with no step done.
    pub fn new() -> Steps {
        Steps {
            #[cfg(feature = "hooks")]
            hooks: Hooks::from_environment(),
        }
    }

    /// Does one step.
    #[cfg(not(feature = "hooks"))]
    pub fn run<T>(&mut self, step: impl FnOnce() -> io::Result<T>) -> io::Result<T> {
        step()
    }

    /// Does one step, unless a test asked for a failure here.
    #[cfg(feature = "hooks")]
    pub fn run<T>(&mut self, step: impl FnOnce() -> io::Result<T>) -> io::Result<T> {
        self.hooks.before()?;
        let result = step();
        self.hooks.after();
        result
    }
}
