//! Lines on standard error that tell which step of the work on a large frame begins.

/// Frames of fewer sites are done before anyone looks.
const LARGE: usize = 1 << 20;

#[derive(Clone, Copy, Debug)]
pub struct Progress {
    shown: bool,
}

impl Progress {
    /// For a frame of this many sites.
    pub fn of(sites: usize) -> Self {
        Progress {
            shown: sites >= LARGE,
        }
    }

    /// A step begins.
    pub fn step(self, what: &str) {
        if self.shown {
            eprintln!("bayer-tool: {what}");
        }
    }
}
