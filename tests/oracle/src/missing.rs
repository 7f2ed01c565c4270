//! The harness of a build without the Rust text: it can be named, and not run.

use judge::records::{Choices, Graph, Laid};

#[derive(Debug)]
pub struct Built;

#[derive(Debug)]
pub struct Passed;

pub fn lay(_graph: &Graph, _choices: Choices) -> Laid {
    missing()
}

pub fn built(_graph: &Graph) -> Built {
    missing()
}

pub fn built_resolved(_graph: &Graph) -> Built {
    missing()
}

impl Built {
    pub fn pass(&mut self, _choices: Choices) -> Passed {
        missing()
    }
}

fn missing() -> ! {
    panic!("the Rust text is missing: set RUCC_TEXT to the path of its layout.rs")
}
