//! A program that answers calls, as a child of this one.

use std::io::{self, Read, Write};
use std::process::{Child, ChildStdin, ChildStdout, ExitStatus, Stdio};

use crate::programs::{Program, ADVICE};

/// Started on the first batch.
pub struct Library {
    program: Program,
    running: Option<Running>,
}

struct Running {
    child: Child,
    to: ChildStdin,
    from: ChildStdout,
}

impl Library {
    pub fn new(program: &Program) -> Library {
        Library {
            program: program.clone(),
            running: None,
        }
    }

    /// Sends a batch and takes it back with the answers put in.
    pub fn answer(&mut self, asked: &[u8], reply: &mut [u8]) -> Result<(), String> {
        let running = match &mut self.running {
            Some(running) => running,
            none => none.insert(Running::start(&self.program)?),
        };
        let exchanged = running.exchange(asked, reply);
        exchanged.map_err(|error| self.died(&error))
    }

    fn died(&mut self, error: &io::Error) -> String {
        let how = match self.running.take().map(Running::close) {
            Some(Ok(status)) => status.to_string(),
            _ => error.to_string(),
        };
        let name = self.program.name();
        format!("{name} left off within a batch ({how}); {ADVICE}")
    }

    /// The end of the input ends the program, and all must have been well with it.
    pub fn end(&mut self) -> Result<(), String> {
        let name = self.program.name();
        match self.running.take().map(Running::close) {
            Some(Ok(status)) if !status.success() => Err(format!("{name} ended with {status}")),
            Some(Err(error)) => Err(format!("{name}: {error}")),
            _ => Ok(()),
        }
    }
}

impl Running {
    fn start(program: &Program) -> Result<Running, String> {
        let mut child = program.start(Stdio::inherit())?;
        match (child.stdin.take(), child.stdout.take()) {
            (Some(to), Some(from)) => Ok(Running { child, to, from }),
            _ => Err(format!("{} has no pipes", program.name())),
        }
    }

    /// The program reads all of a batch before it answers, so writing it all at once can't block.
    fn exchange(&mut self, asked: &[u8], reply: &mut [u8]) -> io::Result<()> {
        self.to.write_all(asked)?;
        self.from.read_exact(reply)
    }

    /// The program ends when its pipes do.
    fn close(self) -> io::Result<ExitStatus> {
        let Running {
            mut child,
            to,
            from,
        } = self;
        drop((to, from));
        child.wait()
    }
}

/// A trial that fails leaves its program behind in the middle.
impl Drop for Library {
    fn drop(&mut self) {
        if let Some(running) = &mut self.running {
            let _ = running.child.kill();
            let _ = running.child.wait();
        }
    }
}
