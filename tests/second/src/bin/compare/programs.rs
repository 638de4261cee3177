//! The programs that are compared with the second one, and how they are run.

use std::env;
use std::io::{self, Write};
use std::path::{self, Path, PathBuf};
use std::process::{Child, Command, Stdio};

pub const ADVICE: &str = "`sh tests/compare.sh` builds it";
const PLAN_ADVICE: &str = "`tools/program plan` builds it";
const WHY_ADVICE: &str = "`tools/program why` builds it";

#[derive(Clone)]
pub struct Programs {
    /// Calls the library.
    calls: Program,
    plan: Program,
    why: Program,
    /// What is loaded before one of the latter two, so that it answers calls.
    again: PathBuf,
}

/// The words that a program is started with.
pub type Words = &'static [&'static str];

/// What answers a call. A program's words are those of its process.
#[derive(Clone, Copy, Debug, PartialEq)]
pub enum Asked {
    Library,
    Planner(Words),
    Why(Words),
}

/// A program, what runs it, and the words for both.
#[derive(Clone)]
pub struct Program {
    x86: PathBuf,
    before: Vec<PathBuf>,
    path: PathBuf,
    words: Words,
}

/// How a process ended, and what it wrote, with other bytes than printed ones as escapes.
#[derive(Debug, PartialEq)]
pub struct Ended {
    pub status: Option<i32>,
    pub out: String,
    pub said: String,
}

impl Programs {
    /// target/calls and the two programs as rt built them, or what SECOND_CALLS, SECOND_PLAN and
    /// SECOND_WHY name. The package's folder is asked for now: that of the building is another one
    /// where the repository was copied or moved with what it built.
    pub fn find() -> Result<Programs, String> {
        let folder = env::var_os("CARGO_MANIFEST_DIR").map(PathBuf::from);
        let folder = folder.ok_or("not run by cargo: `sh tests/compare.sh` does it")?;
        let root = folder.join("../..");
        let named = |variable: &str, usual: &str| {
            let named = env::var_os(variable).map(PathBuf::from);
            named.unwrap_or_else(|| root.join(usual))
        };
        let calls = there(&named("SECOND_CALLS", "target/calls"), ADVICE)?;
        let plan = there(&named("SECOND_PLAN", "crates/plan/out/plan"), PLAN_ADVICE)?;
        let why = there(&named("SECOND_WHY", "crates/why/out/why"), WHY_ADVICE)?;
        let program = |path: PathBuf| Program {
            x86: root.join("tools/x86"),
            before: Vec::new(),
            path,
            words: &[],
        };
        Ok(Programs {
            calls: program(calls),
            plan: program(plan),
            why: program(why),
            again: there(&root.join("target/again.so"), ADVICE)?,
        })
    }

    pub fn answering(&self, asked: Asked) -> Program {
        let program = self.program(asked);
        match asked {
            Asked::Library => program,
            Asked::Planner(_) | Asked::Why(_) => Program {
                before: vec![PathBuf::from("--preload"), self.again.clone()],
                ..program
            },
        }
    }

    /// The program with its words.
    fn program(&self, asked: Asked) -> Program {
        match asked {
            Asked::Library => self.calls.clone(),
            Asked::Planner(words) => self.plan.with(words),
            Asked::Why(words) => self.why.with(words),
        }
    }

    /// A program in a process of its own, with the text or file over a pipe.
    pub fn alone(&self, asked: Asked, text: &[u8]) -> Result<Ended, String> {
        let program = self.program(asked);
        let mut child = program.start(Stdio::piped())?;
        if let Some(mut to) = child.stdin.take() {
            // An overlong text need not be read to its end.
            let _ = to.write_all(text);
        }
        let ended = child.wait_with_output();
        let ended = ended.map_err(|error| format!("{}: {error}", program.name()))?;
        Ok(Ended {
            status: ended.status.code(),
            out: ended.stdout.escape_ascii().to_string(),
            said: ended.stderr.escape_ascii().to_string(),
        })
    }
}

fn there(file: &Path, advice: &str) -> Result<PathBuf, String> {
    if !file.is_file() {
        return Err(format!("there is no {}: {advice}", file.display()));
    }
    path::absolute(file).map_err(|error| error.to_string())
}

impl Program {
    fn with(&self, words: Words) -> Program {
        Program {
            words,
            ..self.clone()
        }
    }

    pub fn name(&self) -> String {
        let path = self.path.display().to_string();
        [&[&path[..]], self.words].concat().join(" ")
    }

    pub fn start(&self, said: Stdio) -> Result<Child, String> {
        let mut command = Command::new(&self.x86);
        command.arg("run").args(&self.before);
        command.arg(&self.path).args(self.words);
        command.stdin(Stdio::piped()).stdout(Stdio::piped());
        let failed = |error: io::Error| format!("{} can't be started: {error}", self.x86.display());
        command.stderr(said).spawn().map_err(failed)
    }
}
