//! The server's process: its input, its answers, its memory.

use std::io::{Read, Write};
use std::process::{Child, ChildStdin, ChildStdout, Command, Stdio};

pub struct Server {
    child: Child,
    answers: ChildStdout,
}

/// Memory of the process in kB, and its threads. `own` is what is resident of its heap, stacks and variables;
/// `resident` has pages of files too, which the system brings in and takes away as it likes.
#[derive(Clone, Copy, Debug, PartialEq, Eq)]
pub struct Memory {
    pub own: u64,
    pub resident: u64,
    pub threads: u64,
}

impl Server {
    pub fn start(program: &str) -> Result<Server, String> {
        let mut child = Command::new(program)
            .stdin(Stdio::piped())
            .stdout(Stdio::piped())
            .spawn()
            .map_err(|error| format!("{program}: {error}"))?;
        let answers = child.stdout.take().ok_or("no output")?;
        Ok(Server { child, answers })
    }

    /// The input, to be taken once; where it is dropped, it ends.
    pub fn input(&mut self) -> ChildStdin {
        self.child.stdin.take().expect("the input is taken once")
    }

    /// The next word, where there is one.
    pub fn word(&mut self) -> Option<u32> {
        let mut word = [0; 4];
        self.answers.read_exact(&mut word).ok()?;
        Some(u32::from_le_bytes(word))
    }

    /// So many bytes of output.
    pub fn output(&mut self, len: usize) -> Option<Vec<u8>> {
        let mut output = vec![0; len];
        self.answers.read_exact(&mut output).ok()?;
        Some(output)
    }

    /// Counted page by page: the sums that /proc/PID/statm has are not exact.
    pub fn memory(&self) -> Result<Memory, String> {
        Ok(Memory {
            own: self.number("smaps_rollup", "Anonymous:")?,
            resident: self.number("smaps_rollup", "Rss:")?,
            threads: self.number("status", "Threads:")?,
        })
    }

    /// The number after a word, in a file of the process.
    fn number(&self, file: &str, word: &str) -> Result<u64, String> {
        let text = std::fs::read_to_string(format!("/proc/{}/{file}", self.child.id()))
            .map_err(|error| format!("{file}: {error}"))?;
        text.lines()
            .find_map(|line| {
                line.strip_prefix(word)?
                    .split_whitespace()
                    .next()?
                    .parse()
                    .ok()
            })
            .ok_or(format!("{file} has no {word}"))
    }

    pub fn end(&mut self) {
        let _ = self.child.kill();
    }

    pub fn status(mut self) -> Result<i32, String> {
        let status = self.child.wait().map_err(|error| error.to_string())?;
        status
            .code()
            .ok_or("the server was ended by a signal".to_string())
    }
}

/// However the test ends, the server ends with it.
impl Drop for Server {
    fn drop(&mut self) {
        let _ = self.child.kill();
        let _ = self.child.wait();
    }
}

/// Whether the server took all of it.
pub fn send(input: &mut ChildStdin, bytes: &[u8]) -> bool {
    input.write_all(bytes).is_ok()
}
