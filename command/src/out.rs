//! What is said: results on standard output, complaints on standard error, and a line of progress where people look.

use crate::call::Stop;
use std::io::{self, BufWriter, IsTerminal, Stdout, Write};
use std::time::{Duration, Instant};

/// Fewer files than these need no progress.
const MANY: usize = 50;
/// How long a line of progress stands.
pub const A_WHILE: Duration = Duration::from_millis(100);

/// Standard output.
pub struct Out {
    to: BufWriter<Stdout>,
    /// How many there are, where progress is shown, and when it was last.
    progress: Option<(usize, Instant)>,
    shown: bool,
}

impl Out {
    pub fn new() -> Out {
        Out { to: BufWriter::with_capacity(1 << 16, io::stdout()), progress: None, shown: false }
    }

    /// Shows progress of so many, where these are many and both outputs are a terminal.
    pub fn of_many(count: usize) -> Out {
        let seen = count >= MANY && io::stdout().is_terminal() && io::stderr().is_terminal();
        Out { progress: seen.then(|| (count, Instant::now())), ..Out::new() }
    }

    /// Puts bytes out.
    pub fn put(&mut self, bytes: &[u8]) -> Result<(), Stop> {
        self.clear();
        self.to.write_all(bytes).map_err(failed)
    }

    /// Puts a line out.
    pub fn line(&mut self, line: &str) -> Result<(), Stop> {
        self.put(line.as_bytes())?;
        self.put(b"\n")
    }

    /// Says something on standard error, in its place between the lines.
    pub fn complain(&mut self, text: &str) -> Result<(), Stop> {
        self.clear();
        self.flush()?;
        complain(text);
        Ok(())
    }

    /// Nothing is held back.
    pub fn flush(&mut self) -> Result<(), Stop> {
        self.to.flush().map_err(failed)
    }

    /// So many are done.
    pub fn done(&mut self, done: usize) {
        if let Some((count, since)) = &mut self.progress {
            if since.elapsed() >= A_WHILE {
                *since = Instant::now();
                self.shown = true;
                let _ = write!(io::stderr(), "\r{done} of {count}");
            }
        }
    }

    /// Takes the line of progress away.
    pub fn clear(&mut self) {
        if self.shown {
            self.shown = false;
            let _ = write!(io::stderr(), "\r\x1b[K");
        }
    }
}

/// The output's own fault.
fn failed(fault: io::Error) -> Stop {
    match fault.kind() {
        io::ErrorKind::BrokenPipe => Stop::Closed,
        _ => Stop::Failed(format!("standard output: {fault}")),
    }
}

/// All of a text on standard output.
pub fn print(text: &str) -> Result<(), Stop> {
    let mut out = Out::new();
    out.put(text.as_bytes())?;
    out.flush()
}

/// A line on standard error. Where that is closed there is nobody to tell.
pub fn complain(text: &str) {
    let _ = writeln!(io::stderr(), "kollafrin: {text}");
}
