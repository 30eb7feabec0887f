//! `grammar`: the built-in grammar's bytes.

use crate::call::{Call, Command, Stop, ACCEPTED};
use crate::json::Object;
use crate::out::Out;
use crate::restore;
use kollafrin::BUILTIN;
use std::io::{self, IsTerminal};

pub const COMMAND: Command = Command {
    name: "grammar",
    usage: "kollafrin grammar [-o OUT] [--force] [--json]",
    does: "Writes the bytes of the built-in grammar to OUT, or to standard output.",
    options: &["-o", "--force"],
    paths: (0, 0),
    run,
};

fn run(call: &Call) -> Result<u8, Stop> {
    let bytes = kollafrin::builtin().map_err(|error| Stop::Failed(error.to_string()))?;
    let mut out = Out::new();
    match &call.out {
        Some(path) if path.as_os_str() != "-" => restore::write(path, &bytes, call.force)?,
        _ if call.json => {
            let hex: String = bytes.iter().map(|byte| format!("{byte:02x}")).collect();
            out.line(&Object::new().text("grammar", BUILTIN).plain("bytes", bytes.len()).text("hex", &hex).end())?;
        }
        _ if io::stdout().is_terminal() => {
            return Err(Stop::Wrong("a grammar is bytes, and standard output is a terminal: give -o OUT".into()))
        }
        _ => out.put(&bytes)?,
    }
    out.flush()?;
    Ok(ACCEPTED)
}
