//! The command `kollafrin`: it opens files and speaks to people. Whatever is said of a module is what the library answers. docs/REFERENCE.md
//! ("The command") has each call with an example.

mod book;
mod call;
mod check;
mod files;
mod grammar;
mod join;
mod json;
mod list;
mod out;
mod plain;
mod restore;
mod standing;
mod text;

use call::{Call, Command, Stop};
use std::process::ExitCode;

/// What can be called, each in a file of its own.
const COMMANDS: [&Command; 7] =
    [&check::COMMAND, &text::COMMAND, &list::COMMAND, &restore::COMMAND, &book::COMMAND, &grammar::COMMAND, &join::COMMAND];

fn main() -> ExitCode {
    let ran = Call::of(std::env::args_os().skip(1), &COMMANDS).and_then(|(command, call)| (command.run)(&call));
    ExitCode::from(ran.unwrap_or_else(Stop::say))
}
