//! A call taken apart: which command, its options, its paths; and the ways in which a run ends early.

use crate::out;
use std::ffi::{OsStr, OsString};
use std::path::PathBuf;

/// Nothing was refused.
pub const ACCEPTED: u8 = 0;
/// Something was refused.
pub const REFUSED: u8 = 1;
/// The call is wrong, or something cannot be read or written.
pub const FAILED: u8 = 2;
/// The reader of the output is gone: what a shell says of a program that the closed pipe ended.
const CLOSED: u8 = 141;

/// Why a run ends before its time.
#[derive(Debug)]
pub enum Stop {
    /// Help or version, which is all that was asked for.
    Told(String),
    /// The call is wrong.
    Wrong(String),
    /// Something is refused, so that nothing is left to do.
    Refused(String),
    /// Something cannot be read, written or held in memory.
    Failed(String),
    /// The reader of the output is gone.
    Closed,
}

impl Stop {
    /// Says why, and gives the status.
    pub fn say(self) -> u8 {
        let (text, status) = match self {
            Stop::Told(text) => return out::print(&text).map_or_else(Stop::say, |()| ACCEPTED),
            Stop::Wrong(text) => (format!("{text}; see kollafrin --help"), FAILED),
            Stop::Refused(text) => (text, REFUSED),
            Stop::Failed(text) => (text, FAILED),
            Stop::Closed => return CLOSED,
        };
        out::complain(&text);
        status
    }
}

/// A command: one for each call.
pub struct Command {
    /// Its name.
    pub name: &'static str,
    /// How it is called.
    pub usage: &'static str,
    /// What it does, a line or more.
    pub does: &'static str,
    /// The options that it takes besides `--json` and `--help`.
    pub options: &'static [&'static str],
    /// How many paths it takes, at least and at most.
    pub paths: (usize, usize),
    /// Runs it, and gives the status.
    pub run: fn(&Call) -> Result<u8, Stop>,
}

/// What was asked for.
#[derive(Debug, Default)]
pub struct Call {
    pub paths: Vec<PathBuf>,
    pub grammar: Option<PathBuf>,
    pub out: Option<PathBuf>,
    pub json: bool,
    pub plain: bool,
    pub standing: bool,
    pub module_order: bool,
    pub force: bool,
}

/// The options, and what each does.
const OPTIONS: [(&str, &str); 8] = [
    ("--grammar FILE", "load by the grammar in FILE and not by the built-in one"),
    ("-o OUT", "where to write"),
    ("--force", "write over an OUT that is there"),
    ("--module-order", "write in the order of the crate rspirv"),
    ("--plain", "also tell modules that are not plain, and where"),
    ("--standing", "also tell modules that do not stand, and where"),
    ("--json", "one JSON object a line, for machines"),
    ("--help, --version", "say this, or the version, and nothing else"),
];

impl Call {
    /// The command that is called, and what it is called with.
    pub fn of(args: impl Iterator<Item = OsString>, commands: &[&'static Command]) -> Result<(&'static Command, Call), Stop> {
        let mut args = args;
        let first = args.next().ok_or_else(|| Stop::Wrong("a command is missing".into()))?;
        let command = match first.to_str() {
            Some("--help" | "-h" | "help") => return Err(Stop::Told(help(commands))),
            Some("--version") => return Err(version()),
            name => *commands
                .iter()
                .find(|command| Some(command.name) == name)
                .ok_or_else(|| Stop::Wrong(format!("there is no command {}", first.to_string_lossy())))?,
        };
        let mut call = Call::default();
        let mut only_paths = false;
        while let Some(arg) = args.next() {
            let text = arg.to_string_lossy().into_owned();
            if only_paths || text == "-" || !text.starts_with('-') {
                call.paths.push(arg.into());
                continue;
            }
            let (name, given) = match text.split_once('=') {
                Some((name, _)) if name.starts_with("--") => (name.to_string(), Some(after_sign(&arg))),
                _ => (text, None),
            };
            let mut value =
                || given.clone().or_else(|| args.next()).map(PathBuf::from).ok_or_else(|| wrong(command, &name, "needs a value"));
            match name.as_str() {
                "--" => only_paths = true,
                "--help" | "-h" => return Err(Stop::Told(help(&[command]))),
                "--version" => return Err(version()),
                "--json" => call.json = true,
                name if !command.options.contains(&name) => return Err(wrong(command, name, "is no option of it")),
                "--grammar" => call.grammar = Some(value()?),
                "-o" => call.out = Some(value()?),
                "--force" => call.force = true,
                "--module-order" => call.module_order = true,
                "--plain" => call.plain = true,
                _ => call.standing = true,
            }
        }
        let (least, most) = command.paths;
        if call.paths.len() < least || call.paths.len() > most {
            return Err(Stop::Wrong(format!("it is called as: {}", command.usage)));
        }
        if call.paths.iter().chain(&call.grammar).filter(|path| path.as_os_str() == "-").count() > 1 {
            return Err(Stop::Wrong("standard input can be read once".into()));
        }
        Ok((command, call))
    }
}

fn wrong(command: &Command, option: &str, what: &str) -> Stop {
    Stop::Wrong(format!("{}: {option} {what}", command.name))
}

/// What stands after the first `=`.
fn after_sign(arg: &OsStr) -> OsString {
    #[cfg(unix)]
    {
        use std::os::unix::ffi::{OsStrExt, OsStringExt};
        let bytes = arg.as_bytes();
        let sign = bytes.iter().position(|&b| b == b'=').map_or(bytes.len(), |at| at + 1);
        OsString::from_vec(bytes[sign..].to_vec())
    }
    #[cfg(not(unix))]
    arg.to_string_lossy().split_once('=').map_or(OsString::new(), |(_, value)| value.into())
}

fn version() -> Stop {
    Stop::Told(format!("kollafrin {}\n", env!("CARGO_PKG_VERSION")))
}

fn help(commands: &[&Command]) -> String {
    let mut text = String::new();
    for command in commands {
        text += &format!("{}\n    {}\n", command.usage, command.does.replace('\n', "\n    "));
    }
    text += "\n`-` is standard input. Options:\n";
    for (option, does) in OPTIONS {
        let name = option.split([' ', ',']).next().unwrap_or(option);
        if commands.len() > 1 || name == "--json" || name == "--help" || commands[0].options.contains(&name) {
            text += &format!("    {option:18} {does}\n");
        }
    }
    text + "\nExit status: 0 all accepted; 1 something refused; 2 a wrong call, or a file that cannot be read or written.\n"
}
