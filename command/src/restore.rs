//! `restore`: loads, writes, and says whether the bytes came back.

use crate::call::{Call, Command, Stop, ACCEPTED};
use crate::files;
use crate::json::Object;
use crate::out::{self, Out};
use crate::plain::differs;
use crate::text;
use kollafrin::Stores;
use std::fs::{self, File, OpenOptions};
use std::io::{self, ErrorKind, Write};
use std::path::{Path, PathBuf};
use std::process;

pub const COMMAND: Command = Command {
    name: "restore",
    usage: "kollafrin restore [--module-order] [--force] [--grammar FILE] [--json] FILE -o OUT",
    does: "Loads a module, writes it to OUT in the order read, and says whether the bytes came back,\nand where not.",
    options: &["--module-order", "--force", "--grammar", "-o"],
    paths: (1, 1),
    run,
};

fn run(call: &Call) -> Result<u8, Stop> {
    let Some(to) = &call.out else { return Err(Stop::Wrong(format!("it is called as: {}", COMMAND.usage))) };
    let grammar = files::grammar(call)?;
    let path = &call.paths[0];
    let bytes = files::read_one(path)?;
    let mut stores = Stores::default();
    let mut out = Out::new();
    let records = text::accepted(call, &mut out, path, &bytes, grammar.as_deref(), &mut stores)?;
    let written = if call.module_order { records.write_module_order() } else { records.write_parse_order() };
    let written = written.map_err(|error| files::failed(path, &error))?;
    let differs = differs(&bytes, &written);
    let same = differs.map_or("the same as".into(), |at| format!("first other at byte {at} than"));
    let said = format!("{}: {} bytes, {same} {}", to.display(), written.len(), path.display());
    if to.as_os_str() == "-" {
        out.put(&written)?;
        out.flush()?;
        out::complain(&said);
        return Ok(ACCEPTED);
    }
    write(to, &written, call.force)?;
    if call.json {
        let object = Object::new().text("file", &path.to_string_lossy()).plain("accepted", true).text("out", &to.to_string_lossy());
        let object = object.plain("bytes", written.len()).plain("same", differs.is_none());
        out.line(&differs.iter().fold(object, |object, at| object.plain("differs", at)).end())?;
    } else {
        out.line(&said)?;
    }
    out.flush()?;
    Ok(ACCEPTED)
}

/// Writes a file under another name beside it, which is then given its own: nothing half written ever stands under it. One that is there
/// stays, unless it is to be written over.
pub fn write(path: &Path, bytes: &[u8], force: bool) -> Result<(), Stop> {
    let failed = |fault: io::Error| {
        Stop::Failed(match fault.kind() {
            ErrorKind::AlreadyExists => format!("{}: is there already; --force writes over it", path.display()),
            _ => format!("{}: cannot be written: {fault}", path.display()),
        })
    };
    let (mut file, beside) = beside(path).map_err(failed)?;
    let written =
        file.write_all(bytes)
            .and_then(|()| file.sync_all())
            .and_then(|()| if force { fs::rename(&beside, path) } else { named(&beside, path) });
    if written.is_err() || !force {
        let _ = fs::remove_file(&beside);
    }
    written.map_err(failed)
}

/// Gives a file its name where nothing has it. Where the file system has no links, one that comes into being at the same moment is lost.
fn named(beside: &Path, path: &Path) -> io::Result<()> {
    match fs::hard_link(beside, path) {
        Err(fault) if fault.kind() != ErrorKind::AlreadyExists => match fs::symlink_metadata(path) {
            Ok(_) => Err(ErrorKind::AlreadyExists.into()),
            Err(_) => fs::rename(beside, path),
        },
        done => done,
    }
}

/// A new file in the folder of another, for this process alone.
fn beside(path: &Path) -> io::Result<(File, PathBuf)> {
    for number in 0..100 {
        let name = path.with_file_name(format!(".kollafrin-{}-{number}", process::id()));
        match OpenOptions::new().write(true).create_new(true).open(&name) {
            Err(fault) if fault.kind() == ErrorKind::AlreadyExists => (),
            opened => return opened.map(|file| (file, name)),
        }
    }
    Err(io::Error::new(ErrorKind::Other, "no name is free beside it"))
}
