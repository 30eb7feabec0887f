//! `text`: the listing for people; and how a refused module is told.

use crate::call::{Call, Command, Stop, ACCEPTED};
use crate::files;
use crate::json::Object;
use crate::out::Out;
use kollafrin::{Error, Records, Stores, Told};
use std::path::Path;

pub const COMMAND: Command = Command {
    name: "text",
    usage: "kollafrin text [--grammar FILE] [--json] FILE",
    does: "Shows a module as text, by the names of its instructions and operands, in module order.",
    options: &["--grammar"],
    paths: (1, 1),
    run,
};

fn run(call: &Call) -> Result<u8, Stop> {
    let grammar = files::grammar(call)?;
    let path = &call.paths[0];
    let bytes = files::read_one(path)?;
    let mut stores = Stores::default();
    let mut out = Out::new();
    let records = accepted(call, &mut out, path, &bytes, grammar.as_deref(), &mut stores)?;
    let text = match records.disassemble() {
        Ok(text) => text,
        Err(Error::Refused(refusal)) => return Err(Stop::Refused(format!("{}: {refusal}", path.display()))),
        Err(error) => return Err(files::failed(path, &error)),
    };
    if call.json {
        out.line(&Object::new().text("file", &path.to_string_lossy()).plain("accepted", true).text("text", &text).end())?;
    } else {
        out.line(&text)?;
    }
    out.flush()?;
    Ok(ACCEPTED)
}

/// The records of an accepted module; a refused one makes an end.
pub fn accepted<'a>(
    call: &Call,
    out: &mut Out,
    path: &Path,
    bytes: &[u8],
    grammar: Option<&[u8]>,
    stores: &'a mut Stores,
) -> Result<Records<'a>, Stop> {
    let (records, refusal) = stores.load(bytes, grammar).map_err(|error| files::failed(path, &error))?;
    let Some(refusal) = refusal else { return Ok(records) };
    let told = refusal.told(bytes, grammar).map_err(|error| files::failed(path, &error))?;
    Err(end(call, out, path, &told))
}

/// The end that a refused module makes; where objects are asked for, it is one before.
pub fn end(call: &Call, out: &mut Out, path: &Path, told: &Told) -> Stop {
    let object = || refused(Object::new().text("file", &path.to_string_lossy()), told).end();
    let said = if call.json { out.line(&object()) } else { Ok(()) };
    said.and_then(|()| out.flush()).map_or_else(|stop| stop, |()| Stop::Refused(format!("{}: {told}", path.display())))
}

/// A refusal as the fields of an object.
pub fn refused(object: Object, told: &Told) -> Object {
    let refusal = &told.refusal;
    let mut object = object
        .plain("accepted", false)
        .plain("number", refusal.number)
        .plain("offset", refusal.offset)
        .plain("index", refusal.index)
        .plain("value", refusal.value);
    if let Some(instruction) = &told.instruction {
        object = object.text("instruction", instruction);
    }
    if let Some(kind) = told.kind {
        object = object.text("kind", kind);
    }
    object.text("words", &told.words)
}
