//! `join`: two grammars into one.

use crate::call::{Call, Command, Stop, ACCEPTED};
use crate::files;
use crate::json::Object;
use crate::out::{self, Out};
use crate::restore;
use kollafrin::{Error, Unjoined};
use std::path::Path;

pub const COMMAND: Command = Command {
    name: "join",
    usage: "kollafrin join [--force] [--json] FIRST SECOND -o OUT",
    does: "Joins two grammars into one, which is written to OUT; where they clash, the lowest\nrow or enumerant that does is told.",
    options: &["--force", "-o"],
    paths: (2, 2),
    run,
};

/// Said where each of the two is well-formed.
const TOGETHER: &str = "the two grammars together are not well-formed: they have more than 65,535 bytes, or a parameter in one is of a kind that has parameters in the other";

fn run(call: &Call) -> Result<u8, Stop> {
    let Some(to) = &call.out else { return Err(Stop::Wrong(format!("it is called as: {}", COMMAND.usage))) };
    let (first, second) = (&call.paths[0], &call.paths[1]);
    let grammars = [files::read_grammar(first)?, files::read_grammar(second)?];
    let mut out = Out::new();
    let joined = match kollafrin::join(&grammars[0], &grammars[1]) {
        Ok(joined) => joined,
        Err(Error::Unjoined(unjoined)) => return Err(unjoined_end(call, &mut out, &grammars, &unjoined)),
        Err(error) => return Err(Stop::Failed(error.to_string())),
    };
    let said = format!("{}: {} bytes, {} and {} joined", to.display(), joined.len(), first.display(), second.display());
    if to.as_os_str() == "-" {
        out.put(&joined)?;
        out.flush()?;
        out::complain(&said);
        return Ok(ACCEPTED);
    }
    restore::write(to, &joined, call.force)?;
    if call.json {
        out.line(&both(call).plain("accepted", true).text("out", &to.to_string_lossy()).plain("bytes", joined.len()).end())?;
    } else {
        out.line(&said)?;
    }
    out.flush()?;
    Ok(ACCEPTED)
}

/// The two grammars as the fields of an object.
fn both(call: &Call) -> Object {
    let name = |path: &Path| path.to_string_lossy().into_owned();
    Object::new().text("first", &name(&call.paths[0])).text("second", &name(&call.paths[1]))
}

/// The end that two grammars make which are not joined; where objects are asked for, it is one before. A grammar that is not well-formed by
/// itself is named alone.
fn unjoined_end(call: &Call, out: &mut Out, grammars: &[Vec<u8>; 2], unjoined: &Unjoined) -> Stop {
    let mut at = None;
    if unjoined.number == 24 {
        for (path, grammar) in call.paths.iter().zip(grammars) {
            match files::refusal(grammar) {
                Ok(None) => (),
                Ok(Some(_)) => at = at.or(Some(path)),
                Err(error) => return files::failed(path, &error),
            }
        }
    }
    let words = if unjoined.number == 24 && at.is_none() { TOGETHER.into() } else { unjoined.words() };
    let mut object = both(call);
    if let Some(path) = at {
        object = object.text("file", &path.to_string_lossy());
    }
    object = object.plain("accepted", false).plain("number", unjoined.number);
    object = object.plain("place", unjoined.place).plain("value", unjoined.value);
    if let Some(instruction) = unjoined.instruction() {
        object = object.text("instruction", &instruction);
    }
    if let Some(kind) = unjoined.kind() {
        object = object.text("kind", kind);
    }
    let said = if call.json { out.line(&object.text("words", &words).end()) } else { Ok(()) };
    let who = at.map_or_else(|| format!("{} and {}", call.paths[0].display(), call.paths[1].display()), |path| path.display().to_string());
    said.and_then(|()| out.flush()).map_or_else(|stop| stop, |()| Stop::Refused(format!("{who}: {}: {words}", unjoined.number)))
}
