//! `list`: version and bound, a line for each instruction that was read, and how the load ended.

use crate::call::{Call, Command, Stop, ACCEPTED};
use crate::files;
use crate::json::Object;
use crate::out::Out;
use crate::text;
use kollafrin::Stores;

pub const COMMAND: Command = Command {
    name: "list",
    usage: "kollafrin list [--grammar FILE] [--json] FILE",
    does: "Shows a module's version and bound, a line for each instruction (index, offset, tag,\nopcode, words) and how the load ended; of a refused module what was read before the fault.",
    options: &["--grammar"],
    paths: (1, 1),
    run,
};

fn run(call: &Call) -> Result<u8, Stop> {
    let grammar = files::grammar(call)?;
    let path = &call.paths[0];
    let bytes = files::read_one(path)?;
    let mut stores = Stores::default();
    let (records, refusal) = stores.load(&bytes, grammar.as_deref()).map_err(|error| files::failed(path, &error))?;
    let mut out = Out::new();
    // a header that is refused has no version
    if refusal.map_or(true, |refusal| refusal.index > 0) {
        let ((major, minor), bound) = (records.version(), records.header()[3]);
        if call.json {
            out.line(&Object::new().text("version", &format!("{major}.{minor}")).plain("bound", bound).end())?;
        } else {
            out.line(&format!("module {major}.{minor} bound {bound}"))?;
        }
    }
    for (i, index) in records.instructions().zip(1..) {
        if call.json {
            let object = Object::new().plain("index", index).plain("offset", i.offset).plain("tag", i.tag);
            let object = object.plain("opcode", i.opcode).plain("words", i.word_count);
            out.line(&object.plain("function", i.function).plain("block", i.block).end())?;
        } else {
            out.line(&format!("{index} {} {} {} {}", i.offset, i.tag, i.opcode, i.word_count))?;
        }
    }
    let Some(refusal) = refusal else {
        let count = records.instructions().len();
        out.line(&if call.json {
            Object::new().plain("accepted", true).plain("instructions", count).end()
        } else {
            format!("accepted {count}")
        })?;
        out.flush()?;
        return Ok(ACCEPTED);
    };
    if !call.json {
        out.line(&format!("refused {} {} {}", refusal.number, refusal.offset, refusal.index))?;
    }
    let told = refusal.told(&bytes, grammar.as_deref()).map_err(|error| files::failed(path, &error))?;
    Err(text::end(call, &mut out, path, &told))
}
