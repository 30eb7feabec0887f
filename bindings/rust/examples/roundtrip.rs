//! Loads a file, says what is in it, and writes it back.
//!
//!     cargo run --example roundtrip -- IN.spv OUT.spv

use kollafrin::Module;
use std::error::Error;

fn main() -> Result<(), Box<dyn Error>> {
    let args: Vec<String> = std::env::args().skip(1).collect();
    let [from, to] = args.as_slice() else {
        return Err("usage: roundtrip IN OUT".into());
    };
    let bytes = std::fs::read(from)?;
    let module = Module::load_builtin(&bytes)?;
    let (major, minor) = module.version();
    println!(
        "version {major}.{minor}, {} instructions, {} log bytes, {} string bytes, {} type entries",
        module.instructions().len(),
        module.log().len(),
        module.strings().len(),
        module.type_words().len() / 3
    );
    println!("standing: {}", if module.standing()? { "yes" } else { "no" });
    let written = module.write_parse_order()?;
    std::fs::write(to, &written)?;
    println!("{} bytes written, {}", written.len(), if written == bytes { "the same" } else { "not the same" });
    Ok(())
}
