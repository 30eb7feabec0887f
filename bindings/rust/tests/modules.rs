//! Modules through the safe crate: what is kept, what is refused and where, what is written.

use kollafrin::{builtin, join, new_book, old_book, Error, Module, Refusal, Stores, Unjoined, Value, MOST_MODULE_BYTES};

/// The header 07230203 00010000 0 0 0 and these words, as bytes.
fn module(words: &[u32]) -> Vec<u8> {
    [0x0723_0203, 0x0001_0000, 0, 0, 0].iter().chain(words).flat_map(|w| w.to_le_bytes()).collect()
}

fn refusal(loaded: Result<Module, Error>) -> (u32, u32, u32, u32) {
    let Err(Error::Refused(Refusal { number, offset, index, value, .. })) = loaded else { panic!("a refusal") };
    (number, offset, index, value)
}

fn refused(bytes: &[u8]) -> (u32, u32, u32, u32) {
    refusal(Module::load_builtin(bytes))
}

#[test]
fn the_fourteen_fittings() {
    let h = module(&[]);
    let mut swapped = h.clone();
    swapped[..4].reverse();
    assert_eq!(refused(&[]), (1, 0, 0, 0));
    assert_eq!(refused(&h[..19]), (1, 16, 0, 0));
    assert_eq!(refused(&swapped), (3, 0, 0, 0));
    let empty = Module::load_builtin(&h).unwrap();
    assert_eq!(empty.header(), [0x0723_0203, 0x0001_0000, 0, 0, 0]);
    assert_eq!(empty.instructions().len(), 0);
    assert_eq!(Module::load_builtin(&[&h[..], &[1, 2, 3]].concat()).unwrap(), empty);
    let model = Module::load_builtin(&module(&[0x0003_000E, 0, 1])).unwrap();
    assert_eq!(model.instruction_words(), [14, 4, 20, 0, 0, 0, 2, 3, 0, 0]);
    assert_eq!(model.log(), [0x0B, 0, 0, 0, 0, 0x0C, 1, 0, 0, 0]);
    assert_eq!(refused(&module(&[0])), (4, 20, 1, 0));
    assert_eq!(refused(&module(&[0x0001_FFFF])), (5, 20, 1, 65535));
    assert_eq!(refused(&module(&[0x0002_000E, 0])), (6, 28, 1, 0));
    assert_eq!(refused(&module(&[0x0004_000E, 0, 1, 0])), (7, 32, 1, 0));
    assert_eq!(refused(&module(&[0x0003_000E, 0])), (9, 28, 1, 0));
    let string = Module::load_builtin(&module(&[0x0003_0007, 1, 0x0000_6261])).unwrap();
    assert_eq!(string.strings(), b"ab");
    let padded = module(&[0x0003_0007, 1, 0x0100_6261]);
    assert_eq!(Module::load_builtin(&padded).unwrap(), string);
    assert_ne!(string.write_parse_order().unwrap(), padded);
    let long = Module::load_builtin(&module(&[0x0004_0015, 2, 0x40, 0, 0x0005_002B, 2, 3, 7, 1])).unwrap();
    assert_eq!(long.type_words(), [2, 64, 1, 3, 64, 1]);
    let constant = long.instructions().nth(1).unwrap();
    assert_eq!((constant.opcode, constant.result_type, constant.result_id, constant.word_count), (43, Some(2), Some(3), 5));
    let operands: Vec<_> = constant.operands().map(|o| (o.kind, o.value)).collect();
    assert_eq!(operands, [(36, Value::Long(4_294_967_303))]);
}

#[test]
fn operands_of_each_form() {
    // OpEntryPoint Fragment %4 "main" %5, OpSource GLSL 450
    let words = [0x0006_000F, 4, 4, 0x6E69_616D, 0, 5, 0x0003_0003, 2, 450];
    let module = Module::load_builtin(&module(&words)).unwrap();
    let all: Vec<Vec<_>> = module.instructions().map(|i| i.operands().map(|o| (o.kind, o.value)).collect()).collect();
    assert_eq!(
        all,
        [
            vec![(10, Value::Word(4)), (33, Value::Word(4)), (40, Value::Text(b"main")), (33, Value::Word(5))],
            vec![(9, Value::Word(2)), (34, Value::Word(450))]
        ]
    );
}

#[test]
fn a_refused_load_keeps_what_came_before() {
    let (kept, refusal) = Module::load_builtin_kept(&module(&[0x0002_0011, 0, 0x0001_0038])).unwrap();
    assert_eq!(refusal, Some(Refusal { number: 17, offset: 28, index: 2, ..Refusal::default() }));
    assert_eq!(kept.instructions().map(|i| i.opcode).collect::<Vec<_>>(), [17]);
    assert_eq!(kept.header()[0], 0x0723_0203);
    let said = refusal.unwrap().to_string();
    assert_eq!(said, "17 at byte 28, instruction 2: a function ends where none has begun");
}

#[test]
fn writing_gives_the_bytes_back() {
    let plain = module(&[0x0003_000E, 0, 1, 0x0003_0007, 1, 0x0000_6261]);
    let loaded = Module::load_builtin(&plain).unwrap();
    assert_eq!(loaded.write_parse_order().unwrap(), plain);
    assert!(loaded.is_plain() && loaded.breaks() == 0);
    let broken = module(&[0x0003_000E, 0, 1, 0x0003_0007, 1, 0x0100_6261]);
    let other = Module::load_builtin(&broken).unwrap();
    assert!(other == loaded && !other.is_plain() && other.breaks() == 43);
    let order = loaded.write_module_order().unwrap();
    assert_eq!(order[20..], plain[20..]);
    assert_eq!(order[8..12], 0x000F_0000u32.to_le_bytes());
    assert_eq!(loaded.standing(), Ok(true));
    // a capability after the memory model: module order puts it first, and the module does not stand
    let mixed = Module::load_builtin(&module(&[0x0003_000E, 0, 1, 0x0002_0011, 0])).unwrap();
    assert_eq!(mixed.write_module_order().unwrap()[20..], module(&[0x0002_0011, 0, 0x0003_000E, 0, 1])[20..]);
    assert_eq!(mixed.standing(), Ok(false));
}

#[test]
fn what_stands() {
    let stands = |words: &[&[u32]]| Module::load_builtin(&module(&words.concat())).unwrap().standing();
    let model = &[0x0003_000E, 0, 1][..];
    let declaration = &[0x0005_0036, 1, 2, 0, 3, 0x0003_0037, 1, 4, 0x0001_0038][..];
    let definition = &[0x0005_0036, 1, 2, 0, 3, 0x0002_00F8, 5, 0x0001_00FD, 0x0001_0038][..];
    assert_eq!(stands(&[model, declaration, definition]), Ok(true));
    assert_eq!(stands(&[model, definition, declaration]), Ok(false));
    assert_eq!(stands(&[declaration, definition]), Ok(false));
    assert_eq!(stands(&[model, model, declaration, definition]), Ok(false));
    assert_eq!(stands(&[]), Ok(false));
}

#[test]
fn records_from_elsewhere_are_checked() {
    let loaded = Module::load_builtin(&module(&[0x0003_000E, 0, 1])).unwrap();
    let mut words = loaded.instruction_words().to_vec();
    words[1] = 5;
    let bad = Module::from_stores(loaded.header(), words, loaded.log().to_vec(), vec![], vec![]);
    let refused = |index| Error::Refused(Refusal { number: 30, index, ..Refusal::default() });
    assert_eq!(bad.write_parse_order(), Err(refused(1)));
    assert_eq!(bad.write_module_order(), Err(refused(1)));
    assert_eq!(bad.standing(), Err(refused(1)));
    let left = [loaded.log(), &[33]].concat();
    let over = Module::from_stores(loaded.header(), loaded.instruction_words().to_vec(), left, vec![], vec![]);
    assert_eq!(over.standing(), Err(refused(2)));
    // the longest word count, and more than one can be
    let mut huge = loaded.instruction_words().to_vec();
    huge[7] = u32::MAX;
    let huge = Module::from_stores(loaded.header(), huge, loaded.log().to_vec(), vec![], vec![]);
    assert_eq!(huge.write_parse_order(), Err(refused(1)));
}

/// OpFunction, a line, a parameter, two blocks; in the first a capability and a parameter; a type; then a function with one block.
fn two_functions() -> Vec<u8> {
    let first = [0x0005_0036, 1, 2, 0, 3, 0x0001_013D, 0x0003_0037, 1, 4];
    let blocks = [0x0002_00F8, 5, 0x0002_0011, 1, 0x0003_0037, 1, 6, 0x0003_0001, 1, 7, 0x0001_00FD, 0x0002_00F8, 8, 0x0001_00FD];
    let rest = [0x0001_0038, 0x0002_0013, 1, 0x0005_0036, 1, 9, 0, 3, 0x0002_00F8, 10, 0x0001_00FD, 0x0001_0038];
    module(&[&first[..], &blocks, &rest].concat())
}

#[test]
fn numbers_of_functions_and_blocks() {
    let loaded = Module::load_builtin(&two_functions()).unwrap();
    let numbers: Vec<_> = loaded.instructions().map(|i| (i.tag, i.function, i.block)).collect();
    let first = [(12, 1, 0), (11, 0, 0), (13, 1, 0)];
    let blocks = [(14, 1, 1), (1, 0, 0), (13, 1, 0), (15, 1, 1), (15, 1, 1), (14, 1, 2), (15, 1, 2)];
    let rest = [(16, 1, 0), (11, 0, 0), (12, 2, 0), (14, 2, 1), (15, 2, 1), (16, 2, 0)];
    assert_eq!(numbers, [&first[..], &blocks, &rest].concat());
    // those of a refused module are there as far as it was read
    let (kept, refusal) = Module::load_builtin_kept(&two_functions()[..two_functions().len() - 8]).unwrap();
    assert_eq!(refusal.map(|refusal| refusal.number), Some(21));
    assert_eq!(kept.instructions().last().map(|i| (i.tag, i.function, i.block)), Some((14, 2, 1)));
}

#[test]
fn numbers_are_not_read_by_the_writers() {
    let bytes = two_functions();
    let loaded = Module::load_builtin(&bytes).unwrap();
    let mut words = loaded.instruction_words().to_vec();
    for (n, record) in words.chunks_exact_mut(10).enumerate() {
        (record[8], record[9]) = (u32::MAX - n as u32, 7 * n as u32);
    }
    let other = Module::from_stores(loaded.header(), words, loaded.log().to_vec(), loaded.strings().to_vec(), vec![]);
    assert_eq!(other.instructions().nth(2).map(|i| (i.function, i.block)), Some((u32::MAX - 2, 14)));
    assert_ne!(other, loaded);
    assert_eq!(other.write_parse_order(), Ok(bytes));
    assert_eq!(other.write_module_order(), loaded.write_module_order());
    assert_eq!(other.disassemble(), loaded.disassemble());
    assert_eq!((other.standing(), loaded.standing()), (Ok(false), Ok(false)));
}

/// Of each record the first eight words.
fn eight(words: &[u32]) -> Vec<u32> {
    words.chunks(10).flat_map(|record| &record[..8]).copied().collect()
}

#[test]
fn books_are_turned_and_back() {
    let bytes = two_functions();
    let loaded = Module::load_builtin(&bytes).unwrap();
    let (new, log, strings) = (loaded.instruction_words(), loaded.log(), loaded.strings());
    let old = loaded.old_book().unwrap();
    assert_eq!((old.len(), &old), (8 * 16, &eight(new)));
    assert_eq!(old_book(new, log, strings).as_ref(), Ok(&old));
    assert_eq!(new_book(&old, log, strings).as_deref(), Ok(new));
    let back = Module::from_old_book(loaded.header(), &old, log.to_vec(), strings.to_vec(), loaded.type_words().to_vec()).unwrap();
    assert_eq!(back, loaded);
    assert_eq!(back.write_parse_order(), Ok(bytes.clone()));
    assert_eq!((back.write_module_order(), back.disassemble()), (loaded.write_module_order(), loaded.disassemble()));
    // the records in stores that are kept, also of a module that is refused, which ends inside a block
    let mut stores = Stores::default();
    let (records, refusal) = stores.load(&bytes[..bytes.len() - 8], None).unwrap();
    assert_eq!(refusal.map(|refusal| refusal.number), Some(21));
    let old = records.old_book().unwrap();
    assert_eq!((records.instruction_words(), records.strings()), (&new[..140], strings));
    assert_eq!(new_book(&old, records.log(), records.strings()).as_deref(), Ok(&new[..140]));
    assert_eq!(records.type_words(), loaded.type_words());
    // words past the last record; no records
    assert_eq!(new_book(&[&eight(new)[..], &[7; 7]].concat(), log, strings).as_deref(), Ok(new));
    assert_eq!(old_book(&[new, &[7; 9]].concat(), log, strings), Ok(eight(new)));
    assert_eq!((new_book(&[], &[], &[]), old_book(&[], &[], &[])), (Ok(vec![]), Ok(vec![])));
    assert_eq!((new_book(&[7; 7], &[], &[]), Module::default().old_book()), (Ok(vec![]), Ok(vec![])));
}

#[test]
fn books_that_are_not_turned() {
    let refused = |number, index| Err(Error::Refused(Refusal { number, index, ..Refusal::default() }));
    let loaded = Module::load_builtin(&two_functions()).unwrap();
    let (new, log, strings) = (loaded.instruction_words(), loaded.log(), loaded.strings());
    // a number that is not called for, in each record
    for record in 0..16 {
        for word in [8, 9] {
            let mut other = new.to_vec();
            other[10 * record + word] ^= 1;
            other[159] ^= 2;
            assert_eq!(old_book(&other, log, strings), refused(33, record as u32 + 1));
            assert_eq!(new_book(&eight(&other), log, strings).as_deref(), Ok(new));
            // a bad record behind it goes before
            other[151] = 11;
            assert_eq!(old_book(&other, log, strings), refused(30, 16));
        }
    }
    // each of the eight words; a result type or id that is there may be any
    for at in (0..160).filter(|at| at % 10 < 8 && !(matches!(at % 10, 3 | 4) && new[*at] != 0)) {
        let mut other = new.to_vec();
        other[at] = other[at].wrapping_add(65_537);
        assert_eq!(old_book(&other, log, strings), refused(30, at as u32 / 10 + 1), "{at}");
        assert_eq!(new_book(&eight(&other), log, strings), refused(30, at as u32 / 10 + 1), "{at}");
    }
    // bytes that are left over, or lack
    let longer = [log, &[33]].concat();
    assert_eq!((old_book(new, &longer, strings), new_book(&eight(new), &longer, strings)), (refused(30, 17), refused(30, 17)));
    assert_eq!((old_book(new, log, b"x"), new_book(&eight(new), log, b"x")), (refused(30, 17), refused(30, 17)));
    assert_eq!((old_book(new, &log[..1], strings), new_book(&eight(new), &log[..1], strings)), (refused(30, 1), refused(30, 1)));
    assert_eq!((old_book(&[], log, &[]), new_book(&[], log, &[])), (refused(30, 1), refused(30, 1)));
    // one kind taken for the other
    assert_eq!(new_book(new, log, strings), refused(30, 2));
    assert_eq!(old_book(&eight(new), log, strings), refused(30, 2));
    let said = Error::Refused(Refusal { number: 33, index: 4, ..Refusal::default() }).to_string();
    assert_eq!(said, "33 at record 4: the function or block number is not the one that the tags call for");
}

#[test]
fn a_module_as_text() {
    let loaded = Module::load_builtin(&module(&[0x0003_000E, 0, 1, 0x0003_0007, 1, 0x0022_5C0A])).unwrap();
    let text = "; SPIR-V\n; Version: 1.0\n; Generator: rspirv\n; Bound: 0\nOpMemoryModel Logical GLSL450\n%1 = OpString \"\\x0A\\\\\\\"\"";
    assert_eq!(loaded.disassemble().as_deref(), Ok(text));
    // an addressing model that has no name
    let mut log = loaded.log().to_vec();
    log[1] = 9;
    let other = Module::from_stores(loaded.header(), loaded.instruction_words().to_vec(), log, loaded.strings().to_vec(), vec![]);
    assert_eq!(other.disassemble(), Err(Error::Refused(Refusal { number: 30, index: 1, ..Refusal::default() })));
}

#[test]
fn a_house_row_beside_the_built_in_grammar() {
    let house = [1, 0x00, 0xF0, 2, 33, 0];
    let both = join(&builtin().unwrap(), &house).unwrap();
    assert_eq!(both.len(), 12_257);
    let used = module(&[0x0005_0036, 1, 2, 0, 3, 0x0002_00F8, 4, 0x0002_F000, 7, 0x0001_00FD, 0x0001_0038]);
    assert_eq!(refused(&used), (5, 48, 3, 61_440));
    let loaded = Module::load(&used, &both).unwrap();
    assert_eq!(loaded.instruction_words()[20..30], [0xF000, 15, 48, 0, 0, 10, 1, 2, 1, 1]);
    assert_eq!(loaded.log()[10..], [33, 7, 0, 0, 0]);
    assert_eq!(join(&both, &house), Ok(both.clone()));
    assert_eq!(join(&house, &builtin().unwrap()), Ok(both));
    assert_eq!(join(&house, &[]).as_deref(), Ok(&house[..]));
    let unjoined = |number, place, value| Err(Error::Unjoined(Unjoined { number, place, value }));
    assert_eq!(join(&house, &[1, 0x00, 0xF0]), unjoined(34, 0, 61_440));
    assert_eq!(join(&[3, 9, 1, 0, 0, 0, 4, 33], &[3, 9, 1, 0, 0, 0]), unjoined(34, 9, 1));
    assert_eq!(join(&[9], &house), unjoined(24, 0, 0));
    assert_eq!(join(&[3, 25, 1, 0, 0, 0, 4, 9], &[3, 9, 1, 0, 0, 0, 4, 33]), unjoined(24, 0, 0));
}

#[test]
fn no_records_are_a_header() {
    let header = [0x0723_0203, 0x0001_0000, 0, 0, 0];
    let empty = Module::from_stores(header, vec![], vec![], vec![], vec![]);
    assert_eq!(empty.write_parse_order().unwrap(), module(&[]));
    assert_eq!(empty.write_module_order().unwrap().len(), 20);
}

#[test]
fn grammars() {
    let grammar = builtin().unwrap();
    assert_eq!(grammar.len(), 12_251);
    let bytes = module(&[0x0003_000E, 0, 1]);
    assert_eq!(Module::load(&bytes, &grammar), Module::load_builtin(&bytes));
    assert_eq!(refusal(Module::load(&bytes, &[5])), (24, 0, 0, 0));
    assert_eq!(refusal(Module::load(&bytes, &[])), (5, 20, 1, 14));
}

#[test]
fn a_module_that_is_too_long() {
    assert_eq!(refused(&vec![0; MOST_MODULE_BYTES + 1]), (31, 0, 0, 0));
}

#[test]
fn every_error_says_what_it_is() {
    let refusal = Refusal { number: 30, index: 1, ..Refusal::default() };
    assert_eq!(Error::Refused(refusal).to_string(), refusal.to_string());
    let unjoined = Unjoined { number: 24, ..Unjoined::default() };
    assert_eq!(Error::Unjoined(unjoined).to_string(), unjoined.to_string());
    assert_eq!(Error::NoMemory.to_string(), "no memory");
    assert_eq!(Error::Version(7).to_string(), "the library has version 7, and this crate is for version 3");
}

/// Every module kept under samples/: loaded and written back, or refused without a panic.
#[test]
fn the_samples() {
    let samples = concat!(env!("CARGO_MANIFEST_DIR"), "/../../samples");
    let mut folders = vec![std::path::PathBuf::from(samples)];
    let mut accepted = 0;
    while let Some(folder) = folders.pop() {
        let Ok(entries) = std::fs::read_dir(&folder) else { continue };
        for entry in entries {
            let path = entry.unwrap().path();
            if path.is_dir() {
                folders.push(path);
            } else if path.extension().map_or(false, |e| e == "spv") {
                let bytes = std::fs::read(&path).unwrap();
                if let Ok(module) = Module::load_builtin(&bytes) {
                    assert_eq!(module.write_parse_order().unwrap(), bytes, "{}", path.display());
                    accepted += 1;
                }
            }
        }
    }
    assert!(accepted > 0);
}
