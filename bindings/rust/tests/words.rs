//! What is said to people, and the names of numbers: the same in this crate, in the header and in docs/REFERENCE.md.

use kollafrin::{builtin, join, kind, opcode_name, presence, sentence, tag, Module, Refusal, Unjoined};
use kollafrin::{MISSING, OLD_RECORD, RECORD, VERSION};
use std::collections::{BTreeMap, HashSet};

fn file(path: &str) -> String {
    let path = format!("{}/../../{path}", env!("CARGO_MANIFEST_DIR"));
    std::fs::read_to_string(&path).unwrap_or_else(|fault| panic!("{path}: {fault}"))
}

/// The numbers that are given, rising, by the header.
fn numbers() -> Vec<u32> {
    let header = file("include/kollafrin.h");
    let numbers = header.split("enum kollafrin_number {").nth(1).unwrap().split("};").next().unwrap();
    numbers.lines().filter_map(|line| line.split(" = ").nth(1)?.split([',', ' ']).next()?.parse().ok()).collect()
}

/// The rows of the table that follows a heading of the reference, each as its cells.
fn table(reference: &str, heading: &str) -> Vec<Vec<String>> {
    let part = reference.split(&format!("\n{heading}\n")).nth(1).unwrap_or_else(|| panic!("no {heading}"));
    let rows = part.lines().skip_while(|line| !line.starts_with("|---")).skip(1).take_while(|line| line.starts_with('|'));
    rows.map(|row| row.trim_matches('|').split('|').map(|cell| cell.trim().to_string()).collect()).collect()
}

#[test]
fn every_number_has_its_own_sentence() {
    let given = numbers();
    let all: HashSet<&str> = given.iter().copied().map(sentence).chain([MISSING]).collect();
    assert_eq!(all.len(), given.len() + 1);
    for number in (0..100).chain([u32::MAX]).filter(|number| !given.contains(number)) {
        assert_eq!(sentence(number), "this number is not given", "the header lacks {number}");
    }
    assert!(!all.contains("this number is not given"));
}

#[test]
fn the_reference_has_the_same_sentences() {
    let rows: Vec<(u32, String)> =
        table(&file("docs/REFERENCE.md"), "### In words").into_iter().map(|row| (row[0].parse().unwrap(), row[1].clone())).collect();
    let mut all: Vec<(u32, String)> = numbers().into_iter().map(|number| (number, sentence(number).to_string())).collect();
    all.insert(10, (9, MISSING.to_string()));
    assert_eq!(rows, all);
}

#[test]
fn the_header_has_the_same_sentences() {
    let header = file("include/kollafrin.h");
    for number in numbers().into_iter().filter(|&number| number != 9) {
        assert!(header.contains(&format!("    case {number}: return \"{}\";\n", sentence(number))), "{number}");
    }
    let both = format!("    case 9: return missing ? \"{MISSING}\"\n                           : \"{}\";\n", sentence(9));
    assert!(header.contains(&both));
    assert_eq!(header.matches("    case ").count(), numbers().len());
}

/// The constants of an enum of the header, without what they all begin with.
fn constants(enumeration: &str, prefix: &str) -> BTreeMap<String, u32> {
    let header = file("include/kollafrin.h");
    let body = header.split(&format!("enum {enumeration} {{")).nth(1).unwrap().split('}').next().unwrap().to_string();
    let parts = body.split(prefix).skip(1).map(|part| part.split_once(" = ").unwrap());
    parts.map(|(name, rest)| (name.into(), rest.split(|c: char| !c.is_ascii_digit()).next().unwrap().parse().unwrap())).collect()
}

/// The constants of a part of this crate's source, `NAME NUMBER`.
fn own(part: &str) -> BTreeMap<String, u32> {
    let source = file("bindings/rust/src/kinds.rs");
    let body = source.split(&format!("pub mod {part} {{")).nth(1).unwrap().split("\n}\n").next().unwrap().to_string();
    let rows = body.lines().filter(|line| line.starts_with("        \""));
    rows.map(|row| row.rsplit(' ').collect::<Vec<_>>()).map(|row| (row[1].into(), row[0].parse().unwrap())).collect()
}

#[test]
fn the_header_has_the_same_constants() {
    assert_eq!(constants("kollafrin_kind", "KOLLAFRIN_KIND_"), own("kind"));
    assert_eq!(constants("kollafrin_tag", "KOLLAFRIN_TAG_"), own("tag"));
    let bits = [("RESULT_TYPE", presence::RESULT_TYPE), ("RESULT_ID", presence::RESULT_ID)];
    assert_eq!(constants("kollafrin_presence", "KOLLAFRIN_PRESENCE_"), bits.map(|(name, bit)| (name.to_string(), bit)).into());
    assert_eq!((own("kind").len(), own("tag").len()), (51, 16));
    assert_eq!((kind::CAPABILITY, tag::FUNCTION_END), (30, 16));
}

#[test]
fn the_reference_has_the_same_kinds() {
    let reference = file("docs/REFERENCE.md");
    let at = reference.find("| kind | name | form | kind | name | form |").unwrap();
    let mut named = BTreeMap::new();
    for row in reference[at..].lines().skip(2).take_while(|line| line.starts_with('|')) {
        let cells: Vec<&str> = row.trim_matches('|').split('|').map(str::trim).collect();
        for three in cells.chunks(3) {
            if let Ok(number) = three[0].parse::<u8>() {
                named.insert(number, three[1].split(' ').next().unwrap().to_string());
            }
        }
    }
    let own: BTreeMap<u8, String> = (0..=255).filter_map(|number| Some((number, kind::name(number)?.to_string()))).collect();
    assert_eq!(named, own);
}

#[test]
fn one_version() {
    let header = file("include/kollafrin.h");
    assert!(header.contains(&format!("#define KOLLAFRIN_VERSION {VERSION}\n")));
    assert_eq!(env!("CARGO_PKG_VERSION_MAJOR"), VERSION.to_string());
    let command = file("command/Cargo.toml");
    assert!(command.contains(&format!("\nversion = \"{}\"\n", env!("CARGO_PKG_VERSION"))));
}

#[test]
fn one_length_of_a_record() {
    let lengths = [("RECORD", RECORD), ("OLD_RECORD", OLD_RECORD)].map(|(name, length)| (name.to_string(), length as u32));
    assert_eq!(constants("kollafrin_record", "KOLLAFRIN_"), lengths.into());
    let loaded = Module::load_builtin(&module(&[0x0003_000E, 0, 1])).unwrap();
    assert_eq!(loaded.instruction_words().len(), RECORD);
    assert_eq!(loaded.old_book().map(|words| words.len()), Ok(OLD_RECORD));
    assert_eq!(table(&file("docs/REFERENCE.md"), "### Instructions: ten words each").len(), RECORD);
}

/// The header 07230203 00010000 0 0 0 and these words, as bytes.
fn module(words: &[u32]) -> Vec<u8> {
    [0x0723_0203, 0x0001_0000, 0, 0, 0].iter().chain(words).flat_map(|w| w.to_le_bytes()).collect()
}

fn refused(words: &[u32], grammar: Option<&[u8]>) -> (Refusal, Vec<u8>) {
    let bytes = module(words);
    let (_, refusal) = match grammar {
        Some(grammar) => Module::load_kept(&bytes, grammar).unwrap(),
        None => Module::load_builtin_kept(&bytes).unwrap(),
    };
    (refusal.unwrap(), bytes)
}

#[test]
fn refusals_in_words() {
    let said = |words: &[u32]| {
        let (refusal, bytes) = refused(words, None);
        (refusal.to_string(), refusal.told(&bytes, None).unwrap().to_string())
    };
    let both = |words: &[u32], one: &str, other: &str| assert_eq!(said(words), (one.to_string(), other.to_string()));
    both(
        &[0],
        "4 at byte 20, instruction 1: the instruction says that it has no words",
        "4 at byte 20, instruction 1: OpNop: the instruction says that it has no words",
    );
    both(
        &[0x0001_FFFF],
        "5 at byte 20, instruction 1, opcode 65535: the opcode is not known to this grammar",
        "5 at byte 20, instruction 1: opcode 65535 is not known to this grammar, SPIR-V 1.5 revision 4",
    );
    both(
        &[0x0002_0011, 5283],
        "10 at byte 24, instruction 1, value 5283: the value or mask is not known to this grammar",
        "10 at byte 24, instruction 1: OpCapability: Capability 5283 is not known to this grammar, SPIR-V 1.5 revision 4",
    );
    // the module is cut short; or the words are there, and a decoration's parameter lacks
    let cut = "9 at byte 28, instruction 1: the module ends inside an operand";
    both(&[0x0003_000E, 0], cut, cut);
    both(
        &[0x0002_0011, 1, 0x0003_0047, 1, 11],
        "9 at byte 40, instruction 2: a value or mask that belongs to an operand is missing at the end of the instruction's words",
        "9 at byte 40, instruction 2: OpDecorate: a value or mask that belongs to an operand is missing at the end of the instruction's words",
    );
    both(
        &[0x0003_0011, 1, 1],
        "7 at byte 28, instruction 1: words are left over after the last operand that the instruction has in this grammar",
        "7 at byte 28, instruction 1: OpCapability: words are left over after the last operand that the instruction has in this grammar, SPIR-V 1.5 revision 4",
    );
    both(
        &[0x0004_0034, 1, 2, 4000],
        "13 at byte 36, instruction 1: the embedded opcode is not known to this grammar",
        "13 at byte 36, instruction 1: OpSpecConstantOp: the embedded opcode 4000 is not known to this grammar, SPIR-V 1.5 revision 4",
    );
    both(
        &[0x0004_0034, 1, 2, 251],
        "14 at byte 36, instruction 1: the embedded operation has operands that are not read there",
        "14 at byte 36, instruction 1: OpSpecConstantOp: OpSwitch has operands that are not read in an embedded operation",
    );
    both(
        &[0x0005_0036, 1, 2, 0, 3],
        "16 at byte 40, instruction 2: the module ends inside a function",
        "16 at byte 40, instruction 2: the module ends inside a function",
    );
    let (refusal, bytes) = refused(&[], Some(&[5]));
    assert_eq!(refusal.told(&bytes, Some(&[5])).unwrap().to_string(), "24: the grammar is not well-formed");
    // by a grammar that has no row for an opcode with a name
    let (refusal, bytes) = refused(&[0x0002_0011, 0], Some(&[]));
    assert_eq!(
        refusal.told(&bytes, Some(&[])).unwrap().to_string(),
        "5 at byte 20, instruction 1: OpCapability: opcode 17 is not known to this grammar"
    );
}

/// A refusal put in words beside bytes that it is not of: whatever is said, nothing goes wrong.
#[test]
fn bytes_of_another_module() {
    let bytes = module(&[0x0002_0011, 1, 0x0003_0047, 1, 11, 0x0004_0034, 1, 2, 251]);
    for number in 0..=numbers().into_iter().max().unwrap() + 1 {
        for length in [0, 3, 19, 20, 23, 24, 30, bytes.len()] {
            for offset in [0, 3, 20, 24, 35, 56, 1000, u32::MAX] {
                for index in [0, 1, 2, 3, 4, u32::MAX] {
                    let refusal = Refusal { number, offset, index, value: 5, missing: false };
                    for grammar in [None, Some(&[][..]), Some(&[3, 1][..]), Some(&[1, 17][..])] {
                        assert!(refusal.told(&bytes[..length], grammar).is_ok());
                    }
                }
            }
        }
    }
}

/// Two grammars that are not joined: the row's instruction or the kind by its name, where there is one.
#[test]
fn what_clashes() {
    let said = |first: &[u8], second: &[u8]| join(first, second).unwrap_err().to_string();
    let (row, own) = ([1, 14, 0, 2, 11, 0], [1, 0x00, 0xF0, 2, 33, 0]);
    assert_eq!(said(&row, &[1, 14, 0]), "34: OpMemoryModel: the two grammars have row 14 each in its own way");
    assert_eq!(said(&[1, 0x00, 0xF0], &own), "34: the two grammars have row 61440 each in its own way");
    assert_eq!(said(&[3, 30, 1, 0, 0, 0, 4, 33], &[3, 30, 1, 0, 0, 0]), "34: the two grammars have Capability 1 each in its own way");
    for (first, second) in [(&[9][..], &own[..]), (&own, &[9]), (&[3, 25, 1, 0, 0, 0, 4, 9], &[3, 9, 1, 0, 0, 0, 4, 33])] {
        assert_eq!(said(first, second), "24: the grammar is not well-formed");
    }
    // whatever the numbers
    for number in [0, 24, 34, 35, u32::MAX] {
        for place in [0, 1, 52, 256, u32::MAX] {
            for value in [0, 14, 65_535, 65_536, u32::MAX] {
                let unjoined = Unjoined { number, place, value };
                assert_eq!(unjoined.to_string(), format!("{number}: {}", unjoined.words()));
                assert!(number == 34 || unjoined.words() == sentence(number));
            }
        }
    }
}

/// Of each kind that a row of the built-in grammar has a value or mask that is not known, alone and behind other operands.
#[test]
fn the_kind_of_what_is_not_known() {
    let kind = |words: &[u32]| {
        let (refusal, bytes) = refused(words, None);
        assert_eq!(refusal.number, 10, "{words:x?}");
        refusal.told(&bytes, None).unwrap().kind
    };
    let far = 0x7FFF_0000;
    assert_eq!(kind(&[0x0003_000E, far, 1]), Some("AddressingModel"));
    assert_eq!(kind(&[0x0003_000E, 0, far]), Some("MemoryModel"));
    assert_eq!(kind(&[0x0002_0011, 1, 0x0004_0047, 1, 11, far]), Some("BuiltIn"));
    assert_eq!(kind(&[0x0003_0047, 1, far]), Some("Decoration"));
    assert_eq!(kind(&[0x0004_003D, 1, 2, 3, 0x0005_003D, 1, 2, 3, far][4..]), Some("MemoryAccess"));
    assert_eq!(kind(&[0x0003_0003, far, 450]), Some("SourceLanguage"));
    assert_eq!(kind(&[0x0005_000F, far, 4, 0x6E69_616D, 0]), Some("ExecutionModel"));
    assert_eq!(kind(&[0x0005_0036, 1, 2, far, 3]), Some("FunctionControl"));
    assert_eq!(kind(&[0x0004_003B, 1, 2, far]), Some("StorageClass"));
    assert_eq!(kind(&[0x0009_0019, 1, 2, 1, 0, 0, 0, 1, far]), Some("ImageFormat"));
    assert_eq!(kind(&[0x0009_0019, 1, 2, far, 0, 0, 0, 1, 0]), Some("Dim"));
    // some bits of a mask are known, one is not
    assert_eq!(kind(&[0x0004_00F6, 1, 2, 0x8000_0001]), Some("LoopControl"));
    // in an embedded operation, and where the module ends with the word
    assert_eq!(kind(&[0x0006_0034, 1, 2, 61, 3, far]), Some("MemoryAccess"));
    assert_eq!(kind(&[0x0008_003E, 1, 2, far]), Some("MemoryAccess"));
}

/// Every opcode of the built-in grammar has a name, and no other one.
#[test]
fn names_of_opcodes() {
    let grammar = builtin().unwrap();
    let rows: HashSet<u16> = grammar
        .chunks(3)
        .take_while(|item| item[0] < 3)
        .filter(|item| item[0] == 1)
        .map(|item| u16::from_le_bytes([item[1], item[2]]))
        .collect();
    assert_eq!(rows.len(), 560);
    let mut names = HashSet::new();
    for opcode in (0..=7000).chain(65_000..=65_535) {
        match opcode_name(opcode).unwrap() {
            Some(name) => assert!(rows.contains(&opcode) && name.starts_with("Op") && !name.contains(' ') && names.insert(name)),
            None => assert!(!rows.contains(&opcode), "{opcode}"),
        }
    }
    assert_eq!(names.len(), 560);
    for (opcode, name) in
        [(21, "OpTypeInt"), (54, "OpFunction"), (55, "OpFunctionParameter"), (56, "OpFunctionEnd"), (248, "OpLabel"), (253, "OpReturn")]
    {
        assert_eq!(opcode_name(opcode).unwrap().as_deref(), Some(name));
    }
}
