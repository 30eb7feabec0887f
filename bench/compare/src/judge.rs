//! Each input is put to the library and to its judges, and what happened is counted.

use crate::library::{self, byte_before, word_before, Form, Loaded};
use compare::books::{self, old_of, Turn};
use compare::grow::enough;
use compare::joining;
use compare::krate;
use compare::reading::{self, layout, layout_kind, Break, Grammar, Kind, Load, State, Stores, RECORD};
use compare::text;
use std::collections::BTreeMap;

/// Inputs of a group, and how many of them the library accepted.
#[derive(Clone, Copy, Default)]
pub struct Group {
    pub inputs: u64,
    pub accepted: u64,
}

pub struct Tally {
    pub inputs: u64,
    /// of these, put to the crate too
    pub with_crate: u64,
    pub differences: u64,
    pub shown: Vec<String>,
    pub numbers: [u64; 36],
    pub cells: [[u64; 3]; 19],
    pub kinds: [u64; 46],
    pub let_through: BTreeMap<&'static str, u64>,
    pub groups: BTreeMap<&'static str, Group>,
    pub plain: u64,
    /// accepted modules by what breaks them: 0 for plain ones, then as in `reading::BROKEN`
    pub broken: [u64; 8],
    pub standing: u64,
    /// records that break this rule of standing alone
    pub but_for: [u64; 4],
    /// records that show each of `NUMBERED`
    pub numbered: [u64; 4],
    /// books turned into new ones and into old ones, by the numbers of `TURNED`
    pub turned: [[u64; 4]; 2],
}

impl Default for Tally {
    fn default() -> Tally {
        Tally {
            inputs: 0,
            with_crate: 0,
            differences: 0,
            shown: vec![],
            numbers: [0; 36],
            cells: [[0; 3]; 19],
            kinds: [0; 46],
            let_through: BTreeMap::new(),
            groups: BTreeMap::new(),
            plain: 0,
            broken: [0; 8],
            standing: 0,
            but_for: [0; 4],
            numbered: [0; 4],
            turned: [[0; 4]; 2],
        }
    }
}

const MOST_SHOWN: usize = 10;

impl Tally {
    pub fn add(&mut self, other: Tally) {
        self.inputs += other.inputs;
        self.with_crate += other.with_crate;
        self.differences += other.differences;
        self.shown.extend(other.shown);
        self.shown.truncate(MOST_SHOWN);
        self.numbers.iter_mut().zip(other.numbers).for_each(|(a, b)| *a += b);
        self.cells.iter_mut().flatten().zip(other.cells.iter().flatten()).for_each(|(a, b)| *a += b);
        self.kinds.iter_mut().zip(other.kinds).for_each(|(a, b)| *a += b);
        other.let_through.into_iter().for_each(|(rule, times)| *self.let_through.entry(rule).or_default() += times);
        for (name, group) in other.groups {
            let ours = self.groups.entry(name).or_default();
            ours.inputs += group.inputs;
            ours.accepted += group.accepted;
        }
        self.plain += other.plain;
        self.broken.iter_mut().zip(other.broken).for_each(|(a, b)| *a += b);
        self.standing += other.standing;
        self.but_for.iter_mut().zip(other.but_for).for_each(|(a, b)| *a += b);
        self.numbered.iter_mut().zip(other.numbered).for_each(|(a, b)| *a += b);
        self.turned.iter_mut().flatten().zip(other.turned.iter().flatten()).for_each(|(a, b)| *a += b);
    }
}

/// The nineteen kinds of the layout table, numbered.
fn kind_number(kind: Kind) -> usize {
    match kind {
        Kind::Tag(tag) => tag as usize - 1,
        Kind::Line => 11,
        Kind::Variable => 12,
        Kind::Function => 13,
        Kind::FunctionParameter => 14,
        Kind::Label => 15,
        Kind::Terminator => 16,
        Kind::FunctionEnd => 17,
        Kind::Other => 18,
    }
}

pub const KIND_NAMES: [&str; 19] = [
    "Capability",
    "Extension",
    "ExtInstImport",
    "MemoryModel",
    "EntryPoint",
    "ExecutionMode",
    "strings, sources",
    "names",
    "ModuleProcessed",
    "annotations",
    "types, constants",
    "lines",
    "Variable, Undef",
    "Function",
    "FunctionParameter",
    "Label",
    "terminators",
    "FunctionEnd",
    "other",
];

/// What function and block numbers can show beside the layout cells.
pub const NUMBERED: [&str; 4] =
    ["a second function", "a second block", "a block number that starts again", "a block that goes on after a parameter"];

/// The numbers that a turn can give; 33 that into an old book alone.
pub const TURNED: [u32; 4] = [0, 25, 30, 33];

pub struct Judge<'a> {
    /// The built-in grammar as the separate reading has it.
    pub builtin: &'a Grammar,
    pub builtin_bytes: &'a [u8],
    pub tally: Tally,
}

/// An output of this length has room for any grammar.
const ROOM_ENOUGH: usize = 65_535;

/// A difference: what, the one value, the other.
type Difference = String;

fn differ<T: PartialEq + std::fmt::Debug>(what: &str, library: T, judge: T) -> Result<(), Difference> {
    if library == judge {
        return Ok(());
    }
    let mut text = format!("{what}: library {library:?}, judge {judge:?}");
    if text.len() > 1500 {
        let end = (0..=1500).rev().find(|n| text.is_char_boundary(*n)).unwrap_or(0);
        text.truncate(end);
        text.push_str(" ...");
    }
    Err(text)
}

/// The store up to its count is this, and past it as before the call.
fn store<T: PartialEq + Copy + std::fmt::Debug>(what: &str, lent: &[T], wanted: &[T], before: fn(usize) -> T) -> Result<(), Difference> {
    let Some(head) = lent.get(..wanted.len()) else {
        return Err(format!("{what}: {} wanted, {} lent", wanted.len(), lent.len()));
    };
    differ(what, head, wanted)?;
    match (wanted.len()..lent.len()).find(|n| lent[*n] != before(*n)) {
        Some(n) => Err(format!("{what}: changed past the count {}, at {n}: {:?}", wanted.len(), lent[n])),
        None => Ok(()),
    }
}

fn hex(bytes: &[u8]) -> String {
    let mut text: String = bytes.iter().take(1200).map(|b| format!("{b:02x}")).collect();
    if bytes.len() > 1200 {
        text += &format!("... ({} bytes)", bytes.len());
    }
    text
}

impl Judge<'_> {
    fn count(&mut self, group: &'static str, accepted: bool) {
        self.tally.inputs += 1;
        let ours = self.tally.groups.entry(group).or_default();
        ours.inputs += 1;
        ours.accepted += u64::from(accepted);
    }

    fn number(&mut self, number: u32) {
        if let Some(times) = self.tally.numbers.get_mut(number as usize) {
            *times += 1;
        }
    }

    fn differs(&mut self, group: &str, what: &str, input: impl FnOnce() -> String) {
        self.tally.differences += 1;
        if self.tally.shown.len() < MOST_SHOWN {
            self.tally.shown.push(format!("DIFFERENCE in {group}: {what}\n  {}", input()));
        }
    }

    /// Number, layout cells, function and block numbers and log kinds of a load.
    fn histogram(&mut self, module: &[u8], loaded: &Loaded) {
        self.number(loaded.number());
        let [records, log, ..] = loaded.counts();
        let (mut state, mut before) = (State::Outside, 0);
        for record in loaded.instructions.chunks_exact(RECORD).take(records) {
            let (tag, function, block) = (record[1], record[8], record[9]);
            let shown =
                [tag == 12 && function == 2, tag == 14 && block == 2, tag == 14 && function > 1 && block == 1, tag == 15 && before == 13];
            self.tally.numbered.iter_mut().zip(shown).for_each(|(times, shown)| *times += u64::from(shown));
            before = tag;
            let kind = layout_kind(record[0] as u16);
            self.tally.cells[kind_number(kind)][state as usize] += 1;
            if let Ok((_, next)) = layout(kind, state) {
                state = next;
            }
        }
        let refused_here =
            matches!(loaded.number(), 15 | 17..=20 | 22 | 23) || loaded.number() == 21 && loaded.offset() + 4 <= module.len();
        if let (true, Some(first)) = (refused_here, module.get(loaded.offset()..loaded.offset() + 2)) {
            let kind = layout_kind(u16::from_le_bytes([first[0], first[1]]));
            self.tally.cells[kind_number(kind)][state as usize] += 1;
        }
        let (mut at, log) = (0, &loaded.log[..log.min(loaded.log.len())]);
        while let Some(kind) = log.get(at) {
            if let Some(times) = self.tally.kinds.get_mut(*kind as usize) {
                *times += 1;
            }
            at += if matches!(kind, 36 | 38 | 40) { 9 } else { 5 };
        }
    }

    /// A module by the built-in grammar with room that suffices: the crate judges, and the reading.
    pub fn module(&mut self, group: &'static str, module: &[u8]) {
        let rooms = enough(module);
        let loaded = library::load(module, None, rooms);
        self.histogram(module, &loaded);
        self.count(group, loaded.number() == 0);
        self.tally.with_crate += 1;
        let by_reading = reading::load_with(module, self.builtin, rooms);
        let result = same_load(module, &loaded, &by_reading)
            .and_then(|()| self.same_as_the_crate(module, &loaded))
            .and_then(|()| self.same_writing(module, &loaded, &by_reading));
        if let Err(what) = result {
            return self.differs(group, &what, || format!("module {}", hex(module)));
        }
        // the built-in grammar lent as bytes
        if self.tally.inputs % 16 == 0 {
            let lent = library::load(module, Some(self.builtin_bytes), rooms);
            if lent != loaded {
                self.differs(group, "the built-in grammar lent as bytes", || format!("module {}", hex(module)));
            }
        }
    }

    /// The library's answer against the crate's; rules for what is let through.
    fn same_as_the_crate(&mut self, module: &[u8], loaded: &Loaded) -> Result<(), Difference> {
        let said = krate::answer(module)?;
        let number = loaded.number();
        let rule = self.let_through(module, loaded, &said);
        match rule {
            Some(rule) => *self.tally.let_through.entry(rule).or_default() += 1,
            None => {
                differ("number (crate)", Some(number), said.number)?;
                differ("offset (crate)", loaded.offset(), said.offset)?;
                differ("value (crate)", loaded.answer[3], said.value)?;
            }
        }
        differ("index (crate)", loaded.answer[2] as usize, said.index)?;
        let header = loaded.header();
        match said.header {
            None => differ("header words after a refused header", header, [0; 5])?,
            Some(of_crate) => {
                differ("version and bound (crate)", (header[1] >> 16 & 0xFF, header[1] >> 8 & 0xFF, header[3]), of_crate)?;
                let words: Vec<u32> = module[..20].chunks(4).map(|b| u32::from_le_bytes(b.try_into().unwrap())).collect();
                differ("header words", &header[..], &words)?;
            }
        }
        let counts = [said.instructions.len() / RECORD, said.log.len(), said.strings.len(), said.types.len() / 3];
        differ("counts (crate)", loaded.counts(), counts)?;
        store("instructions (crate)", &loaded.instructions, &said.instructions, word_before)?;
        store("log (crate)", &loaded.log, &said.log, byte_before)?;
        store("strings (crate)", &loaded.strings, &said.strings, byte_before)?;
        store("types (crate)", &loaded.types, &said.types, word_before)?;
        if number == 0 {
            let wanted = said.module.ok_or("the crate gave no module-order bytes")?;
            let written = library::write(Form::Module, header, &stores_of(loaded), wanted.len() + 5);
            differ("module order's answer (crate)", (written.returned, written.answer), (0, [0, 0, wanted.len() as u32, 0]))?;
            store("module-order bytes (crate)", &written.out, &wanted, byte_before)?;
            let wanted = said.text.ok_or("the crate gave no text")?;
            let written = library::write(Form::Text, header, &stores_of(loaded), wanted.len() + self.tally.inputs as usize % 3);
            differ("the text's answer (crate)", (written.returned, written.answer), (0, [0, 0, wanted.len() as u32, 0]))?;
            store("the text (crate)", &written.out, &wanted, byte_before)?;
            for short in [wanted.len() - 1, 0] {
                let written = library::write(Form::Text, header, &stores_of(loaded), short);
                self.number(written.returned);
                differ("a text that does not fit", (written.returned, written.answer), (32, [32, 0, 0, 0]))?;
                store("the output of a text that does not fit", &written.out, &[], byte_before)?;
            }
        }
        Ok(())
    }

    /// The rule by which a difference from the crate is let through: 14, where the embedded row has 39, 48 or 49 and the crate
    /// panics or, for 251 alone, gives 8 or 9; and 9 for a string whose start + 4 × limit lies past the bytes, where it panics.
    fn let_through(&self, module: &[u8], loaded: &Loaded, said: &krate::Answer) -> Option<&'static str> {
        let at = loaded.offset();
        match (loaded.number(), said.number) {
            (14, said_number) => {
                let word = module.get(at.checked_sub(4)?..at)?;
                let opcode = u16::from_le_bytes([word[0], word[1]]);
                let row = self.builtin.row(opcode)?;
                if !row.operands.iter().any(|(kind, _)| matches!(kind, 39 | 48 | 49)) {
                    return None;
                }
                match said_number {
                    None if said.line.contains("explicit panic") => Some("14 where the crate panics"),
                    Some(8) if opcode == 251 => Some("14 where the crate gives 8, row 251"),
                    Some(9) if opcode == 251 => Some("14 where the crate gives 9, row 251"),
                    _ => None,
                }
            }
            (9, None) => {
                // the limit ends with the instruction, whose start the oracle gives
                let start = said.offset;
                let first = module.get(start..start + 4)?;
                let end = start + 4 * usize::from(u16::from_le_bytes([first[2], first[3]]));
                let text = format!("range end index {end} out of range for slice of length {}", module.len());
                let past = start < at && at < end && end > module.len() && said.line.contains(&text);
                past.then_some("9 where the crate panics, a string past the bytes")
            }
            _ => None,
        }
    }

    /// Both writers and standing over the records of a load, against the reading; a plain module comes back in parse order.
    fn same_writing(&mut self, module: &[u8], loaded: &Loaded, by_reading: &Load) -> Result<(), Difference> {
        let stores = stores_of(loaded);
        if loaded.number() != 0 && self.tally.inputs % 4 != 0 {
            return Ok(());
        }
        // the writers are lent the stores with what lies past the counts; every so often an output a byte too short
        let short = self.tally.inputs % 8 == 0;
        let needed = reading::write_parse_order(loaded.header(), &stores, usize::MAX).bytes.len();
        let output = if short { needed.saturating_sub(1) } else { needed + self.tally.inputs as usize % 7 };
        let parse = self.same_records(loaded.header(), &stores, output)?;
        if loaded.number() == 0 {
            let plain = reading::is_plain(module, by_reading);
            self.tally.plain += u64::from(plain);
            let broken = reading::all_breaks(module, by_reading);
            let has = |what: Break| usize::from(broken.iter().any(|(which, _)| *which == what));
            self.tally.broken[has(Break::Padding) + 2 * has(Break::Embedded) + 4 * has(Break::Tail)] += 1;
            let parse = if short { library::write(Form::Parse, loaded.header(), &stores, needed) } else { parse };
            let back = parse.returned == 0 && parse.out.get(..parse.answer[2] as usize) == Some(module);
            differ("parse order gives the module back exactly when it is plain", back, plain)?;
        }
        Ok(())
    }

    /// A module with a grammar (none: the built-in one) and any rooms: the reading judges.
    pub fn load(&mut self, group: &'static str, module: &[u8], grammar: Option<&[u8]>, rooms: [usize; 4]) -> u32 {
        let loaded = library::load(module, grammar, rooms);
        self.histogram(module, &loaded);
        self.count(group, loaded.number() == 0);
        let by_reading = match grammar {
            Some(grammar) => reading::load(module, grammar, rooms),
            None => reading::load_with(module, self.builtin, rooms),
        };
        let result = same_load(module, &loaded, &by_reading).and_then(|()| self.same_writing(module, &loaded, &by_reading));
        if let Err(what) = result {
            self.differs(group, &what, || {
                let grammar = grammar.map_or("built-in".to_string(), hex);
                format!("module {}\n  grammar {grammar}\n  rooms {rooms:?}", hex(module))
            });
        }
        loaded.number()
    }

    /// Records with a header and an output of this length: the reading judges both writers and standing.
    pub fn records(&mut self, group: &'static str, header: [u32; 5], stores: &Stores, output: usize) {
        let result = self.same_records(header, stores, output);
        self.count(group, matches!(&result, Ok(written) if written.returned == 0));
        if let Err(what) = result {
            self.differs(group, &what, || {
                format!(
                    "header {header:x?}, output {output}, counts {:?}\n  instructions {:?}\n  log {}\n  strings {}",
                    stores.counts,
                    stores.instructions,
                    hex(&stores.log),
                    hex(&stores.strings)
                )
            });
        }
    }

    /// The records of a module with other function and block numbers: nothing that is written of them is another, nor whether they stand.
    pub fn any_numbers(&mut self, group: &'static str, module: &[u8], mut number: impl FnMut() -> u32) {
        let loaded = library::load(module, None, enough(module));
        let (header, stores) = (loaded.header(), stores_of(&loaded));
        let mut other = stores.clone();
        for record in other.instructions.chunks_exact_mut(RECORD).take(stores.counts[0]) {
            (record[8], record[9]) = (number(), number());
        }
        let ample = module.len().max(text::disassemble(header, &stores, usize::MAX).bytes.len());
        let result = self.same_records(header, &other, ample).and_then(|_| {
            for form in [Form::Parse, Form::Module, Form::Text] {
                let [one, two] = [&stores, &other].map(|stores| library::write(form, header, stores, ample));
                differ(&format!("{form:?} with other function and block numbers"), two, one)?;
            }
            differ("standing with other function and block numbers", library::standing(&other), library::standing(&stores))
        });
        self.count(group, loaded.number() == 0);
        if let Err(what) = result {
            self.differs(group, &what, || format!("module {}\n  instructions {:?}", hex(module), other.instructions));
        }
    }

    /// The answer of the parse-order writer, it and the others being as the reading has it.
    fn same_records(&mut self, header: [u32; 5], stores: &Stores, output: usize) -> Result<library::Written, Difference> {
        let parse = library::write(Form::Parse, header, stores, output);
        self.number(parse.returned);
        same_written("parse order", &parse, &reading::write_parse_order(header, stores, output))?;
        let module = library::write(Form::Module, header, stores, output);
        self.number(module.returned);
        same_written("module order", &module, &reading::write_module_order(header, stores, output))?;
        let wanted = text::disassemble(header, stores, usize::MAX);
        let needed = if self.tally.inputs % 2 == 0 { wanted.bytes.len() } else { output };
        let listed = library::write(Form::Text, header, stores, needed);
        self.number(listed.returned);
        same_written("the text", &listed, &text::disassemble(header, stores, needed))?;
        let standing = library::standing(stores);
        let wanted = match reading::standing(stores) {
            Ok(kept) => {
                let broken: Vec<usize> = (0..kept.len()).filter(|rule| !kept[*rule]).collect();
                self.tally.standing += u64::from(broken.is_empty());
                if let [rule] = broken[..] {
                    self.tally.but_for[rule] += 1;
                }
                [0, 0, u32::from(broken.is_empty()), 0]
            }
            Err(index) => [30, index as u32, 0, 0],
        };
        differ("standing", (standing.returned, standing.answer), (wanted[0], wanted))?;
        Ok(parse)
    }

    /// A book turned into an output of this many words: the reading judges.
    pub fn turn(&mut self, group: &'static str, turn: Turn, stores: &Stores, output: usize) {
        self.turn_to(group, turn, stores, output, &books::turn(turn, stores, output));
    }

    /// A book turned, with what is to come of it.
    pub fn turn_to(&mut self, group: &'static str, turn: Turn, stores: &Stores, output: usize, wanted: &books::Turned) {
        let turned = library::turn(turn, stores, output);
        self.number(turned.returned);
        self.count(group, turned.returned == 0);
        if let Some(n) = TURNED.iter().position(|number| *number == turned.returned) {
            self.tally.turned[turn as usize][n] += 1;
        }
        if let Err(what) = same_turned(&turned, wanted) {
            self.differs(group, &what, || {
                format!(
                    "{turn:?}, output {output}, counts {:?}\n  instructions {:?}\n  log {}\n  strings {}",
                    stores.counts,
                    stores.instructions,
                    hex(&stores.log),
                    hex(&stores.strings)
                )
            });
        }
    }

    /// The book of a module, accepted or not, into an old one and back: the same words, of which everything is written as before.
    pub fn there_and_back(&mut self, group: &'static str, module: &[u8]) {
        let loaded = library::load(module, None, enough(module));
        self.count(group, loaded.number() == 0);
        if let Err(what) = self.same_again(module, &loaded) {
            self.differs(group, &what, || format!("module {}", hex(module)));
        }
    }

    fn same_again(&mut self, module: &[u8], loaded: &Loaded) -> Result<(), Difference> {
        let (header, new) = (loaded.header(), stores_of(loaded));
        let [count, ..] = new.counts;
        let old = library::turn(Turn::Old, &new, books::OLD_RECORD * count);
        differ("the old book's answer", (old.returned, old.answer), (0, [0, 0, count as u32, 0]))?;
        let old = Stores { instructions: old.out, ..new.clone() };
        differ("the old book", &old.instructions[..], &old_of(&new).instructions[..books::OLD_RECORD * count])?;
        let back = library::turn(Turn::New, &old, RECORD * count);
        differ("the new book's answer", (back.returned, back.answer), (0, [0, 0, count as u32, 0]))?;
        differ("old and new again", &back.out[..], &new.instructions[..RECORD * count])?;
        let back = Stores { instructions: back.out, ..new.clone() };
        let again = library::turn(Turn::Old, &back, books::OLD_RECORD * count);
        differ("new and old again", &again.out, &old.instructions)?;
        let ample = module.len().max(text::disassemble(header, &new, usize::MAX).bytes.len());
        for form in [Form::Parse, Form::Module, Form::Text] {
            let [one, two] = [&new, &back].map(|stores| library::write(form, header, stores, ample));
            differ(&format!("{form:?} of the turned book"), two, one)?;
        }
        differ("standing of the turned book", library::standing(&back), library::standing(&new))
    }

    /// Two grammars joined into an output of this length, as the reading has it: the number.
    pub fn join(&mut self, group: &'static str, first: &[u8], second: &[u8], output: usize) -> u32 {
        let joined = library::join(first, second, output);
        self.number(joined.returned);
        self.count(group, joined.returned == 0);
        if let Err(what) = same_joined(&joined, &joining::join(first, second, output)) {
            self.differs(group, &what, || format!("first {}\n  second {}\n  output {output}", hex(first), hex(second)));
        }
        joined.returned
    }

    /// Three grammars joined with room enough: in either order, grouped either way, each with itself and with nothing.
    pub fn triple(&mut self, group: &'static str, all: [&[u8]; 3]) {
        let result = any_order(all);
        self.count(group, matches!(result, Ok(true)));
        if let Err(what) = result {
            self.differs(group, &what, || all.map(hex).join("\n  "));
        }
    }

    /// A value of an enumerant kind as the crate's decoder call has it, and as the only operand of a row.
    pub fn enumerant(&mut self, group: &'static str, grammar: &[u8], module: &[u8], at: usize, kind: u8, value: u32) {
        self.load(group, module, Some(grammar), enough(module));
        let loaded = library::load(module, Some(grammar), enough(module));
        self.tally.with_crate += 1;
        let unknown = (loaded.number(), loaded.offset(), loaded.answer[3]) == (10, at, value);
        let by_crate = krate::decoder_calls(&value.to_le_bytes(), &format!("L1 k{kind}"));
        let wanted = match by_crate.split("; ").nth(1) {
            Some(answer) if answer.contains(": ok known (") => Some(false),
            Some(answer) if answer.contains(&format!(": 10 at 0 value {value} (")) => Some(true),
            _ => None,
        };
        if wanted != Some(unknown) || unknown == krate::knows(kind, value) {
            self.differs(group, "the decoder's enumerant call", || format!("kind {kind}, value {value}, crate {by_crate}"));
        }
    }
}

/// The lent stores, past the counts too, with the counts.
fn stores_of(loaded: &Loaded) -> Stores {
    let [records, log, strings, _] = loaded.counts();
    Stores {
        instructions: loaded.instructions.clone(),
        log: loaded.log.clone(),
        strings: loaded.strings.clone(),
        counts: [records, log, strings],
    }
}

fn same_load(module: &[u8], loaded: &Loaded, by_reading: &Load) -> Result<(), Difference> {
    let mut answer = [0; 16];
    let fields = [by_reading.number, by_reading.offset as u32, by_reading.index as u32, by_reading.value];
    answer[..4].copy_from_slice(&fields);
    for (word, count) in answer[4..8].iter_mut().zip(by_reading.counts()) {
        *word = count as u32;
    }
    answer[8..13].copy_from_slice(&by_reading.header);
    if by_reading.number == 0 {
        let breaks = reading::breaks(module, by_reading);
        answer[13] = u32::from(breaks.is_none());
        answer[14] = breaks.unwrap_or(0) as u32;
    }
    differ("the answer (number, offset, index, value, counts, header words, plain, what breaks it)", loaded.answer, answer)?;
    differ("the number returned", loaded.returned, by_reading.number)?;
    store("instructions", &loaded.instructions, &by_reading.instructions.concat(), word_before)?;
    store("log", &loaded.log, &by_reading.log, byte_before)?;
    store("strings", &loaded.strings, &by_reading.strings, byte_before)?;
    store("types", &loaded.types, &by_reading.types.concat(), word_before)
}

fn same_turned(turned: &library::Turned, wanted: &books::Turned) -> Result<(), Difference> {
    let answer = [wanted.number, wanted.index as u32, wanted.records as u32, 0];
    differ("the turn's answer (number, index, records, 0)", turned.answer, answer)?;
    differ("the number returned", turned.returned, wanted.number)?;
    store("the turned records", &turned.out, &wanted.words, word_before)
}

fn same_joined(joined: &library::Written, by_reading: &joining::Joined) -> Result<(), Difference> {
    let answer = [by_reading.number, by_reading.place, by_reading.value, by_reading.bytes.len() as u32];
    differ("joining's answer (number, place, value, bytes)", joined.answer, answer)?;
    differ("the number returned", joined.returned, by_reading.number)?;
    store("the grammars joined", &joined.out, &by_reading.bytes, byte_before)
}

/// The grammar that the library made of two, with room enough; none where it refused.
fn made(first: &[u8], second: &[u8]) -> Option<Vec<u8>> {
    let joined = library::join(first, second, ROOM_ENOUGH);
    (joined.returned == 0).then(|| joined.out[..joined.answer[3] as usize].to_vec())
}

/// Whether three grammars join at all, whatever their order and grouping.
fn any_order([a, b, c]: [&[u8]; 3]) -> Result<bool, Difference> {
    for (one, other) in [(a, b), (b, c), (c, a)] {
        differ("in the other order", library::join(one, other, ROOM_ENOUGH), library::join(other, one, ROOM_ENOUGH))?;
    }
    let left = made(a, b).and_then(|both| made(&both, c));
    differ("grouped either way", &left, &made(b, c).and_then(|both| made(a, &both)))?;
    let by_reading = joining::join(a, b, ROOM_ENOUGH);
    let by_reading = if by_reading.number == 0 { joining::join(&by_reading.bytes, c, ROOM_ENOUGH) } else { by_reading };
    differ("three joined", &left, &(by_reading.number == 0).then_some(by_reading.bytes))?;
    for one in [a, b, c] {
        let itself = Grammar::read(one).map(|_| one.to_vec());
        differ("with itself", &made(one, one), &itself)?;
        differ("with nothing", &made(one, &[]), &itself)?;
        differ("nothing with it", &made(&[], one), &itself)?;
    }
    Ok(left.is_some())
}

fn same_written(what: &str, written: &library::Written, by_reading: &reading::Written) -> Result<(), Difference> {
    let length = by_reading.bytes.len() as u64;
    let answer = [by_reading.number, by_reading.index as u32, length as u32, (length >> 32) as u32];
    differ(&format!("{what}, answer"), written.answer, answer)?;
    differ(&format!("{what}, number returned"), written.returned, by_reading.number)?;
    store(&format!("{what}, output"), &written.out, &by_reading.bytes, byte_before)
}
