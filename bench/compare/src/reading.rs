//! What a load and a write are to do (docs/REFERENCE.md), read plainly in Rust, part by part.
//!
//! Nothing here is fast or clever, and nothing is shared with the crate rspirv; the numbers of
//! opcodes are the standard's. `against` runs this reading against the crate, `cases` prints what
//! it answers. Positions and limits are any usize: sums that could pass 2^64 are made in u128.

use std::cmp::min;

/// A refusal: its number, its place (a byte offset) and its value.
#[derive(Clone, Copy, Debug, PartialEq, Eq)]
pub struct Refusal {
    pub number: u32,
    pub place: usize,
    pub value: u32,
}

fn refuse<T>(number: u32, place: usize, value: u32) -> Result<T, Refusal> {
    Err(Refusal { number, place, value })
}

// ------------------------------------------------------------------ Reading words and strings

/// "The decoder is a position and a limit (none, or words left)."
#[derive(Clone, Copy, Debug, PartialEq, Eq)]
pub struct Decoder {
    pub position: usize,
    pub limit: Option<usize>,
}

impl Decoder {
    pub fn set_limit(&mut self, words: usize) {
        self.limit = Some(words);
    }

    pub fn clear_limit(&mut self) {
        self.limit = None;
    }

    /// A limit is set and no words are left.
    pub fn spent(&self) -> bool {
        self.limit == Some(0)
    }

    /// The limit is tested first (8), then the stream (9, one already taken from the limit).
    pub fn word(&mut self, bytes: &[u8]) -> Result<u32, Refusal> {
        if self.spent() {
            return refuse(8, self.position, 0);
        }
        self.limit = self.limit.map(|left| left - 1);
        if self.position as u128 + 4 > bytes.len() as u128 {
            return refuse(9, self.position, 0);
        }
        let at = self.position;
        self.position += 4;
        Ok(u32::from_le_bytes([bytes[at], bytes[at + 1], bytes[at + 2], bytes[at + 3]]))
    }

    /// A 64-bit literal: two words, low first.
    pub fn long(&mut self, bytes: &[u8]) -> Result<u64, Refusal> {
        let low = self.word(bytes)?;
        let high = self.word(bytes)?;
        Ok(u64::from(low) + (u64::from(high) << 32))
    }

    /// The bytes before the first zero byte. A refused string moves nothing.
    pub fn string(&mut self, bytes: &[u8]) -> Result<Vec<u8>, Refusal> {
        let start = self.position;
        let end = match self.limit {
            Some(words) => start as u128 + 4 * words as u128,
            None => bytes.len() as u128,
        };
        if start > bytes.len() || end > bytes.len() as u128 {
            return refuse(9, start, 0);
        }
        let searched = &bytes[start..end as usize];
        let Some(length) = searched.iter().position(|b| *b == 0) else {
            return match self.limit {
                Some(_) => refuse(8, end as usize, 0),
                None => refuse(9, start, 0),
            };
        };
        let text = &searched[..length];
        if !is_utf8(text) {
            return refuse(11, start, 0);
        }
        let words = string_words(length);
        self.position += 4 * words;
        self.limit = self.limit.map(|left| left - words);
        Ok(text.to_vec())
    }

    /// One word of an enumerant kind. Limit or stream: 9. Unknown: 10 at the word, which is taken.
    pub fn enumerant(&mut self, bytes: &[u8], grammar: &Grammar, kind: u8) -> Result<u32, Refusal> {
        let place = self.position;
        let Ok(value) = self.word(bytes) else {
            return refuse(9, place, 0);
        };
        if !grammar.knows(kind, value) {
            return refuse(10, place, value);
        }
        Ok(value)
    }
}

/// A string "takes (length / 4, rounded down) + 1 words".
fn string_words(length: usize) -> usize {
    length / 4 + 1
}

/// Unicode's table of well-formed UTF-8: each line the ranges of the first, second, .. byte.
const UTF8: [&[(u8, u8)]; 9] = [
    &[(0x00, 0x7F)],
    &[(0xC2, 0xDF), (0x80, 0xBF)],
    &[(0xE0, 0xE0), (0xA0, 0xBF), (0x80, 0xBF)],
    &[(0xE1, 0xEC), (0x80, 0xBF), (0x80, 0xBF)],
    &[(0xED, 0xED), (0x80, 0x9F), (0x80, 0xBF)],
    &[(0xEE, 0xEF), (0x80, 0xBF), (0x80, 0xBF)],
    &[(0xF0, 0xF0), (0x90, 0xBF), (0x80, 0xBF), (0x80, 0xBF)],
    &[(0xF1, 0xF3), (0x80, 0xBF), (0x80, 0xBF), (0x80, 0xBF)],
    &[(0xF4, 0xF4), (0x80, 0x8F), (0x80, 0xBF), (0x80, 0xBF)],
];

pub fn is_utf8(mut text: &[u8]) -> bool {
    while !text.is_empty() {
        let line = UTF8.iter().find(|line| line.len() <= text.len() && line.iter().zip(text).all(|((low, high), b)| low <= b && b <= high));
        match line {
            Some(line) => text = &text[line.len()..],
            None => return false,
        }
    }
    true
}

// ------------------------------------------------------------------------------ Grammar bytes

pub const ONE: u8 = 0;
pub const ZERO_OR_ONE: u8 = 1;
pub const ZERO_OR_MORE: u8 = 2;

#[derive(Clone, Debug, PartialEq, Eq)]
pub struct Row {
    pub opcode: u16,
    /// (operand kind, quantifier)
    pub operands: Vec<(u8, u8)>,
}

#[derive(Clone, Debug, PartialEq, Eq)]
pub struct Enumerant {
    pub kind: u8,
    pub value: u32,
    /// operand kinds
    pub parameters: Vec<u8>,
}

/// The rows and enumerants that well-formed grammar bytes hold.
#[derive(Clone, Debug, Default, PartialEq, Eq)]
pub struct Grammar {
    pub rows: Vec<Row>,
    pub enumerants: Vec<Enumerant>,
}

/// "Enumerants belong to kinds 1 to 30 and 41 to 45".
pub fn is_enumerant_kind(kind: u8) -> bool {
    matches!(kind, 1..=30 | 41..=45)
}

/// "masks (1 to 8, 41, 45)".
pub fn is_mask(kind: u8) -> bool {
    matches!(kind, 1..=8 | 41 | 45)
}

impl Grammar {
    /// The grammar in the bytes, or none where they are not well-formed (24).
    pub fn read(bytes: &[u8]) -> Option<Grammar> {
        if bytes.len() > 65_535 {
            return None;
        }
        let grammar = Grammar::split(bytes)?;
        grammar.keeps_the_rules().then_some(grammar)
    }

    /// Items one after the other: an operand needs its row, a parameter its enumerant, no row
    /// follows an enumerant, no body is cut.
    fn split(mut bytes: &[u8]) -> Option<Grammar> {
        let mut grammar = Grammar::default();
        while let Some(kind) = bytes.first() {
            let body = match kind {
                1 | 2 => 2,
                3 => 5,
                4 => 1,
                _ => return None,
            };
            let item = bytes.get(1..1 + body)?;
            bytes = &bytes[1 + body..];
            match kind {
                1 | 2 if !grammar.enumerants.is_empty() => return None,
                1 => grammar.rows.push(Row { opcode: u16::from_le_bytes([item[0], item[1]]), operands: vec![] }),
                2 => grammar.rows.last_mut()?.operands.push((item[0], item[1])),
                3 => grammar.enumerants.push(Enumerant {
                    kind: item[0],
                    value: u32::from_le_bytes([item[1], item[2], item[3], item[4]]),
                    parameters: vec![],
                }),
                _ => grammar.enumerants.last_mut()?.parameters.push(item[0]),
            }
        }
        Some(grammar)
    }

    fn keeps_the_rules(&self) -> bool {
        let opcodes_rise = self.rows.windows(2).all(|w| w[0].opcode < w[1].opcode);
        let values_rise = self.enumerants.windows(2).all(|w| (w[0].kind, w[0].value) < (w[1].kind, w[1].value));
        opcodes_rise
            && values_rise
            && self.rows.iter().all(Row::keeps_the_rules)
            && self.enumerants.iter().all(|e| self.enumerant_keeps_the_rules(e))
    }

    fn enumerant_keeps_the_rules(&self, e: &Enumerant) -> bool {
        is_enumerant_kind(e.kind)
            && (!is_mask(e.kind) || e.value.count_ones() <= 1)
            && (!is_mask(e.kind) || e.value != 0 || e.parameters.is_empty())
            && e.parameters.iter().all(|p| matches!(p, 1..=35 | 40..=45) && !self.kind_has_parameters(*p))
    }

    fn kind_has_parameters(&self, kind: u8) -> bool {
        self.enumerants.iter().any(|e| e.kind == kind && !e.parameters.is_empty())
    }

    pub fn row(&self, opcode: u16) -> Option<&Row> {
        self.rows.iter().find(|r| r.opcode == opcode)
    }

    pub fn enumerant(&self, kind: u8, value: u32) -> Option<&Enumerant> {
        self.enumerants.iter().find(|e| e.kind == kind && e.value == value)
    }

    /// "A value must be listed. A mask is known when each set bit is listed; zero always is."
    pub fn knows(&self, kind: u8, value: u32) -> bool {
        if is_mask(kind) {
            set_bits(value).all(|bit| self.enumerant(kind, bit).is_some())
        } else {
            self.enumerant(kind, value).is_some()
        }
    }

    /// The parameters of a known value, "for masks lowest bit first".
    pub fn parameters(&self, kind: u8, value: u32) -> Vec<u8> {
        let of = |value| self.enumerant(kind, value).map_or(vec![], |e| e.parameters.clone());
        if is_mask(kind) {
            set_bits(value).flat_map(of).collect()
        } else {
            of(value)
        }
    }
}

fn set_bits(value: u32) -> impl Iterator<Item = u32> {
    (0..32).map(|n| 1u32 << n).filter(move |bit| value & bit != 0)
}

impl Row {
    fn keeps_the_rules(&self) -> bool {
        let fixed = match self.opcode {
            21 => self.operands == [(47, ONE), (34, ONE), (34, ONE)],
            22 => self.operands == [(47, ONE), (34, ONE)],
            _ => true,
        };
        fixed && (0..self.operands.len()).all(|n| self.operand_keeps_the_rules(n))
    }

    fn operand_keeps_the_rules(&self, n: usize) -> bool {
        let (kind, quantifier) = self.operands[n];
        let result_type_first = self.operands[0].0 == 46;
        let first_plain = self.operands.iter().position(|(k, _)| !matches!(k, 46 | 47));
        quantifier <= ZERO_OR_MORE
            && match kind {
                0 | 36..=38 | 52.. => false,
                39 => self.opcode == 52 && quantifier == ONE,
                46 => n == 0 && quantifier == ONE,
                47 => (n == 0 || n == 1 && result_type_first) && quantifier == ONE,
                48 => matches!(self.opcode, 43 | 50) && quantifier == ONE && result_type_first,
                49 => {
                    self.opcode == 251 && quantifier == ZERO_OR_MORE && first_plain.is_some_and(|f| f < n && self.operands[f] == (33, ONE))
                }
                _ => true,
            }
    }
}

// ----------------------------------------------------------------------------------- Matching

#[derive(Clone, Debug, PartialEq, Eq)]
pub enum Value {
    Word(u32),
    Long(u64),
    Text(Vec<u8>),
}

/// An operand as it goes into the log: kind and value.
pub type Operand = (u8, Value);

#[derive(Clone, Debug, PartialEq, Eq)]
pub struct Instruction {
    pub opcode: u16,
    pub result_type: Option<u32>,
    pub result_id: Option<u32>,
    pub operands: Vec<Operand>,
}

/// A type entry: id, width, and 1 unsigned, 2 signed, 3 float.
pub type Type = [u32; 3];

/// One instruction from its first word on: 4 to 14, or the instruction and its word count.
fn read_instruction(bytes: &[u8], d: &mut Decoder, grammar: &Grammar, types: &[Type], first: u32) -> Result<(Instruction, u32), Refusal> {
    let start = d.position - 4;
    let (count, opcode) = (first >> 16, first as u16);
    if count == 0 {
        return refuse(4, start, 0);
    }
    let Some(row) = grammar.row(opcode) else {
        return refuse(5, start, u32::from(opcode));
    };
    d.set_limit(count as usize - 1);
    let instruction = read_row(bytes, d, grammar, types, row)?;
    if !d.spent() {
        return refuse(7, d.position, 0);
    }
    d.clear_limit();
    Ok((instruction, count))
}

/// "with words left an operand is read, and ZeroOrMore stays; with none left, One is 6 and the
/// others end the walk."
fn read_row(bytes: &[u8], d: &mut Decoder, grammar: &Grammar, types: &[Type], row: &Row) -> Result<Instruction, Refusal> {
    let mut inst = Instruction { opcode: row.opcode, result_type: None, result_id: None, operands: vec![] };
    let mut walk = row.operands.iter();
    let mut next = walk.next();
    while let Some(&(kind, quantifier)) = next {
        if d.spent() {
            if quantifier == ONE {
                return refuse(6, d.position, 0);
            }
            break;
        }
        match kind {
            46 => inst.result_type = Some(d.word(bytes)?),
            47 => inst.result_id = Some(d.word(bytes)?),
            48 => {
                let id = inst.result_type.expect("46 comes first");
                inst.operands.push(read_literal(bytes, d, types, id)?);
            }
            49 => {
                let (33, Value::Word(id)) = inst.operands[0] else { panic!("33 comes first") };
                inst.operands.push(read_literal(bytes, d, types, id)?);
                inst.operands.push((33, Value::Word(d.word(bytes)?)));
            }
            39 => read_embedded(bytes, d, grammar, &mut inst.operands)?,
            _ => read_operand(bytes, d, grammar, kind, &mut inst.operands)?,
        }
        if quantifier != ZERO_OR_MORE {
            next = walk.next();
        }
    }
    Ok(inst)
}

/// An operand of any kind that asks nothing of its row.
fn read_operand(bytes: &[u8], d: &mut Decoder, grammar: &Grammar, kind: u8, out: &mut Vec<Operand>) -> Result<(), Refusal> {
    match kind {
        31..=35 => out.push((kind, Value::Word(d.word(bytes)?))),
        40 => out.push((40, Value::Text(d.string(bytes)?))),
        50 => {
            out.push((33, Value::Word(d.word(bytes)?)));
            out.push((34, Value::Word(d.word(bytes)?)));
        }
        51 => {
            out.push((33, Value::Word(d.word(bytes)?)));
            out.push((33, Value::Word(d.word(bytes)?)));
        }
        _ => {
            let value = d.enumerant(bytes, grammar, kind)?;
            out.push((kind, Value::Word(value)));
            for parameter in grammar.parameters(kind, value) {
                read_operand(bytes, d, grammar, parameter, out)?;
            }
        }
    }
    Ok(())
}

/// Kinds 48 and 49: a literal of the type that the id has by the instructions before this one.
fn read_literal(bytes: &[u8], d: &mut Decoder, types: &[Type], id: u32) -> Result<Operand, Refusal> {
    let entry = types.iter().find(|t| t[0] == id);
    match entry {
        None | Some([_, 8 | 16 | 32, 1 | 2]) => Ok((34, Value::Word(d.word(bytes)?))),
        Some([_, 64, 1 | 2]) => Ok((36, Value::Long(d.long(bytes)?))),
        Some([_, 16 | 32, 3]) => Ok((37, Value::Word(d.word(bytes)?))),
        Some([_, 64, 3]) => Ok((38, Value::Long(d.long(bytes)?))),
        Some(_) => refuse(12, d.position, 0),
    }
}

/// Kind 39: the number's low sixteen bits name a row (13), which must not hold 39, 48 or 49 (14);
/// each of its operands but 46 and 47 is read once.
fn read_embedded(bytes: &[u8], d: &mut Decoder, grammar: &Grammar, out: &mut Vec<Operand>) -> Result<(), Refusal> {
    let opcode = d.word(bytes)? as u16;
    let Some(row) = grammar.row(opcode) else {
        return refuse(13, d.position, 0);
    };
    if row.operands.iter().any(|(kind, _)| matches!(kind, 39 | 48 | 49)) {
        return refuse(14, d.position, 0);
    }
    out.push((39, Value::Word(u32::from(opcode))));
    for &(kind, _) in &row.operands {
        if !matches!(kind, 46 | 47) {
            read_operand(bytes, d, grammar, kind, out)?;
        }
    }
    Ok(())
}

/// The type entry an instruction makes or renews: `TypeTracker::track`.
fn tracked(inst: &Instruction, types: &[Type]) -> Option<Type> {
    let id = inst.result_id?;
    let number = |n: usize| match inst.operands.get(n) {
        Some((34, Value::Word(w))) => Some(*w),
        _ => None,
    };
    match inst.opcode {
        21 => {
            let (width, sign) = (number(0)?, number(1)?);
            Some([id, width, if sign == 1 { 2 } else { 1 }])
        }
        22 => Some([id, number(0)?, 3]),
        opcode if is_type(opcode) => None,
        _ => {
            let known = types.iter().find(|t| Some(t[0]) == inst.result_type)?;
            Some([id, known[1], known[2]])
        }
    }
}

// ------------------------------------------------------------------------------------- Layout

/// The type declarations that reflect.rs names: TypeVoid to TypeForwardPointer,
/// TypeRayQueryKHR, TypeAccelerationStructureKHR.
pub fn is_type(opcode: u16) -> bool {
    matches!(opcode, 19..=39 | 4472 | 5341)
}

/// The nineteen kinds. 1 to 11 are the tags they get in every state.
#[derive(Clone, Copy, Debug, PartialEq, Eq)]
pub enum Kind {
    Tag(u32),
    Line,
    Variable,
    Function,
    FunctionParameter,
    Label,
    Terminator,
    FunctionEnd,
    Other,
}

pub fn layout_kind(opcode: u16) -> Kind {
    match opcode {
        17 => Kind::Tag(1),                         // Capability
        10 => Kind::Tag(2),                         // Extension
        11 => Kind::Tag(3),                         // ExtInstImport
        14 => Kind::Tag(4),                         // MemoryModel
        15 => Kind::Tag(5),                         // EntryPoint
        16 => Kind::Tag(6),                         // ExecutionMode
        2 | 3 | 4 | 7 => Kind::Tag(7),              // SourceContinued, Source, SourceExtension, String
        5 | 6 => Kind::Tag(8),                      // Name, MemberName
        330 => Kind::Tag(9),                        // ModuleProcessed
        71..=75 | 5632 | 5633 => Kind::Tag(10),     // Decorate .. GroupMemberDecorate, the two with strings
        opcode if is_type(opcode) => Kind::Tag(11), // types
        41..=46 | 48..=52 => Kind::Tag(11),         // constants
        8 | 317 => Kind::Line,                      // Line, NoLine
        59 | 1 => Kind::Variable,                   // Variable, Undef
        54 => Kind::Function,
        55 => Kind::FunctionParameter,
        248 => Kind::Label,
        249..=255 | 4416 | 4448 | 4449 => Kind::Terminator,
        56 => Kind::FunctionEnd,
        _ => Kind::Other,
    }
}

#[derive(Clone, Copy, Debug, PartialEq, Eq)]
pub enum State {
    Outside,
    Function,
    Block,
}

/// The table: tag and next state, or the refusal's number.
pub fn layout(kind: Kind, state: State) -> Result<(u32, State), u32> {
    use State::*;
    match (kind, state) {
        (Kind::Tag(tag), _) => Ok((tag, state)),

        (Kind::Line, Outside | Function) => Ok((11, state)),
        (Kind::Line, Block) => Ok((15, Block)),

        (Kind::Variable, Outside) => Ok((11, Outside)),
        (Kind::Variable, Function) => Err(23),
        (Kind::Variable, Block) => Ok((15, Block)),

        (Kind::Function, Outside) => Ok((12, Function)),
        (Kind::Function, Function | Block) => Err(15),

        (Kind::FunctionParameter, Outside) => Err(18),
        (Kind::FunctionParameter, Function | Block) => Ok((13, state)),

        (Kind::Label, Outside) => Err(19),
        (Kind::Label, Function) => Ok((14, Block)),
        (Kind::Label, Block) => Err(20),

        (Kind::Terminator, Outside | Function) => Err(22),
        (Kind::Terminator, Block) => Ok((15, Function)),

        (Kind::FunctionEnd, Outside) => Err(17),
        (Kind::FunctionEnd, Function) => Ok((16, Outside)),
        (Kind::FunctionEnd, Block) => Err(21),

        (Kind::Other, Outside | Function) => Err(23),
        (Kind::Other, Block) => Ok((15, Block)),
    }
}

// ------------------------------------------------------------------------ Stores and loading

pub const MAGIC: u32 = 0x0723_0203;
pub const MOST_MODULE_BYTES: usize = 67_108_864;

/// "Each instruction record grows to ten words".
pub const RECORD: usize = 10;

/// What a load answers. The stores hold the instructions kept; what lies past them in the lent
/// slices is unchanged.
#[derive(Clone, Debug, Default, PartialEq, Eq)]
pub struct Load {
    pub number: u32,
    pub offset: usize,
    pub index: usize,
    pub value: u32,
    pub header: [u32; 5],
    pub instructions: Vec<[u32; RECORD]>,
    pub log: Vec<u8>,
    pub strings: Vec<u8>,
    pub types: Vec<Type>,
}

impl Load {
    /// Instructions, log bytes, string bytes, type entries.
    pub fn counts(&self) -> [usize; 4] {
        [self.instructions.len(), self.log.len(), self.strings.len(), self.types.len()]
    }
}

/// `rooms` are the lengths of the four slices: words, bytes, bytes, words.
pub fn load(module: &[u8], grammar: &[u8], rooms: [usize; 4]) -> Load {
    match Grammar::read(grammar) {
        Some(grammar) => load_with(module, &grammar, rooms),
        None => Load { number: 24, ..Load::default() },
    }
}

/// The same with grammar bytes already found well-formed.
pub fn load_with(module: &[u8], grammar: &Grammar, rooms: [usize; 4]) -> Load {
    if module.len() > MOST_MODULE_BYTES {
        return Load { number: 31, ..Load::default() };
    }
    let mut d = Decoder { position: 0, limit: None };
    let header = match read_header(module, &mut d) {
        Ok(header) => header,
        Err(r) => return Load { number: r.number, offset: r.place, ..Load::default() },
    };
    let mut load = Load { header, ..Load::default() };
    let mut state = State::Outside;
    // 0, or 16 or 21 at the end
    let end = |state| match state {
        State::Outside => Ok(()),
        State::Function => refuse(16, module.len() / 4 * 4, 0),
        State::Block => refuse(21, module.len() / 4 * 4, 0),
    };
    let answer = loop {
        let Ok(first) = d.word(module) else { break end(state) };
        if let Err(r) = load_one(module, &mut d, grammar, rooms, first, &mut state, &mut load) {
            break Err(r);
        }
    };
    load.index = load.instructions.len() + 1;
    match answer {
        Ok(()) => load.offset = module.len() / 4 * 4,
        Err(r) => (load.number, load.offset, load.value) = (r.number, r.place, r.value),
    }
    load
}

/// Five words are read before the first is looked at.
fn read_header(module: &[u8], d: &mut Decoder) -> Result<[u32; 5], Refusal> {
    let mut header = [0; 5];
    for word in &mut header {
        *word = d.word(module).or_else(|r| refuse(1, r.place, 0))?;
    }
    match header[0] {
        MAGIC => Ok(header),
        swapped if swapped == MAGIC.swap_bytes() => refuse(3, 0, 0),
        _ => refuse(2, 0, 0),
    }
}

/// One instruction is read, laid out, given room, and kept; a refusal leaves stores and state.
fn load_one(
    module: &[u8],
    d: &mut Decoder,
    grammar: &Grammar,
    rooms: [usize; 4],
    first: u32,
    state: &mut State,
    load: &mut Load,
) -> Result<(), Refusal> {
    let start = d.position - 4;
    let (inst, words) = read_instruction(module, d, grammar, &load.types, first)?;
    let (tag, next) = layout(layout_kind(inst.opcode), *state).or_else(|number| refuse(number, start, 0))?;

    // what the instruction puts into the log, the strings and the types
    let (mut log, mut strings): (Vec<u8>, Vec<u8>) = (vec![], vec![]);
    for (kind, value) in &inst.operands {
        log.push(*kind);
        match value {
            Value::Word(word) => log.extend(word.to_le_bytes()),
            Value::Long(long) => log.extend(long.to_le_bytes()),
            Value::Text(text) => {
                log.extend(((load.strings.len() + strings.len()) as u32).to_le_bytes());
                log.extend((text.len() as u32).to_le_bytes());
                strings.extend(text);
            }
        }
    }
    let entry = tracked(&inst, &load.types);
    let old = entry.and_then(|entry| load.types.iter().position(|t| t[0] == entry[0]));
    let presence = u32::from(inst.result_type.is_some()) + 2 * u32::from(inst.result_id.is_some());
    let [function, block] = numbers(tag, &load.instructions);
    let record = [
        u32::from(inst.opcode) + 65536 * presence,
        tag,
        start as u32,
        inst.result_type.unwrap_or(0),
        inst.result_id.unwrap_or(0),
        load.log.len() as u32,
        inst.operands.len() as u32,
        words,
        function,
        block,
    ];

    let [records, log_bytes, string_bytes, type_entries] = load.counts();
    let new_entries = usize::from(entry.is_some() && old.is_none());
    let needed = [records + 1, log_bytes + log.len(), string_bytes + strings.len(), type_entries + new_entries];
    let room = [rooms[0] / RECORD, rooms[1], rooms[2], rooms[3] / 3];
    if let Some(store) = (0..4).find(|s| needed[*s] > room[*s]) {
        return refuse(25 + store as u32, start, 0);
    }
    load.instructions.push(record);
    load.log.extend(log);
    load.strings.extend(strings);
    match (entry, old) {
        (Some(entry), Some(n)) => load.types[n] = entry,
        (Some(entry), None) => load.types.push(entry),
        (None, _) => (),
    }
    *state = next;
    Ok(())
}

/// "Function number and block number, both from 1, 0 where the instruction has tag 1 to 11. A block
/// number starts again with each function. Tags 12, 13 and 16 have block 0." By the last function and
/// its last label before: what stands in between changes nothing.
fn numbers(tag: u32, before: &[[u32; RECORD]]) -> [u32; 2] {
    if tag <= 11 {
        return [0, 0];
    }
    let function = before.iter().rev().find(|r| r[1] == 12).map_or(0, |r| r[8]);
    let label = before.iter().rev().take_while(|r| r[1] != 12).find(|r| r[1] == 14);
    let block = label.map_or(0, |r| r[9]);
    match tag {
        12 => [function + 1, 0],
        14 => [function, block + 1],
        15 => [function, block],
        _ => [function, 0],
    }
}

/// Plain: accepted, and nothing in the module that the records do not keep: no tail bytes, only
/// zeros from a string's zero byte to the end of its last word, embedded numbers below 65,536.
pub fn is_plain(module: &[u8], load: &Load) -> bool {
    load.number == 0 && breaks(module, load).is_none()
}

/// What can break plain form.
#[derive(Clone, Copy, Debug, PartialEq, Eq, Hash)]
pub enum Break {
    Padding,
    Embedded,
    Tail,
}

/// The ways in which a module can be not plain: padding is 1, an embedded opcode 2, tail bytes are 4, and the sum of those it has, less
/// one, is the place here.
pub const BROKEN: [&str; 7] =
    ["padding", "embedded opcode", "padding and embedded opcode", "tail", "padding and tail", "embedded opcode and tail", "all three"];

/// The lowest offset that breaks an accepted module.
pub fn breaks(module: &[u8], load: &Load) -> Option<usize> {
    all_breaks(module, load).into_iter().map(|(_, offset)| offset).min()
}

/// Every offset that breaks an accepted module: each padding byte that is not zero, each word of
/// an embedded number that is too high, and the first tail byte.
pub fn all_breaks(module: &[u8], load: &Load) -> Vec<(Break, usize)> {
    let tail = (module.len() % 4 != 0).then_some((Break::Tail, module.len() / 4 * 4));
    load.instructions.iter().flat_map(|r| record_breaks(module, load, r)).chain(tail).collect()
}

/// Every offset that breaks the instruction of a record.
fn record_breaks(module: &[u8], load: &Load, record: &[u32; RECORD]) -> Vec<(Break, usize)> {
    let mut all = vec![];
    let mut at = record[2] as usize + 4 * (1 + (record[0] >> 16).count_ones() as usize);
    let mut log = &load.log[record[5] as usize..];
    for _ in 0..record[6] {
        let kind = log[0];
        let words = match kind {
            36 | 38 => 2,
            40 => {
                let length = u32::from_le_bytes([log[5], log[6], log[7], log[8]]) as usize;
                let words = string_words(length);
                all.extend((at + length..at + 4 * words).filter(|i| module[*i] != 0).map(|i| (Break::Padding, i)));
                words
            }
            39 => {
                if module[at + 2..at + 4] != [0, 0] {
                    all.push((Break::Embedded, at));
                }
                1
            }
            _ => 1,
        };
        at += 4 * words;
        log = &log[operand_bytes(kind)..];
    }
    all
}

/// Log bytes of one operand: the kind, then 4 bytes, "8 for kinds 36, 38 and 40".
fn operand_bytes(kind: u8) -> usize {
    if matches!(kind, 36 | 38 | 40) {
        9
    } else {
        5
    }
}

// ------------------------------------------------------------------------------------ Writing

/// Lent stores of any content, with counts of any size: records, log bytes, string bytes.
#[derive(Clone, Debug, PartialEq, Eq)]
pub struct Stores {
    pub instructions: Vec<u32>,
    pub log: Vec<u8>,
    pub strings: Vec<u8>,
    pub counts: [usize; 3],
}

impl Stores {
    pub fn of(load: &Load) -> Stores {
        Stores {
            instructions: load.instructions.concat(),
            log: load.log.clone(),
            strings: load.strings.clone(),
            counts: [load.instructions.len(), load.log.len(), load.strings.len()],
        }
    }
}

/// A good record: its tag and the bytes it is written as.
pub struct Piece {
    pub tag: u32,
    pub bytes: Vec<u8>,
}

/// How far the records before this one reach.
struct Reach {
    offset: u64,
    log: usize,
    strings: usize,
    state: State,
}

/// The check of records (30): the pieces, or the index of the first bad record, or count + 1 for
/// leftover log or string bytes and, where records must not end inside a function, an open end.
pub fn check_records(stores: &Stores, must_close: bool) -> Result<Vec<Piece>, usize> {
    check_records_of(RECORD, stores, must_close)
}

/// The same over records of so many words, eight or more.
pub fn check_records_of(length: usize, stores: &Stores, must_close: bool) -> Result<Vec<Piece>, usize> {
    let [count, log_count, string_count] = stores.counts;
    let mut reach = Reach { offset: 20, log: 0, strings: 0, state: State::Outside };
    let mut pieces = vec![];
    for n in 0..count {
        let good = stores.instructions.get(length * n..length * n + length).and_then(|record| check_record(stores, record, &mut reach));
        pieces.push(good.ok_or(n + 1)?);
    }
    let leftover = reach.log != log_count || reach.strings != string_count;
    let open = must_close && reach.state != State::Outside;
    if leftover || open {
        return Err(count + 1);
    }
    Ok(pieces)
}

/// One record after those in `reach`; none when it is bad. "The writers do not read the two numbers."
fn check_record(stores: &Stores, record: &[u32], reach: &mut Reach) -> Option<Piece> {
    let [head, tag, offset, result_type, result_id, start, operands, words]: [u32; 8] = record[..8].try_into().unwrap();
    let (opcode, presence) = (head as u16, head >> 16);
    let (has_type, has_id) = (presence & 1 != 0, presence & 2 != 0);
    let (given, next) = layout(layout_kind(opcode), reach.state).ok()?;
    let fields_are_good = presence <= 3
        && (has_type || result_type == 0)
        && (has_id || result_id == 0)
        && u64::from(offset) == reach.offset
        && start as usize == reach.log
        && tag == given;
    if !fields_are_good {
        return None;
    }

    let mut bytes = vec![];
    bytes.extend((words << 16 | u32::from(opcode)).to_le_bytes());
    bytes.extend(has_type.then_some(result_type.to_le_bytes()).iter().flatten());
    bytes.extend(has_id.then_some(result_id.to_le_bytes()).iter().flatten());
    for _ in 0..operands {
        check_operand(stores, reach, &mut bytes)?;
    }
    if words > 65_535 || bytes.len() as u64 != 4 * u64::from(words) {
        return None;
    }
    reach.offset += 4 * u64::from(words);
    reach.state = next;
    Some(Piece { tag, bytes })
}

/// One operand at the log's reach, added to the bytes of its instruction; none when it is bad.
fn check_operand(stores: &Stores, reach: &mut Reach, bytes: &mut Vec<u8>) -> Option<()> {
    let log = &stores.log[..min(stores.counts[1], stores.log.len())];
    let strings = &stores.strings[..min(stores.counts[2], stores.strings.len())];
    let kind = *log.get(reach.log)?;
    if !matches!(kind, 1..=45) {
        return None;
    }
    let operand = log.get(reach.log..reach.log + operand_bytes(kind))?;
    reach.log += operand.len();
    if kind != 40 {
        bytes.extend(&operand[1..]);
        return Some(());
    }
    let number = |b: &[u8]| u32::from_le_bytes(b.try_into().unwrap()) as usize;
    let (start, length) = (number(&operand[1..5]), number(&operand[5..9]));
    let text = strings.get(start..start + length)?;
    if start != reach.strings || text.contains(&0) || !is_utf8(text) {
        return None;
    }
    reach.strings += length;
    bytes.extend(text);
    bytes.extend(vec![0; 4 * string_words(length) - length]);
    Some(())
}

/// What a writer answers: 0 and the bytes at the head of the output, or 29, or 30 with an index;
/// output past the bytes stays, and on 29 and 30 all of it.
#[derive(Clone, Debug, Default, PartialEq, Eq)]
pub struct Written {
    pub number: u32,
    pub index: usize,
    pub bytes: Vec<u8>,
}

fn written(bytes: Vec<u8>, output: usize) -> Written {
    if bytes.len() > output {
        return Written { number: 29, ..Written::default() };
    }
    Written { number: 0, index: 0, bytes }
}

fn bad_records(index: usize) -> Written {
    Written { number: 30, index, bytes: vec![] }
}

/// Header words and instructions as read, into an output of that many bytes.
pub fn write_parse_order(header: [u32; 5], stores: &Stores, output: usize) -> Written {
    let pieces = match check_records(stores, false) {
        Ok(pieces) => pieces,
        Err(index) => return bad_records(index),
    };
    let mut bytes: Vec<u8> = header.iter().flat_map(|w| w.to_le_bytes()).collect();
    pieces.iter().for_each(|p| bytes.extend(&p.bytes));
    written(bytes, output)
}

/// The crate's order: own magic, generator and reserved words, sections 1 to 11 with the last
/// MemoryModel only, then each function's definition, parameters, blocks, end.
pub fn write_module_order(header: [u32; 5], stores: &Stores, output: usize) -> Written {
    let pieces = match check_records(stores, true) {
        Ok(pieces) => pieces,
        Err(index) => return bad_records(index),
    };
    let (major, minor, bound) = (header[1] >> 16 & 0xFF, header[1] >> 8 & 0xFF, header[3]);
    let own = [MAGIC, major << 16 | minor << 8, 0x000F_0000, bound, 0];
    let mut bytes: Vec<u8> = own.iter().flat_map(|w| w.to_le_bytes()).collect();

    let with = |part: &[&Piece], tags: &[u32]| -> Vec<Vec<u8>> {
        part.iter().filter(|p| tags.contains(&p.tag)).map(|p| p.bytes.clone()).collect()
    };
    let all: Vec<&Piece> = pieces.iter().collect();
    for tag in 1..=11 {
        let mut section = with(&all, &[tag]);
        if tag == 4 {
            section = section.split_off(section.len().saturating_sub(1));
        }
        bytes.extend(section.concat());
    }
    let inside: Vec<&Piece> = pieces.iter().filter(|p| p.tag >= 12).collect();
    for function in inside.split_inclusive(|p| p.tag == 16) {
        for tags in [&[12][..], &[13], &[14, 15], &[16]] {
            bytes.extend(with(function, tags).concat());
        }
    }
    written(bytes, output)
}

/// The rules of standing, in this order.
pub const STANDING: [&str; 4] = ["sections first and in order", "parameters first", "one MemoryModel", "declarations first"];

/// Whether each rule is kept: tags 1 to 11 come first and never fall; no parameter follows a label
/// in its function; tag 4 occurs exactly once; no function without a label comes after one with a
/// label. Or the index of 30, as module order gives it.
pub fn standing(stores: &Stores) -> Result<[bool; 4], usize> {
    let tags: Vec<u32> = check_records(stores, true)?.iter().map(|p| p.tag).collect();
    let split = tags.iter().position(|t| *t >= 12).unwrap_or(tags.len());
    let (first, rest) = tags.split_at(split);
    let never_fall = first.windows(2).all(|w| w[0] <= w[1]);
    let come_first = rest.iter().all(|t| *t >= 12);
    let functions: Vec<&[u32]> = rest.split_inclusive(|t| *t == 16).collect();
    let label = |function: &[u32]| function.iter().position(|t| *t == 14);
    let parameters_lead = functions.iter().all(|f| f[label(f).unwrap_or(f.len())..].iter().all(|t| *t != 13));
    let memory_models = tags.iter().filter(|t| **t == 4).count();
    let definition = functions.iter().position(|f| label(f).is_some()).unwrap_or(functions.len());
    let declarations_lead = functions[definition..].iter().all(|f| label(f).is_some());
    Ok([never_fall && come_first, parameters_lead, memory_models == 1, declarations_lead])
}

// -------------------------------------------------------------------------------- The listing

pub const MOST_LISTING_BYTES: usize = 4096;

/// What the listing program prints for its standard input, every line ended.
pub fn listing(input: &[u8], grammar: &Grammar) -> String {
    if input.len() > MOST_LISTING_BYTES {
        return "too long\n".to_string();
    }
    let load = load_with(input, grammar, [usize::MAX; 4]);
    let mut text = String::new();
    let [_, version, _, bound, _] = load.header;
    if load.header != [0; 5] {
        text += &format!("module {}.{} bound {}\n", version >> 16 & 0xFF, version >> 8 & 0xFF, bound);
    }
    for (n, r) in load.instructions.iter().enumerate() {
        text += &format!("{} {} {} {} {}\n", n + 1, r[2], r[1], r[0] & 0xFFFF, r[7]);
    }
    text += &match load.number {
        0 => format!("accepted {}\n", load.instructions.len()),
        number => format!("refused {} {} {}\n", number, load.offset, load.index),
    };
    text
}
