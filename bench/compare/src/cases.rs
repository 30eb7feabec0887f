//! Named inputs, chosen by hand: loads with the built-in grammar, small grammars and tight rooms, grammar bytes, records.
//! Nothing here judges anything.

use crate::books::{called_for, old_of, Turn, Turned, OLD_RECORD};
use crate::grow::*;
use crate::reading::*;

/// What is put to the library.
pub enum Input {
    /// A module with a grammar (none: the built-in one) and the lengths of the four lent slices.
    Load { module: Vec<u8>, grammar: Option<Vec<u8>>, rooms: [usize; 4] },
    /// Records with a header and the length of the lent output: both writers and standing.
    Records { header: [u32; 5], stores: Stores, output: usize },
    /// A new book, and the old one that has the first eight words of each record: both turns, outputs long and short.
    Books { stores: Stores },
    /// A book with what comes of turning it into an output of this many words.
    Turned { turn: Turn, stores: Stores, output: usize, turned: Turned },
}

pub struct Case {
    pub name: String,
    pub input: Input,
}

/// All named inputs, one after the other.
pub fn all(builtin: &Grammar) -> Vec<Case> {
    let mut cases = Cases { builtin, all: vec![] };
    modules(&mut cases);
    rooms_and_grammars(&mut cases);
    grammar_bytes_alone(&mut cases);
    records(&mut cases);
    books(&mut cases);
    plain(&mut cases);
    cases.all
}

struct Cases<'a> {
    builtin: &'a Grammar,
    all: Vec<Case>,
}

impl<'a> Cases<'a> {
    fn load(&mut self, name: &str, module: &[u8]) {
        self.load_in(name, module, None, enough(module));
    }

    /// Grammar none: the built-in one.
    fn load_in(&mut self, name: &str, module: &[u8], grammar: Option<&[u8]>, rooms: [usize; 4]) {
        let input = Input::Load { module: module.to_vec(), grammar: grammar.map(|g| g.to_vec()), rooms };
        self.all.push(Case { name: name.to_string(), input });
    }

    /// Grammar bytes with a small module.
    fn grammar(&mut self, name: &str, grammar: &[u8]) {
        let words = [inst(7, &[1, 0x6261]), inst(21, &[2, 64, 0]), inst(43, &[2, 3, 7, 1])].concat();
        let m = module(&words);
        self.load_in(&format!("grammar/{name}"), &m, Some(grammar), enough(&m));
    }

    fn records(&mut self, name: &str, header: [u32; 5], stores: &Stores, output: usize) {
        self.all.push(Case { name: name.to_string(), input: Input::Records { header, stores: stores.clone(), output } });
    }

    fn books(&mut self, name: &str, stores: &Stores) {
        self.all.push(Case { name: name.to_string(), input: Input::Books { stores: stores.clone() } });
    }

    fn turned(&mut self, name: &str, turn: Turn, stores: &Stores, output: usize, turned: Turned) {
        self.all.push(Case { name: name.to_string(), input: Input::Turned { turn, stores: stores.clone(), output, turned } });
    }

    fn grower(&self) -> Grower<'a> {
        Grower::new(self.builtin, 97)
    }
}

fn list<T: ToString>(numbers: &[T]) -> String {
    numbers.iter().map(|n| n.to_string()).collect::<Vec<_>>().join(",")
}

/// Instructions one after the other.
fn insts(all: &[Vec<u32>]) -> Vec<u32> {
    all.concat()
}

/// An instruction inside a block, closed behind.
fn in_block(words: &[u32]) -> Vec<u32> {
    [opening(State::Block), words.to_vec(), closing(State::Block)].concat()
}

// ------------------------------------------------------------------------ Loads, built-in grammar

pub fn fittings() -> Vec<Vec<u8>> {
    let h = module(&[]);
    let mut swapped = h.clone();
    swapped[..4].reverse();
    vec![
        vec![],
        h[..19].to_vec(),
        swapped,
        h.clone(),
        [&h[..], &[1, 2, 3]].concat(),
        module(&[0x0003_000E, 0, 1]),
        module(&[0]),
        module(&[0x0001_FFFF]),
        module(&[0x0002_000E, 0]),
        module(&[0x0004_000E, 0, 1, 0]),
        module(&[0x0003_000E, 0]),
        module(&[0x0003_0007, 1, 0x0000_6261]),
        module(&[0x0003_0007, 1, 0x0100_6261]),
        module(&[0x0004_0015, 2, 0x40, 0, 0x0005_002B, 2, 3, 7, 1]),
    ]
}

fn modules(p: &mut Cases) {
    for (n, m) in fittings().iter().enumerate() {
        p.load(&format!("fitting/{}", n + 1), m);
    }
    a_headers(p);
    a_cells(p);
    a_numbers(p);
    a_check_order(p);
    a_operands(p);
    a_types(p);
    a_embedded(p);
    a_strings(p);
}

fn a_headers(p: &mut Cases) {
    let h = module(&[]);
    for length in 0..20 {
        p.load(&format!("header/cut-{length}"), &h[..length]);
    }
    p.load("header/zeros-4", &[0; 4]);
    p.load("header/zeros-19", &[0; 19]);
    p.load("header/zeros-20", &[0; 20]);
    let mut m = h.clone();
    for n in 0..4 {
        m[n] ^= 1;
        p.load(&format!("header/magic-byte-{n}"), &m);
        m[n] ^= 1;
    }
    m[..4].reverse();
    p.load("header/swapped", &m);
    p.load("header/swapped-cut", &m[..16]);
    m.extend([1, 2, 3, 4]);
    p.load("header/swapped-more", &m);
    let odd = [MAGIC, 0xFF01_05EE, 0x0102_0304, 0xFFFF_FFFF, 0x8000_0001];
    p.load("header/odd-words", &bytes_of(&odd));
    p.load("header/odd-words-4", &bytes_of(&[&odd[..], &[0]].concat()));
    for tail in 1..4 {
        p.load(&format!("tail/{tail}"), &[&module(&[0x0003_000E, 0, 1])[..], &[0; 3][..tail]].concat());
        p.load(&format!("tail/open-{tail}"), &[&module(&opening(State::Block))[..], &[9; 3][..tail]].concat());
        p.load(&format!("tail/header-{tail}"), &[&h[..], &[0x0E, 0, 3][..tail]].concat());
        p.load(&format!("tail/operand-missing-{tail}"), &[&module(&[0x0003_000E, 0])[..], &[1, 0, 0][..tail]].concat());
    }
}

/// Every row that the table names, and some others, in every state.
fn a_cells(p: &mut Cases) {
    let mut grower = p.grower();
    let others = [0, 12, 61, 128, 247, 322, 327, 331, 332, 400, 5335, 5336];
    let rows: Vec<Row> =
        p.builtin.rows.iter().filter(|r| layout_kind(r.opcode) != Kind::Other || others.contains(&r.opcode)).cloned().collect();
    for row in &rows {
        for (state, name) in STATES {
            grower.start();
            let words = grower.instruction(row, Fill::Random, Some((39, 128)));
            let next = layout(layout_kind(row.opcode), state).map_or(state, |(_, next)| next);
            let words = [opening(state), words, closing(next)].concat();
            p.load(&format!("cell/{}/{}", row.opcode, name), &module(&words));
        }
    }
    let function = inst(54, &[1, 2, 0, 3]);
    p.load("end/function", &module(&function));
    p.load("end/block", &module(&opening(State::Block)));
    p.load("end/function-after-block", &module(&insts(&[opening(State::Block), inst(253, &[])])));
    p.load("end/second-function", &module(&insts(&[function.clone(), inst(56, &[]), function.clone()])));
    p.load(
        "end/line-before-label",
        &module(&insts(&[function.clone(), inst(317, &[]), inst(248, &[4]), inst(317, &[]), closing(State::Block)])),
    );
    p.load("end/parameter-after-label", &module(&insts(&[opening(State::Block), inst(55, &[1, 5]), closing(State::Block)])));
    p.load("end/parameter-between-blocks", &module(&insts(&[opening(State::Block), inst(253, &[]), inst(55, &[1, 5]), inst(56, &[])])));
    p.load("end/capability-in-block", &module(&in_block(&inst(17, &[1]))));
    p.load("end/two-memory-models", &module(&insts(&[inst(14, &[0, 1]), inst(14, &[1, 2])])));
}

/// Function and block numbers: what counts, what does not, and where the count starts again.
fn a_numbers(p: &mut Cases) {
    let begin = inst(54, &[1, 2, 0, 3]);
    let end = inst(56, &[]);
    let function = |body: &[Vec<u32>]| insts(&[begin.clone(), insts(body), end.clone()]);
    let (label, undef, done) = (inst(248, &[4]), inst(1, &[1, 5]), inst(253, &[]));
    let block = insts(&[label.clone(), undef.clone(), done.clone()]);
    // lines are of tag 11 outside blocks, of tag 15 in them; a capability is of tag 1 anywhere
    let (line, capability, parameter) = (inst(317, &[]), inst(17, &[1]), inst(55, &[1, 6]));
    let two = function(&[block.clone(), block.clone()]);
    for (name, words) in [
        ("two-functions", insts(&[two.clone(), two.clone()])),
        ("second-has-one-block", insts(&[two.clone(), function(&[block.clone()])])),
        ("declaration-between", insts(&[two.clone(), function(&[]), function(&[parameter.clone()]), two.clone()])),
        (
            "line-before-label",
            function(&[line.clone(), parameter.clone(), line.clone(), block.clone(), line.clone(), block.clone(), line.clone()]),
        ),
        ("line-in-block", function(&[label.clone(), line.clone(), undef.clone(), line.clone(), done.clone(), block.clone()])),
        (
            "capability-in-block",
            function(&[block.clone(), label.clone(), capability.clone(), undef.clone(), capability.clone(), done.clone()]),
        ),
        (
            "parameter-in-block",
            function(&[block.clone(), label.clone(), parameter.clone(), undef.clone(), parameter.clone(), done.clone()]),
        ),
        (
            "parameter-and-line-in-block",
            function(&[label.clone(), parameter.clone(), line.clone(), capability.clone(), done.clone(), block.clone()]),
        ),
        ("parameter-between-blocks", function(&[block.clone(), parameter.clone(), capability.clone(), block.clone(), parameter.clone()])),
        (
            "sections-around",
            insts(&[capability.clone(), line.clone(), two.clone(), line.clone(), inst(19, &[1]), two.clone(), capability.clone()]),
        ),
        ("no-functions", insts(&[capability.clone(), line.clone(), undef.clone()])),
        ("many", insts(&[two.repeat(3), function(&[block.repeat(12)])])),
        // refused in the second function: what came before has its numbers
        ("16-in-second", insts(&[two.clone(), begin.clone(), parameter.clone()])),
        ("21-in-second", insts(&[two.clone(), begin.clone(), block.clone(), label.clone(), parameter.clone(), undef.clone()])),
        ("20-in-second", insts(&[two.clone(), begin.clone(), block.clone(), label.clone(), label.clone()])),
        ("15-in-second", insts(&[two.clone(), begin.clone(), begin.clone()])),
        ("5-in-block", insts(&[two.clone(), begin.clone(), label.clone(), undef.clone(), vec![0x0001_FFFF]])),
    ] {
        p.load(&format!("numbers/{name}"), &module(&words));
    }
    // the room in records is the length by ten: every length of the store for two instructions, and more behind
    let both = module(&insts(&[begin, end]));
    for words in 0..=2 * RECORD + 3 {
        p.load_in(&format!("numbers/room-{words}"), &both, None, [words, 64, 64, 64]);
    }
    // 25 at each instruction of two functions, with a word less than it needs and with no more than those before it need
    let all = module(&insts(&[two.clone(), two]));
    for records in 0..18 {
        for words in [RECORD * records, RECORD * records + RECORD - 1] {
            p.load_in(&format!("numbers/records-{words}"), &all, None, [words, 999, 999, 999]);
        }
    }
}

/// Two faults in one instruction: which one is told.
fn a_check_order(p: &mut Cases) {
    for (name, words) in [
        ("4-before-5", vec![0x0000_FFFF]),
        ("5-before-9", vec![0x0009_FFFF]),
        ("5-at-second", insts(&[inst(17, &[1]), vec![0x0001_0009]])),
        ("4-at-second", insts(&[inst(17, &[1]), vec![0x0000_0011]])),
        ("6-before-22", inst(249, &[])),
        ("7-before-22", inst(253, &[1])),
        ("7-before-17", inst(56, &[1, 2])),
        ("7-past-stream", vec![0x0002_0000]),
        ("7-far-past-stream", vec![0xFFFF_0000]),
        ("10-before-7", inst(14, &[7, 1, 0])),
        ("10-before-6", inst(14, &[7])),
        ("6-position", inst(14, &[0])),
        ("9-position", vec![0x0003_000E, 0]),
        ("9-first-operand", vec![0x0003_000E]),
        ("9-id", vec![0x0004_0015, 1]),
        ("22-outside", inst(253, &[])),
        ("23-nop", inst(0, &[])),
        ("15-nested", insts(&[inst(54, &[1, 2, 0, 3]), inst(54, &[1, 2, 0, 3])])),
        ("15-in-block", insts(&[opening(State::Block), inst(54, &[1, 2, 0, 3])])),
        ("21-function-end", insts(&[opening(State::Block), inst(56, &[])])),
        ("20-nested-block", insts(&[opening(State::Block), inst(248, &[5])])),
        ("6-result-type", inst(1, &[])),
        ("6-result-id", inst(1, &[1])),
        ("7-one-word-more", inst(1, &[1, 2, 3])),
        ("index-three", insts(&[inst(17, &[1]), inst(17, &[2]), inst(17, &[9999])])),
    ] {
        p.load(&format!("order/{name}"), &module(&words));
    }
}

/// Optional and repeated operands, enumerants, masks, parameters.
fn a_operands(p: &mut Cases) {
    for count in 0..6 {
        let words: Vec<u32> = (1..=count).collect();
        p.load(&format!("operands/source-{count}"), &module(&inst(3, &[&[2, 450][..], &words].concat())));
        p.load(&format!("operands/ext-inst-{count}"), &module(&in_block(&inst(12, &words))));
        p.load(&format!("operands/struct-{count}"), &module(&inst(30, &words)));
        p.load(&format!("operands/group-member-decorate-{count}"), &module(&inst(75, &words)));
        p.load(&format!("operands/phi-{count}"), &module(&in_block(&inst(245, &words))));
        p.load(&format!("operands/load-aligned-{count}"), &module(&in_block(&inst(61, &[&[1, 2, 3, 2][..], &words].concat()))));
        p.load(&format!("operands/load-three-bits-{count}"), &module(&in_block(&inst(61, &[&[1, 2, 3, 0x3A][..], &words].concat()))));
        p.load(&format!("operands/store-copy-{count}"), &module(&in_block(&inst(63, &[&[1, 2, 0][..], &words].concat()))));
        p.load(&format!("operands/sample-grad-{count}"), &module(&in_block(&inst(87, &[&[1, 2, 3, 4, 5][..], &words].concat()))));
        p.load(&format!("operands/local-size-{count}"), &module(&inst(16, &[&[1, 17][..], &words].concat())));
        p.load(&format!("operands/local-size-hint-id-{count}"), &module(&inst(16, &[&[1, 39][..], &words].concat())));
        p.load(&format!("operands/spec-id-{count}"), &module(&inst(71, &[&[1, 1][..], &words].concat())));
    }
    for (name, words) in [
        ("capability-unknown", inst(17, &[4428])),
        ("capability-zero", inst(17, &[0])),
        ("capability-largest", inst(17, &[u32::MAX])),
        ("mask-zero", in_block(&inst(61, &[1, 2, 3, 0]))),
        ("mask-unknown-bit", in_block(&inst(61, &[1, 2, 3, 0x40]))),
        ("mask-known-and-unknown", in_block(&inst(61, &[1, 2, 3, 0x8000_0001]))),
        ("mask-bit-31", in_block(&inst(61, &[1, 2, 3, 0x8000_0000]))),
        ("decoration-builtin", inst(71, &[1, 11, 0])),
        ("decoration-builtin-unknown", inst(71, &[1, 11, 9999])),
        ("decoration-builtin-missing", inst(71, &[1, 11])),
        ("decoration-id-missing", inst(71, &[1, 0x1E])),
        ("decoration-string-missing", inst(71, &[1, 0x1603])),
        ("decoration-linkage", inst(71, &[&[1, 41][..], &text(b"ab"), &[1]].concat())),
        ("decoration-linkage-missing", inst(71, &[&[1, 41][..], &text(b"ab")].concat())),
        ("decoration-linkage-unknown", inst(71, &[&[1, 41][..], &text(b"abcd"), &[7]].concat())),
        ("decoration-two-strings", inst(71, &[&[1, 5834][..], &text(b"abc"), &text(b"")].concat())),
        ("decoration-math-mode", inst(71, &[1, 40, 0x1F])),
        ("decoration-math-mode-unknown", inst(71, &[1, 40, 0x20])),
        ("loop-merge", in_block(&inst(246, &[1, 2, 0x104, 8, 9]))),
        ("loop-merge-short", in_block(&inst(246, &[1, 2, 0x104, 8]))),
        ("image-operands-all", in_block(&inst(87, &[1, 2, 3, 4, 0x1FFF, 5, 6, 7, 8, 9, 10, 11, 12, 13, 14, 15]))),
        ("type-image-access", inst(25, &[1, 2, 1, 0, 0, 0, 0, 0, 2])),
        ("entry-point", inst(15, &[&[0, 1][..], &text(b"main"), &[5, 6]].concat())),
        ("entry-point-no-string", inst(15, &[0, 1])),
        ("entry-point-no-zero", inst(15, &[0, 1, 0x6161_6161])),
    ] {
        p.load(&format!("operands/{name}"), &module(&words));
    }
}

/// Kinds 48 and 49 by the types of earlier instructions.
fn a_types(p: &mut Cases) {
    let switch = |literal: &[u32]| {
        let rest = [&[4, 5][..], literal, &[6], literal, &[7]].concat();
        [opening(State::Block), inst(251, &rest), inst(56, &[])].concat()
    };
    for width in [0, 1, 7, 8, 9, 16, 24, 32, 33, 63, 64, 65, 128, 0x1_0040, u32::MAX] {
        for (float, define) in [("int", inst(21, &[2, width, 0])), ("float", inst(22, &[2, width]))] {
            p.load(&format!("types/{float}-{width}-constant-1"), &module(&insts(&[define.clone(), inst(43, &[2, 3, 7])])));
            p.load(&format!("types/{float}-{width}-constant-2"), &module(&insts(&[define.clone(), inst(43, &[2, 3, 7, 1])])));
            p.load(&format!("types/{float}-{width}-switch-1"), &module(&insts(&[define.clone(), inst(1, &[2, 4]), switch(&[7])])));
            p.load(&format!("types/{float}-{width}-switch-2"), &module(&insts(&[define.clone(), inst(1, &[2, 4]), switch(&[7, 8])])));
        }
    }
    let long = inst(21, &[2, 64, 1]);
    for (name, words) in [
        ("unknown-type", inst(43, &[2, 3, 7])),
        ("unknown-type-two-words", inst(43, &[2, 3, 7, 1])),
        ("no-literal", insts(&[long.clone(), inst(43, &[2, 3])])),
        ("no-literal-bad-width", insts(&[inst(21, &[1, 24, 0]), inst(43, &[1, 2])])),
        ("half-a-long", insts(&[long.clone(), inst(43, &[2, 3, 7])])),
        ("half-a-long-stream", insts(&[long.clone(), vec![0x0005_002B, 2, 3, 7]])),
        ("spec-constant", insts(&[long.clone(), inst(50, &[2, 3, 7, 1])])),
        ("sign-0", inst(21, &[1, 32, 0])),
        ("sign-1", inst(21, &[1, 32, 1])),
        ("sign-2", inst(21, &[1, 32, 2])),
        ("sign-largest", inst(21, &[1, 32, u32::MAX])),
        ("id-0", insts(&[inst(21, &[0, 64, 1]), inst(43, &[0, 0, 1, 2])])),
        ("redefined", insts(&[long.clone(), inst(22, &[2, 32]), inst(43, &[2, 3, 7])])),
        ("redefined-keeps-entry", insts(&[inst(21, &[1, 8, 0]), long.clone(), inst(22, &[1, 16]), inst(43, &[2, 1, 7, 8])])),
        ("redefined-as-void", insts(&[long.clone(), inst(19, &[2]), inst(43, &[2, 3, 7, 8])])),
        ("value-of-own-type", insts(&[inst(1, &[2, 2]), long.clone(), inst(1, &[2, 2])])),
        ("type-after-value", insts(&[inst(1, &[2, 3]), long.clone(), inst(1, &[3, 4])])),
        ("through-three", insts(&[long.clone(), inst(1, &[2, 3]), inst(1, &[3, 4]), inst(43, &[4, 5, 7, 8])])),
        ("function-result", insts(&[long.clone(), inst(54, &[2, 3, 0, 9]), inst(56, &[])])),
        ("vector-is-no-type-here", insts(&[long.clone(), inst(23, &[3, 2, 4]), inst(43, &[3, 5, 7])])),
        ("ray-query-type", insts(&[inst(21, &[3, 64, 0]), inst(4472, &[3]), inst(43, &[3, 5, 7, 8])])),
        ("own-definition-not-seen", insts(&[inst(43, &[3, 3, 7]), long.clone(), inst(43, &[2, 2, 7, 8])])),
        ("refused-leaves-none", insts(&[long.clone(), inst(21, &[3, 8, 0, 0])])),
        ("refused-by-layout", insts(&[long.clone(), inst(61, &[2, 3, 4])])),
        ("switch-no-pairs", in_block(&insts(&[inst(251, &[4, 5]), inst(248, &[6])]))),
        ("switch-half-a-pair", insts(&[opening(State::Block), inst(251, &[4, 5, 6])])),
        ("switch-unknown", switch(&[9])),
        (
            "switch-bad-width-no-pairs",
            insts(&[inst(21, &[2, 24, 0]), inst(1, &[2, 4]), opening(State::Block), inst(251, &[4, 5]), inst(56, &[])]),
        ),
        ("switch-literal-cut", insts(&[long.clone(), inst(1, &[2, 4]), opening(State::Block), inst(251, &[4, 5, 6])])),
        ("switch-id-cut", insts(&[long, inst(1, &[2, 4]), opening(State::Block), inst(251, &[4, 5, 6, 7])])),
    ] {
        p.load(&format!("types/{name}"), &module(&words));
    }
}

/// Kind 39.
fn a_embedded(p: &mut Cases) {
    for (name, rest) in [
        ("iadd", vec![128, 5, 6]),
        ("iadd-short", vec![128, 5]),
        ("iadd-long", vec![128, 5, 6, 7]),
        ("no-number", vec![]),
        ("13", vec![9, 5]),
        ("13-largest", vec![0xFFFF]),
        ("13-high-bits", vec![0x0001_FFFF]),
        ("high-bits", vec![0x0001_0080, 5, 6]),
        ("highest-bits", vec![0xFFFF_0080, 5, 6]),
        ("nop", vec![0]),
        ("nop-and-more", vec![0, 1]),
        ("14-constant", vec![43, 5]),
        ("14-constant-alone", vec![43]),
        ("14-spec-constant", vec![50, 5]),
        ("14-spec-constant-op", vec![52, 128, 5, 6]),
        ("14-switch-alone", vec![0xFB]),
        ("14-switch-one", vec![0xFB, 5]),
        ("14-switch-two", vec![0xFB, 5, 6]),
        ("14-high-bits", vec![0x0001_00FB]),
        ("load-needs-access", vec![61, 5]),
        ("load-access", vec![61, 5, 2, 4]),
        ("load-access-parameter-missing", vec![61, 5, 2]),
        ("load-access-unknown", vec![61, 5, 0x40]),
        ("extract-one-index", vec![81, 5, 0]),
        ("extract-no-index", vec![81, 5]),
        ("extract-two-indices", vec![81, 5, 0, 1]),
        ("struct-type", vec![30, 5]),
        ("phi-one-pair", vec![245, 5, 6]),
        ("name", vec![5, 7, 0x0000_6261]),
        ("name-no-string", vec![5, 7]),
        ("function", vec![54, 0, 7]),
        ("type-int", vec![21, 64, 0]),
    ] {
        p.load(&format!("embedded/{name}"), &module(&inst(52, &[&[1, 2][..], &rest].concat())));
        if !rest.is_empty() {
            let mut words = inst(52, &[&[1, 2][..], &rest].concat());
            words.pop();
            p.load(&format!("embedded/{name}-cut"), &module(&words));
        }
    }
    p.load("embedded/14-switch-stream", &module(&[0x0006_0034, 1, 2, 0xFB]));
    p.load("embedded/type-is-tracked", &module(&insts(&[inst(21, &[1, 64, 0]), inst(52, &[1, 2, 128, 5, 6]), inst(43, &[2, 3, 7, 8])])));
    p.load("embedded/type-int-is-not-tracked", &module(&insts(&[inst(52, &[1, 2, 21, 64, 0]), inst(43, &[2, 3, 7])])));
}

/// Text at the edges of Unicode's table: well-formed, then not.
const GOOD_TEXT: [&[u8]; 22] = [
    b"",
    b"a",
    b"abc",
    b"abcd",
    b"abcdefg",
    b"abcdefgh",
    &[0x01],
    &[0x7F],
    &[0xC2, 0x80],
    &[0xDF, 0xBF],
    &[0xE0, 0xA0, 0x80],
    &[0xE0, 0xBF, 0xBF],
    &[0xE1, 0x80, 0x80],
    &[0xEC, 0xBF, 0xBF],
    &[0xED, 0x80, 0x80],
    &[0xED, 0x9F, 0xBF],
    &[0xEE, 0x80, 0x80],
    &[0xEF, 0xBF, 0xBF],
    &[0xF0, 0x90, 0x80, 0x80],
    &[0xF0, 0xBF, 0xBF, 0xBF, 0x61],
    &[0xF3, 0xBF, 0xBF, 0xBF],
    &[0xF4, 0x8F, 0xBF, 0xBF],
];
const BAD_TEXT: [&[u8]; 30] = [
    &[0x80],
    &[0xBF],
    &[0xC0, 0x80],
    &[0xC1, 0xBF],
    &[0xC2],
    &[0xC2, 0x7F],
    &[0xC2, 0xC0],
    &[0xDF, 0x41],
    &[0xE0, 0x80, 0x80],
    &[0xE0, 0x9F, 0xBF],
    &[0xE0, 0xA0],
    &[0xE0, 0xA0, 0x7F],
    &[0xE1, 0x80],
    &[0xE1, 0x7F, 0x80],
    &[0xE1, 0x80, 0xC0],
    &[0xED, 0xA0, 0x80],
    &[0xED, 0xBF, 0xBF],
    &[0xEF, 0xC0, 0x80],
    &[0xF0, 0x80, 0x80, 0x80],
    &[0xF0, 0x8F, 0xBF, 0xBF],
    &[0xF0, 0x90, 0x80],
    &[0xF0, 0x90, 0x7F, 0x80],
    &[0xF1, 0x80, 0x80, 0xC0],
    &[0xF4, 0x90, 0x80, 0x80],
    &[0xF4, 0x8F, 0xC0, 0x80],
    &[0xF5, 0x80, 0x80, 0x80],
    &[0xF8, 0x88, 0x80, 0x80],
    &[0xFE],
    &[0xFF],
    &[0x61, 0x62, 0x63, 0x64, 0x65, 0x66, 0x80],
];

fn a_strings(p: &mut Cases) {
    for (n, s) in GOOD_TEXT.iter().chain(&BAD_TEXT).enumerate() {
        p.load(&format!("strings/text-{n}"), &module(&inst(7, &[&[1][..], &text(s)].concat())));
    }
    for (name, words) in [
        ("8-no-zero", vec![0x0003_0007, 1, 0x6161_6161]),
        ("8-zero-behind", vec![0x0003_0007, 1, 0x6161_6161, 0]),
        ("8-before-11", vec![0x0003_0007, 1, 0xFFFF_FFFF, 0]),
        ("9-before-8", vec![0x0004_0007, 1, 0x6161_6161]),
        ("9-though-zero", vec![0x0004_0007, 1, 0x61]),
        ("9-before-11", vec![0x0004_0007, 1, 0x00FF_FFFF]),
        ("9-nothing", vec![0x0003_0007, 1]),
        ("9-second-behind", insts(&[inst(17, &[1]), vec![0x0003_0007, 1]])),
        ("7-after-zero", vec![0x0004_0007, 1, 0x61, 0x62]),
        ("6-no-room-for-string", inst(7, &[1])),
        ("padding", vec![0x0003_0007, 1, 0x0100_0061]),
        ("zero-then-bytes-not-utf8", vec![0x0003_0007, 1, 0xFFFF_0061]),
        ("whole-word-then-zero", vec![0x0004_0007, 1, 0x6463_6261, 0]),
        ("three-names", insts(&[inst(5, &[1, 0x6261]), inst(5, &[2, 0]), inst(5, &[3, 0x6463])])),
        ("optional-string-spent", inst(3, &[1, 2, 3])),
        ("source-with-string", inst(3, &[1, 2, 3, 0x6261])),
    ] {
        p.load(&format!("strings/{name}"), &module(&words));
    }
    for tail in 1..4 {
        let all = [&module(&[0x0004_0007, 1, 0x6261_6361])[..], &[0; 3][..tail]].concat();
        p.load(&format!("strings/9-zero-in-tail-{tail}"), &all);
    }
}

// ------------------------------------------------------------------- Loads, small grammars, rooms

type Operands<'a> = &'a [(u8, u8)];
type Rows<'a> = &'a [(u16, Operands<'a>)];
type Enumerants<'a> = &'a [(u8, u32, &'a [u8])];

/// Names, types, constants, functions; all of them in few bytes.
const SMALL: Rows = &[
    (5, &[(33, 0), (40, 0)]),
    (14, &[(11, 0), (12, 0)]),
    (17, &[(34, 0)]),
    (19, &[(47, 0)]),
    (21, &[(47, 0), (34, 0), (34, 0)]),
    (22, &[(47, 0), (34, 0)]),
    (43, &[(46, 0), (47, 0), (48, 0)]),
    (54, &[(46, 0), (47, 0)]),
    (55, &[(46, 0), (47, 0)]),
    (56, &[]),
    (248, &[(47, 0)]),
    (251, &[(33, 0), (33, 0), (49, 2)]),
    (253, &[]),
    (300, &[(33, 0), (40, 1)]),
];
const SMALL_VALUES: Enumerants = &[(11, 0, &[]), (12, 1, &[])];

fn rooms_and_grammars(p: &mut Cases) {
    let small = grammar_bytes(SMALL, SMALL_VALUES);
    b_rooms(p, &small);
    b_quirks(p);
    b_broken(p, &small);
}

fn b_rooms(p: &mut Cases, small: &[u8]) {
    let name = |id, s: &[u8]| inst(5, &[&[id][..], &text(s)].concat());
    let first = module(&insts(&[inst(21, &[2, 64, 0]), name(2, b"abc"), inst(43, &[2, 3, 7, 1]), name(3, b"defgh"), inst(22, &[4, 32])]));
    let need = [5 * RECORD, 50, 8, 9];
    // every length of one store, the others with room
    for store in 0..4 {
        for length in 0..=need[store] + 2 {
            let mut rooms = [64; 4];
            rooms[store] = length;
            p.load_in(&format!("rooms/{store}-{length}"), &first, Some(small), rooms);
        }
    }
    p.load_in("rooms/none", &first, Some(small), [0; 4]);
    p.load_in("rooms/exact", &first, Some(small), need);
    p.load_in("rooms/none-for-header", &module(&[]), Some(small), [0; 4]);
    p.load_in("rooms/ample", &first, Some(small), [1000; 4]);
    // two stores short: at the same instruction the lower number, else the earlier instruction
    for a in 0..4 {
        for b in 0..4 {
            for (which, at) in [("first", [0, 0, 0, 0]), ("middle", [2 * RECORD, 24, 4, 5]), ("last", [5 * RECORD - 1, 49, 7, 8])] {
                let mut rooms = need;
                (rooms[a], rooms[b]) = (at[a], at[b]);
                p.load_in(&format!("rooms/two-{a}-{b}-{which}"), &first, Some(small), rooms);
            }
        }
    }
    // ids defined again need no entry; void takes none
    let again = module(&insts(&[
        inst(21, &[2, 64, 0]),
        inst(22, &[2, 32]),
        inst(43, &[2, 2, 7]),
        inst(19, &[2]),
        inst(19, &[9]),
        inst(22, &[3, 16]),
    ]));
    for length in 0..7 {
        p.load_in(&format!("rooms/again-{length}"), &again, Some(small), [64, 64, 64, length]);
    }
    // what comes before room, and what after
    for (case, words) in [
        ("layout-first", inst(253, &[])),
        ("other-first", inst(300, &[1])),
        ("words-left-first", inst(17, &[1, 2])),
        ("operand-first", inst(14, &[0, 2])),
        ("opcode-first", inst(18, &[])),
        ("no-operands", insts(&[inst(54, &[1, 2]), inst(56, &[])])),
        ("only-record", inst(19, &[1])),
        ("only-record-and-log", inst(17, &[1])),
        ("empty-string", inst(5, &[1, 0])),
        ("type", inst(21, &[1, 32, 0])),
        ("open-end", inst(54, &[1, 2])),
    ] {
        for (records, rest) in [
            (0, [0, 0, 0]),
            (RECORD - 1, [4, 0, 2]),
            (RECORD, [0, 0, 0]),
            (RECORD, [5, 0, 0]),
            (RECORD, [14, 0, 2]),
            (2 * RECORD, [64, 0, 3]),
            (3 * RECORD - 1, [64, 0, 5]),
        ] {
            let rooms = [records, rest[0], rest[1], rest[2]];
            p.load_in(&format!("rooms/{case}-{}", list(&rooms)), &module(&words), Some(small), rooms);
        }
    }
    // in functions: at the first, a middle and the last instruction
    let body = module(&insts(&[
        inst(14, &[0, 1]),
        inst(54, &[1, 2]),
        inst(55, &[1, 3]),
        inst(248, &[4]),
        inst(300, &[&[5][..], &text("ä€".as_bytes())].concat()),
        inst(251, &[6, 7, 8, 9]),
        inst(56, &[]),
    ]));
    for records in 0..8 {
        p.load_in(&format!("rooms/function-records-{records}"), &body, Some(small), [RECORD * records, 99, 99, 99]);
    }
    for log in [0, 9, 10, 23, 24, 25, 43, 44, 45] {
        p.load_in(&format!("rooms/function-log-{log}"), &body, Some(small), [99, log, 99, 99]);
    }
    for strings in [0, 4, 5] {
        p.load_in(&format!("rooms/function-strings-{strings}"), &body, Some(small), [99, 99, strings, 0]);
    }
}

/// Rows of shapes that the built-in grammar does not have.
fn b_quirks(p: &mut Cases) {
    let frame: [(u16, Operands); 4] = [(54, &[]), (56, &[]), (248, &[]), (253, &[])];
    let values: Enumerants = &[
        (7, 0, &[]),
        (7, 1, &[]),
        (7, 2, &[34]),
        (7, 8, &[33, 40]),
        (7, 0x8000_0000, &[9]),
        (9, 0, &[34, 34]),
        (9, 3, &[]),
        (25, 5, &[40, 26, 45, 31]),
        (26, 4, &[]),
        (45, 1, &[]),
    ];
    let values: Vec<(u8, u32, &[u8])> = values.iter().filter(|v| v.0 != 9 || v.1 != 0).copied().collect();
    let shapes: &[(&str, u16, Operands)] = &[
        ("one-after-optional", 100, &[(33, 0), (34, 1), (33, 0)]),
        ("one-after-repeated", 100, &[(33, 2), (34, 0)]),
        ("optional-after-repeated", 100, &[(33, 2), (40, 1)]),
        ("two-optional", 100, &[(34, 1), (33, 1)]),
        ("repeated-literal-id", 100, &[(50, 2)]),
        ("repeated-ids", 100, &[(33, 0), (51, 2)]),
        ("optional-pair", 100, &[(50, 1), (33, 1)]),
        ("mask", 100, &[(7, 0)]),
        ("repeated-mask", 100, &[(7, 2)]),
        ("repeated-value", 100, &[(9, 2)]),
        ("mask-none-listed", 100, &[(6, 0)]),
        ("value-none-listed", 100, &[(10, 0)]),
        ("scope-and-semantics", 100, &[(32, 0), (31, 0), (35, 0)]),
        ("result-type-only", 100, &[(46, 0), (33, 0)]),
        ("result-only", 100, &[(47, 0), (33, 1)]),
        ("results", 100, &[(46, 0), (47, 0)]),
        ("nothing", 100, &[]),
        ("long-row", 100, &[(33, 0), (33, 0), (33, 0), (33, 0), (33, 1), (33, 1)]),
    ];
    for (name, opcode, operands) in shapes {
        let mut rows: Vec<(u16, Operands)> = frame.to_vec();
        rows.push((*opcode, operands));
        rows.sort();
        let grammar = grammar_bytes(&rows, &values);
        for count in 0..=7usize {
            for fill in [[1, 2, 3, 0, 1, 0, 3], [2, 7, 9, 1, 4, 5, 6], [8, 1, 0x6261, 3, 3, 3, 3]] {
                if *name == "nothing" && (count > 2 || fill[0] != 1) {
                    continue;
                }
                let words = insts(&[inst(54, &[]), inst(248, &[]), inst(*opcode, &fill[..count]), inst(253, &[]), inst(56, &[])]);
                let m = module(&words);
                p.load_in(&format!("quirk/{name}-{count}-{}", fill[0]), &m, Some(&grammar), enough(&m));
            }
        }
    }
    let frame: Rows = &[(54, &[]), (56, &[]), (248, &[]), (253, &[])];
    let in_grammar = |p: &mut Cases, name: &str, rows: Rows, values: Enumerants, words: &[u32]| {
        let mut all = frame.to_vec();
        all.extend(rows);
        all.sort();
        let m = module(words);
        p.load_in(&format!("quirk/{name}"), &m, Some(&grammar_bytes(&all, values)), enough(&m));
    };
    let block = |words: Vec<u32>| insts(&[inst(54, &[]), inst(248, &[]), words, inst(253, &[]), inst(56, &[])]);
    // parameters: lowest bit first; a string among them; enumerants that are parameters
    let masks: Rows = &[(71, &[(7, 0)]), (72, &[(25, 0)])];
    for (name, words) in [
        ("bits-2-8-31", inst(71, &[0x8000_000A, 11, 12, 0x6261, 3])),
        ("bits-2-8-31-short", inst(71, &[0x8000_000A, 11, 12, 0x6261])),
        ("bits-2-8-31-unknown", inst(71, &[0x8000_000A, 11, 12, 0x6261, 4])),
        ("bits-2-8-short", inst(71, &[0x0000_000A, 11, 12])),
        ("bits-2-short", inst(71, &[0x0000_000A])),
        ("bit-4", inst(71, &[4])),
        ("zero", inst(71, &[0])),
        ("parameters", inst(72, &[5, 0x61, 4, 1, 77])),
        ("parameters-no-enumerant", inst(72, &[5, 0x61])),
        ("parameters-unknown", inst(72, &[5, 0x61, 3, 1, 77])),
        ("parameters-mask-zero", inst(72, &[5, 0x61, 4, 0, 77])),
        ("parameters-mask-unknown", inst(72, &[5, 0x61, 4, 3, 77])),
        ("parameters-no-id", inst(72, &[5, 0x61, 4, 1])),
        ("parameters-no-string", inst(72, &[5])),
    ] {
        in_grammar(p, name, masks, &values, &words);
    }
    in_grammar(p, "value-0-with-parameters", &[(71, &[(9, 0)])], &[(9, 0, &[34, 34])], &inst(71, &[0, 5, 6]));
    // 48: not just behind the result type, twice, without a result id
    let int: (u16, Operands) = (21, &[(47, 0), (34, 0), (34, 0)]);
    let shapes: [(&str, Operands); 3] = [
        ("literal-behind-id", &[(46, 0), (33, 0), (48, 0)]),
        ("literal-twice", &[(46, 0), (48, 0), (48, 0)]),
        ("literal-behind-optional", &[(46, 0), (34, 1), (48, 0), (33, 1)]),
    ];
    for (name, row) in shapes {
        for rest in [vec![2], vec![2, 5], vec![2, 5, 6], vec![2, 5, 6, 7], vec![2, 5, 6, 7, 8], vec![9, 5, 6]] {
            let words = insts(&[inst(21, &[2, 64, 1]), inst(43, &rest)]);
            in_grammar(p, &format!("{name}-{}", list(&rest)), &[int, (43, row)], &[], &words);
            in_grammar(p, &format!("{name}-50-{}", list(&rest)), &[int, (50, row)], &[], &insts(&[inst(21, &[2, 64, 1]), inst(50, &rest)]));
        }
    }
    // 49: behind results and more
    let switch: (u16, Operands) = (251, &[(46, 0), (47, 0), (33, 0), (34, 1), (49, 2)]);
    for rest in [vec![2, 3, 4], vec![2, 3, 4, 5], vec![2, 3, 4, 5, 6, 7, 8], vec![2, 3, 4, 5, 6, 7, 8, 9, 10, 11], vec![2, 3, 4, 5, 6, 7]] {
        for id in [4, 2] {
            let words = insts(&[inst(21, &[id, 64, 1]), inst(54, &[]), inst(248, &[]), inst(251, &rest), inst(56, &[])]);
            in_grammar(p, &format!("pairs-{id}-{}", rest.len()), &[int, switch], &[], &words);
        }
    }
    // 39: at the head, twice; rows 43 and 50 without 48, 251 without 49, 52 itself without 39
    let rows: Rows = &[
        (43, &[(46, 0), (47, 0), (34, 0)]),
        (50, &[(33, 2)]),
        (52, &[(39, 0), (34, 1), (39, 0)]),
        (251, &[(33, 0)]),
        (300, &[(40, 1), (7, 2)]),
    ];
    for (name, rest) in [
        ("constant", vec![43, 1, 2, 50, 3]),
        ("spec-constant", vec![50, 1, 2, 43, 3]),
        ("switch", vec![251, 1, 2, 251, 3]),
        ("itself", vec![52, 1]),
        ("itself-second", vec![50, 1, 2, 52]),
        ("unknown-second", vec![50, 1, 2, 51]),
        ("spent-before-second", vec![50, 1, 2]),
        ("spent-before-optional", vec![50, 1]),
        ("optional-string-and-repeated-mask", vec![300, 0x61, 2, 9, 7, 50, 4]),
        ("optional-string-missing", vec![300]),
        ("repeated-mask-missing", vec![300, 0x61]),
    ] {
        in_grammar(p, &format!("embedded-{name}"), rows, &values, &inst(52, &rest));
    }
    in_grammar(p, "row-52-without-39", &[(52, &[(33, 0)])], &[], &inst(52, &[52]));
    // results of type rows are not tracked, those of all others are
    for opcode in [19, 20, 23, 38, 39, 40, 41, 46, 47, 71, 4472, 5341, 5342] {
        let row: (u16, Operands) = (opcode, &[(46, 0), (47, 0)]);
        let rows = if opcode < 21 { [row, int] } else { [int, row] };
        let both = insts(&[inst(21, &[1, 64, 0]), inst(opcode, &[1, 2]), inst(opcode, &[3, 4]), inst(opcode, &[1, 1])]);
        in_grammar(p, &format!("results-of-{opcode}"), &rows, &[], &both);
    }
    in_grammar(
        p,
        "other-row-with-results",
        &[int, (300, &[(46, 0), (47, 0)])],
        &[],
        &insts(&[inst(21, &[1, 64, 0]), block(inst(300, &[1, 2]))]),
    );
    in_grammar(
        p,
        "result-id-without-type",
        &[int, (41, &[(47, 0)])],
        &[],
        &insts(&[inst(21, &[1, 64, 0]), inst(41, &[2]), inst(41, &[1])]),
    );
    let m = module(&inst(17, &[1]));
    p.load_in("quirk/no-rows", &m, Some(&[]), enough(&m));
    p.load_in("quirk/no-rows-header", &module(&[]), Some(&[]), [0; 4]);
    p.load_in("quirk/opcode-65535", &module(&inst(0xFFFF, &[])), Some(&grammar_bytes(&[(0xFFFF, &[])], &[])), [RECORD, 9, 4, 3]);
}

/// 24 comes before all else.
fn b_broken(p: &mut Cases, small: &[u8]) {
    let mut broken = small.to_vec();
    broken.push(1);
    for (name, m) in [("accepted", module(&[])), ("header", vec![]), ("swapped", vec![7, 0x23, 2, 3]), ("opcode", module(&[0x0001_FFFF]))] {
        p.load_in(&format!("broken/{name}"), &m, Some(&broken), [64; 4]);
        p.load_in(&format!("broken/{name}-well-formed"), &m, Some(small), [64; 4]);
    }
}

// ---------------------------------------------------------------------------------- Grammar bytes

fn grammar_bytes_alone(p: &mut Cases) {
    let case = |p: &mut Cases, name: &str, b: &[u8]| p.grammar(name, b);
    let rows = |p: &mut Cases, name: &str, r: Rows| p.grammar(name, &grammar_bytes(r, &[]));
    let values = |p: &mut Cases, name: &str, v: Enumerants| p.grammar(name, &grammar_bytes(&[], v));

    // items
    case(p, "items/none", &[]);
    for kind in [0u8, 1, 2, 3, 4, 5, 127, 255] {
        case(p, &format!("items/kind-{kind}"), &[kind]);
        case(p, &format!("items/kind-{kind}-body"), &[kind, 9, 0, 0, 0, 0]);
    }
    case(p, "items/row", &[1, 0, 0]);
    case(p, "items/row-cut-1", &[1, 0]);
    case(p, "items/second-row-cut", &[1, 0, 0, 1, 1]);
    case(p, "items/operand", &[1, 0, 0, 2, 33, 0]);
    case(p, "items/operand-cut-1", &[1, 0, 0, 2, 33]);
    case(p, "items/operand-cut-2", &[1, 0, 0, 2]);
    case(p, "items/enumerant", &[3, 9, 0, 0, 0, 0]);
    for cut in 1..6 {
        case(p, &format!("items/enumerant-cut-{cut}"), &[3, 9, 0, 0, 0, 0][..cut]);
    }
    case(p, "items/parameter", &[3, 9, 0, 0, 0, 0, 4, 33]);
    case(p, "items/parameter-cut", &[3, 9, 0, 0, 0, 0, 4]);
    case(p, "items/zero-behind", &[1, 0, 0, 0]);
    case(p, "items/five-behind", &[3, 9, 0, 0, 0, 0, 5]);

    // order of items
    case(p, "order/operand-without-row", &[2, 33, 0]);
    case(p, "order/operand-before-row", &[2, 33, 0, 1, 0, 0]);
    case(p, "order/parameter-without-enumerant", &[4, 33]);
    case(p, "order/parameter-behind-row", &[1, 0, 0, 4, 33]);
    case(p, "order/parameter-behind-operand", &[1, 0, 0, 2, 33, 0, 4, 33]);
    case(p, "order/operand-behind-enumerant", &[1, 0, 0, 3, 9, 0, 0, 0, 0, 2, 33, 0]);
    case(p, "order/operand-behind-parameter", &[1, 0, 0, 3, 9, 0, 0, 0, 0, 4, 33, 2, 33, 0]);
    case(p, "order/row-then-enumerant", &[1, 0, 0, 3, 9, 0, 0, 0, 0]);
    case(p, "order/enumerant-then-row", &[3, 9, 0, 0, 0, 0, 1, 0, 0]);
    case(p, "order/row-enumerant-row", &[1, 0, 0, 3, 9, 0, 0, 0, 0, 1, 1, 0]);
    case(p, "order/row-behind-parameter", &[3, 9, 0, 0, 0, 0, 4, 33, 1, 1, 0]);

    // rising
    rows(p, "rising/opcodes-rise", &[(0, &[]), (1, &[]), (65535, &[])]);
    rows(p, "rising/opcodes-equal", &[(5, &[]), (5, &[])]);
    rows(p, "rising/opcodes-equal-operands-differ", &[(5, &[(33, 0)]), (5, &[(34, 0)])]);
    rows(p, "rising/opcodes-fall", &[(5, &[]), (4, &[])]);
    rows(p, "rising/opcodes-ff-100", &[(0xFF, &[]), (0x100, &[])]);
    rows(p, "rising/opcodes-100-ff", &[(0x100, &[]), (0xFF, &[])]);
    rows(p, "rising/opcodes-7fff-8000", &[(0x7FFF, &[]), (0x8000, &[])]);
    rows(p, "rising/opcodes-third-falls", &[(1, &[]), (9, &[(33, 0)]), (8, &[])]);
    rows(p, "rising/opcodes-third-equals-first", &[(1, &[]), (9, &[]), (1, &[])]);
    values(p, "rising/values-rise", &[(9, 0, &[]), (9, 1, &[]), (10, 0, &[])]);
    values(p, "rising/values-equal", &[(9, 3, &[]), (9, 3, &[])]);
    values(p, "rising/values-equal-parameters-differ", &[(9, 3, &[]), (9, 3, &[33])]);
    values(p, "rising/values-fall", &[(9, 3, &[]), (9, 2, &[])]);
    values(p, "rising/kinds-rise-values-fall", &[(9, 3, &[]), (10, 2, &[])]);
    values(p, "rising/kinds-fall", &[(10, 2, &[]), (9, 3, &[])]);
    values(p, "rising/same-value-next-kind", &[(9, 3, &[]), (10, 3, &[])]);
    values(p, "rising/values-ff-100", &[(9, 0xFF, &[]), (9, 0x100, &[])]);
    values(p, "rising/values-100-ff", &[(9, 0x100, &[]), (9, 0xFF, &[])]);
    values(p, "rising/values-ffff-10000", &[(9, 0xFFFF, &[]), (9, 0x1_0000, &[])]);
    values(p, "rising/values-1000000-ffffff", &[(9, 0x100_0000, &[]), (9, 0xFF_FFFF, &[])]);
    values(p, "rising/values-7fffffff-80000000", &[(9, 0x7FFF_FFFF, &[]), (9, 0x8000_0000, &[])]);
    values(p, "rising/values-largest", &[(9, 0xFFFF_FFFE, &[]), (9, 0xFFFF_FFFF, &[])]);
    values(p, "rising/third-falls", &[(9, 1, &[]), (9, 4, &[33]), (9, 3, &[])]);

    // every operand kind and quantifier
    for kind in (0..=55).chain([64, 127, 128, 255]) {
        for quantifier in [0, 1, 2] {
            rows(p, &format!("kinds/{kind}-{quantifier}"), &[(7, &[(kind, quantifier)])]);
        }
    }
    for quantifier in [3, 4, 128, 255] {
        rows(p, &format!("kinds/quantifier-{quantifier}"), &[(7, &[(33, quantifier)])]);
        rows(p, &format!("kinds/second-quantifier-{quantifier}"), &[(7, &[(33, 0), (34, quantifier)])]);
    }
    rows(p, "kinds/36-second", &[(7, &[(33, 0), (36, 0)])]);
    rows(p, "kinds/52-second", &[(7, &[(33, 0), (52, 0)])]);

    // rules of single kinds
    let shapes: &[(&str, u16, Operands)] = &[
        ("46-first", 7, &[(46, 0), (33, 0)]),
        ("46-second", 7, &[(33, 0), (46, 0)]),
        ("46-twice", 7, &[(46, 0), (46, 0)]),
        ("46-optional", 7, &[(46, 1)]),
        ("46-repeated", 7, &[(46, 2)]),
        ("46-behind-47", 7, &[(47, 0), (46, 0)]),
        ("47-first", 7, &[(47, 0), (33, 0)]),
        ("47-behind-46", 7, &[(46, 0), (47, 0)]),
        ("47-behind-33", 7, &[(33, 0), (47, 0)]),
        ("47-behind-46-33", 7, &[(46, 0), (33, 0), (47, 0)]),
        ("47-twice", 7, &[(47, 0), (47, 0)]),
        ("47-twice-behind-46", 7, &[(46, 0), (47, 0), (47, 0)]),
        ("47-optional", 7, &[(47, 1)]),
        ("47-repeated", 7, &[(47, 2)]),
        ("47-optional-behind-46", 7, &[(46, 0), (47, 1)]),
        ("48-row-43", 43, &[(46, 0), (47, 0), (48, 0)]),
        ("48-row-50", 50, &[(46, 0), (47, 0), (48, 0)]),
        ("48-row-42", 42, &[(46, 0), (47, 0), (48, 0)]),
        ("48-row-44", 44, &[(46, 0), (47, 0), (48, 0)]),
        ("48-row-49", 49, &[(46, 0), (47, 0), (48, 0)]),
        ("48-row-51", 51, &[(46, 0), (47, 0), (48, 0)]),
        ("48-row-299", 299, &[(46, 0), (47, 0), (48, 0)]),
        ("48-without-47", 43, &[(46, 0), (48, 0)]),
        ("48-without-46", 43, &[(47, 0), (48, 0)]),
        ("48-alone", 43, &[(48, 0)]),
        ("48-behind-33", 43, &[(33, 0), (48, 0)]),
        ("48-behind-46-33", 43, &[(46, 0), (33, 0), (48, 0)]),
        ("48-optional", 43, &[(46, 0), (47, 0), (48, 1)]),
        ("48-repeated", 43, &[(46, 0), (47, 0), (48, 2)]),
        ("48-twice", 43, &[(46, 0), (48, 0), (48, 0)]),
        ("48-twice-second-optional", 43, &[(46, 0), (48, 0), (48, 1)]),
        ("43-without-48", 43, &[(33, 0)]),
        ("49-row-251", 251, &[(33, 0), (49, 2)]),
        ("49-row-250", 250, &[(33, 0), (49, 2)]),
        ("49-row-252", 252, &[(33, 0), (49, 2)]),
        ("49-row-507", 507, &[(33, 0), (49, 2)]),
        ("49-one", 251, &[(33, 0), (49, 0)]),
        ("49-optional", 251, &[(33, 0), (49, 1)]),
        ("49-alone", 251, &[(49, 2)]),
        ("49-before-33", 251, &[(49, 2), (33, 0)]),
        ("49-33-optional", 251, &[(33, 1), (49, 2)]),
        ("49-33-repeated", 251, &[(33, 2), (49, 2)]),
        ("49-34-first", 251, &[(34, 0), (49, 2)]),
        ("49-34-33", 251, &[(34, 0), (33, 0), (49, 2)]),
        ("49-33-34", 251, &[(33, 0), (34, 0), (49, 2)]),
        ("49-33-optional-34", 251, &[(33, 0), (34, 1), (49, 2)]),
        ("49-behind-46-47-33", 251, &[(46, 0), (47, 0), (33, 0), (49, 2)]),
        ("49-behind-47-33", 251, &[(47, 0), (33, 0), (49, 2)]),
        ("49-behind-46", 251, &[(46, 0), (49, 2)]),
        ("49-behind-46-47-34-33", 251, &[(46, 0), (47, 0), (34, 0), (33, 0), (49, 2)]),
        ("49-32-first", 251, &[(32, 0), (49, 2)]),
        ("49-twice", 251, &[(33, 0), (49, 2), (49, 2)]),
        ("251-without-49", 251, &[(34, 0)]),
        ("39-row-52", 52, &[(46, 0), (47, 0), (39, 0)]),
        ("39-row-51", 51, &[(46, 0), (47, 0), (39, 0)]),
        ("39-row-53", 53, &[(46, 0), (47, 0), (39, 0)]),
        ("39-row-308", 308, &[(39, 0)]),
        ("39-alone", 52, &[(39, 0)]),
        ("39-optional", 52, &[(39, 1)]),
        ("39-repeated", 52, &[(39, 2)]),
        ("39-twice", 52, &[(39, 0), (39, 0)]),
        ("52-without-39", 52, &[(33, 0)]),
        ("21", 21, &[(47, 0), (34, 0), (34, 0)]),
        ("21-empty", 21, &[]),
        ("21-short", 21, &[(47, 0), (34, 0)]),
        ("21-long", 21, &[(47, 0), (34, 0), (34, 0), (34, 0)]),
        ("21-long-optional", 21, &[(47, 0), (34, 0), (34, 0), (33, 1)]),
        ("21-optional", 21, &[(47, 0), (34, 0), (34, 1)]),
        ("21-first-optional", 21, &[(47, 0), (34, 1), (34, 0)]),
        ("21-33", 21, &[(47, 0), (34, 0), (33, 0)]),
        ("21-35", 21, &[(47, 0), (35, 0), (34, 0)]),
        ("21-46", 21, &[(46, 0), (47, 0), (34, 0), (34, 0)]),
        ("21-without-47", 21, &[(34, 0), (34, 0)]),
        ("22", 22, &[(47, 0), (34, 0)]),
        ("22-empty", 22, &[]),
        ("22-short", 22, &[(47, 0)]),
        ("22-long", 22, &[(47, 0), (34, 0), (34, 0)]),
        ("22-optional", 22, &[(47, 0), (34, 1)]),
        ("22-33", 22, &[(47, 0), (33, 0)]),
        ("22-46", 22, &[(46, 0), (47, 0), (34, 0)]),
        ("20-like-21-short", 20, &[(47, 0), (34, 0)]),
        ("23-free", 23, &[(33, 0)]),
        ("277-free", 277, &[(33, 0)]),
    ];
    for (name, opcode, operands) in shapes {
        rows(p, &format!("rule/{name}"), &[(*opcode, operands)]);
        // the same as a middle row
        let (before, after): (u16, u16) = (opcode - 1, opcode + 1);
        let beside: Operands = &[(33, 2)];
        if !matches!(before, 21 | 22) && !matches!(after, 21 | 22) {
            rows(p, &format!("rule/{name}-between"), &[(before, beside), (*opcode, operands), (after, beside)]);
        }
    }
    rows(p, "rule/21-22", &[(21, &[(47, 0), (34, 0), (34, 0)]), (22, &[(47, 0), (34, 0)])]);
    rows(p, "rule/21-22-exchanged", &[(21, &[(47, 0), (34, 0)]), (22, &[(47, 0), (34, 0), (34, 0)])]);

    // enumerants
    for kind in (0..=53).chain([255]) {
        for value in [0, 1, 2, 3, 0x8000_0000, 0x8000_0001, u32::MAX] {
            if value > 3 && kind > 12 && !matches!(kind, 30 | 41..=45) {
                continue;
            }
            values(p, &format!("enumerant/{kind}-{value}"), &[(kind, value, &[])]);
        }
        values(p, &format!("enumerant/{kind}-0-parameter"), &[(kind, 0, &[33])]);
        values(p, &format!("enumerant/{kind}-1-parameter"), &[(kind, 1, &[33])]);
    }
    for bit in 0..32 {
        values(p, &format!("enumerant/bit-{bit}"), &[(4, 1 << bit, &[34])]);
    }
    values(p, "enumerant/second-has-two-bits", &[(4, 1, &[]), (4, 3, &[])]);

    // parameters
    for kind in (0..=53).chain([255]) {
        values(p, &format!("parameter/{kind}"), &[(13, 5, &[kind])]);
        values(p, &format!("parameter/second-{kind}"), &[(13, 5, &[33, kind])]);
    }
    values(p, "parameter/kind-listed-without", &[(13, 5, &[26]), (26, 1, &[])]);
    values(p, "parameter/kind-listed-with", &[(13, 5, &[26]), (26, 1, &[33])]);
    values(p, "parameter/kind-listed-with-later-value", &[(13, 5, &[26]), (26, 1, &[]), (26, 2, &[33])]);
    values(p, "parameter/kind-before-without", &[(13, 5, &[]), (26, 1, &[13])]);
    values(p, "parameter/kind-before-with", &[(13, 5, &[33]), (26, 1, &[13])]);
    values(p, "parameter/own-kind", &[(13, 5, &[13])]);
    values(p, "parameter/own-kind-other-value", &[(13, 5, &[]), (13, 6, &[13])]);
    values(p, "parameter/two-of-one-kind", &[(13, 5, &[26, 26]), (26, 1, &[])]);
    values(p, "parameter/circle", &[(13, 5, &[26]), (26, 1, &[13])]);
    values(p, "parameter/mask-with", &[(4, 2, &[34]), (13, 5, &[4])]);
    values(p, "parameter/mask-without", &[(4, 0, &[]), (4, 2, &[]), (13, 5, &[4])]);

    // length: one row of operands to 65,535 bytes; 65,536 with an enumerant and two parameters
    let longest = |operands: usize, tail: &[u8]| [&[1, 7, 0][..], &[2, 33, 0].repeat(operands), tail].concat();
    case(p, "big/65535", &longest(21_844, &[]));
    case(p, "big/65536", &longest(21_841, &[3, 9, 0, 0, 0, 0, 4, 33, 4, 33]));
    case(p, "big/65534", &longest(21_841, &[3, 9, 0, 0, 0, 0, 4, 33]));
    case(p, "big/65538", &longest(21_845, &[]));
}

// ---------------------------------------------------------------------------------------- Records

/// A record by hand, without function and block number, which no call reads.
fn record(fields: [u32; 8]) -> [u32; RECORD] {
    let mut all = [0; RECORD];
    all[..8].copy_from_slice(&fields);
    all
}

/// The calls over stores, and both turns; outputs that are ample.
fn e_three(p: &mut Cases, name: &str, header: [u32; 5], s: &Stores) {
    let ample = 20 + 4 * s.instructions.chunks(RECORD).map(|r| *r.get(7).unwrap_or(&0) as usize).filter(|w| *w < 70_000).sum::<usize>();
    p.records(name, header, s, ample);
    if header == H {
        p.books(name, s);
    }
}

/// Stores of a module whose records are kept even where its end is open.
fn stores_of(p: &Cases, words: &[u32]) -> Stores {
    let m = module(words);
    Stores::of(&load_with(&m, p.builtin, enough(&m)))
}

/// Modules in order and out of it.
fn e_bases(p: &Cases) -> Vec<(&'static str, Stores)> {
    let name = |id, s: &[u8]| inst(5, &[&[id][..], &text(s)].concat());
    let function = |id: u32, body: Vec<u32>| insts(&[inst(54, &[1, id, 0, 3]), body, inst(56, &[])]);
    let model = inst(14, &[0, 1]);
    let long = insts(&[inst(21, &[2, 64, 0]), inst(43, &[2, 3, 7, 1])]);
    let parameter = inst(55, &[1, 7]);
    let block = |id: u32| insts(&[inst(248, &[id]), inst(253, &[])]);
    let all: Vec<(&str, Vec<u32>)> = vec![
        ("empty", vec![]),
        ("model", model.clone()),
        ("small", insts(&[model.clone(), name(2, b"ab"), inst(21, &[2, 64, 0]), inst(43, &[2, 3, 7, 1]), name(3, b"cdef")])),
        ("function", insts(&[inst(17, &[1]), function(4, insts(&[parameter.clone(), inst(248, &[5]), inst(317, &[]), inst(253, &[])]))])),
        ("two-functions", insts(&[function(4, block(5)), function(6, insts(&[block(7), block(8)]))])),
        ("no-body", function(4, vec![])),
        ("empty-string", insts(&[name(1, b""), inst(317, &[]), name(2, b"")])),
        (
            "standing",
            insts(&[
                inst(17, &[1]),
                inst(17, &[2]),
                model.clone(),
                name(1, b"x"),
                long.clone(),
                inst(317, &[]),
                function(4, insts(&[parameter.clone(), parameter.clone(), block(5)])),
            ]),
        ),
        ("declarations-only", insts(&[model.clone(), function(4, vec![]), function(5, parameter.clone())])),
        ("declaration-first", insts(&[model.clone(), function(4, parameter.clone()), function(5, block(6)), function(7, block(8))])),
        ("declaration-last", insts(&[model.clone(), function(4, block(5)), function(6, vec![])])),
        ("declaration-with-parameter-last", insts(&[model.clone(), function(4, block(5)), function(6, parameter.clone())])),
        ("declaration-between", insts(&[model.clone(), function(4, block(5)), function(6, vec![]), function(7, block(8))])),
        ("tags-fall", insts(&[long.clone(), inst(17, &[1]), model.clone(), inst(17, &[2])])),
        ("two-models", insts(&[inst(14, &[0, 1]), inst(14, &[1, 2])])),
        (
            "three-models-apart",
            insts(&[inst(14, &[0, 1]), inst(17, &[1]), inst(14, &[1, 2]), function(4, insts(&[inst(14, &[2, 0]), block(5)]))]),
        ),
        (
            "tags-inside",
            function(4, insts(&[inst(317, &[]), inst(248, &[5]), inst(17, &[1]), name(9, b"abc"), inst(253, &[]), long.clone()])),
        ),
        ("tag-behind-function", insts(&[function(4, block(5)), inst(317, &[])])),
        ("parameter-behind-label", function(4, insts(&[inst(248, &[5]), parameter.clone(), inst(253, &[])]))),
        ("parameter-behind-block", function(4, insts(&[block(5), parameter.clone()]))),
        ("parameter-in-second", insts(&[function(4, block(5)), function(6, insts(&[parameter.clone(), block(8)]))])),
        (
            "parameters-mixed",
            function(
                4,
                insts(&[
                    parameter.clone(),
                    inst(248, &[5]),
                    inst(1, &[2, 8]),
                    inst(55, &[1, 9]),
                    inst(253, &[]),
                    inst(55, &[1, 10]),
                    block(6),
                ]),
            ),
        ),
        ("open-function", insts(&[inst(17, &[1]), inst(54, &[1, 4, 0, 3])])),
        ("open-block", insts(&[model.clone(), opening(State::Block)])),
        ("open-second", insts(&[function(4, block(5)), opening(State::Function), parameter])),
        (
            "every-section",
            insts(&[
                inst(71, &[1, 2]),
                inst(330, &text(b"p")),
                name(1, b"n"),
                inst(7, &[&[1][..], &text(b"s")].concat()),
                inst(16, &[1, 7]),
                inst(15, &[&[0, 1][..], &text(b"main"), &[]].concat()),
                model,
                inst(11, &[&[9][..], &text(b"G")].concat()),
                inst(10, &text(b"E")),
                inst(17, &[1]),
                long,
            ]),
        ),
        ("embedded", inst(52, &[1, 2, 128, 5, 6])),
        ("floats", insts(&[inst(22, &[2, 64]), inst(43, &[2, 3, 7, 1]), inst(22, &[4, 32]), inst(43, &[4, 5, 0x7F80_0001])])),
    ];
    all.into_iter().map(|(name, words)| (name, stores_of(p, &words))).collect()
}

fn records(p: &mut Cases) {
    let bases = e_bases(p);
    let odd = [1, 0xFF01_05EE, 0x0102_0304, 0xFFFF_FFFE, 9];
    for (name, s) in &bases {
        e_three(p, &format!("good/{name}"), H, s);
        e_three(p, &format!("good/{name}-odd-header"), odd, s);
        for (order, needed) in [("parse", write_parse_order(H, s, usize::MAX)), ("module", write_module_order(H, s, usize::MAX))] {
            let needed = if needed.number == 0 { needed.bytes.len() } else { 20 };
            for output in [0, 19, 20, needed - 1, needed, needed + 1, needed + 7] {
                p.records(&format!("output/{name}-{order}"), H, s, output);
            }
        }
    }
    let small = bases.iter().find(|b| b.0 == "small").unwrap().1.clone();
    let function = bases.iter().find(|b| b.0 == "function").unwrap().1.clone();
    e_fields(p, "small", &small);
    e_fields(p, "function", &function);
    e_log(p, &small);
    e_strings(p);
    e_ends(p, "small", &small);
    e_ends(p, "function", &function);
    e_tags(p);
    e_long(p);
}

/// Each field of each record changed.
fn e_fields(p: &mut Cases, base: &str, s: &Stores) {
    for at in 0..s.instructions.len() {
        let old = s.instructions[at];
        let mut tried = vec![old.wrapping_add(1), old.wrapping_sub(1), 0, u32::MAX, old ^ 0x8000_0000, old.wrapping_add(65536)];
        if at % RECORD == 0 {
            tried.extend((0..=4).map(|bits| (old & 0xFFFF) + bits * 65536));
            tried.push(old ^ 0x8000);
        }
        tried.sort();
        tried.dedup();
        for new in tried.into_iter().filter(|new| *new != old) {
            let mut changed = s.clone();
            changed.instructions[at] = new;
            e_three(p, &format!("field/{base}-{}-{}-{new}", at / RECORD + 1, at % RECORD), H, &changed);
        }
    }
    // a presence bit with the field it calls for, the word count as before and right
    for n in 0..s.instructions.len() / RECORD {
        for (bit, field) in [(1, 3), (2, 4)] {
            let mut changed = s.clone();
            let has = s.instructions[RECORD * n] >> 16 & bit != 0;
            changed.instructions[RECORD * n] ^= bit << 16;
            changed.instructions[RECORD * n + field] = if has { 0 } else { 9 };
            e_three(p, &format!("presence/{base}-{}-{bit}", n + 1), H, &changed);
            let by = if has { u32::MAX } else { 1 };
            changed.instructions[RECORD * n + 7] = changed.instructions[RECORD * n + 7].wrapping_add(by);
            e_three(p, &format!("presence/{base}-{}-{bit}-count", n + 1), H, &changed);
            for later in n + 1..s.instructions.len() / RECORD {
                let offset = &mut changed.instructions[RECORD * later + 2];
                *offset = offset.wrapping_add(by.wrapping_mul(4));
            }
            e_three(p, &format!("presence/{base}-{}-{bit}-all", n + 1), H, &changed);
        }
    }
}

/// Each byte of the log changed.
fn e_log(p: &mut Cases, s: &Stores) {
    let mut starts = vec![];
    let mut at = 0;
    while at < s.log.len() {
        starts.push(at);
        at += if matches!(s.log[at], 36 | 38 | 40) { 9 } else { 5 };
    }
    for at in 0..s.log.len() {
        let news: Vec<u8> =
            if starts.contains(&at) { vec![0, 1, 33, 34, 36, 38, 39, 40, 45, 46, 51, 255] } else { vec![s.log[at] ^ 1, 255] };
        for new in news.into_iter().filter(|new| *new != s.log[at]) {
            let mut changed = s.clone();
            changed.log[at] = new;
            e_three(p, &format!("log/{at}-{new}"), H, &changed);
        }
    }
}

/// String operands: starts, lengths, bytes.
fn e_strings(p: &mut Cases) {
    let s = stores_of(p, &insts(&[inst(5, &[1, 0x6261]), inst(5, &[&[2][..], &text(b"cdef")].concat()), inst(5, &[3, 0])]));
    // each text in the middle place, lengths to match
    for (n, t) in GOOD_TEXT.iter().chain(&BAD_TEXT).chain(&[&b"a\0b"[..], &b"\0"[..], &b"abc\0"[..]]).enumerate() {
        let mut changed = s.clone();
        let old_words = 2;
        let new_words = (t.len() / 4 + 1) as u32;
        changed.strings = [b"ab", *t].concat();
        changed.counts[2] = changed.strings.len();
        changed.log[14 + 10..14 + 14].copy_from_slice(&(t.len() as u32).to_le_bytes());
        let end = changed.strings.len() as u32;
        let third = changed.log.len() - 8;
        changed.log[third..third + 4].copy_from_slice(&end.to_le_bytes());
        changed.instructions[RECORD + 7] = changed.instructions[RECORD + 7] + new_words - old_words;
        changed.instructions[2 * RECORD + 2] = changed.instructions[2 * RECORD + 2] + 4 * new_words - 4 * old_words;
        e_three(p, &format!("strings/text-{n}"), H, &changed);
    }
    for at in 0..s.strings.len() {
        for new in [0, 0x80, 0xC3, 0xFF, b'z'] {
            let mut changed = s.clone();
            changed.strings[at] = new;
            e_three(p, &format!("strings/byte-{at}-{new}"), H, &changed);
        }
    }
    for operand in [5, 19, 33] {
        for (what, field) in [("start", operand + 1), ("length", operand + 5)] {
            let old = u32::from_le_bytes(s.log[field..field + 4].try_into().unwrap());
            for new in [old.wrapping_add(1), old.wrapping_sub(1), old + 4, 0, u32::MAX, u32::MAX - 1] {
                if new == old {
                    continue;
                }
                let mut changed = s.clone();
                changed.log[field..field + 4].copy_from_slice(&new.to_le_bytes());
                e_three(p, &format!("strings/{what}-{operand}-{new}"), H, &changed);
            }
        }
    }
}

/// Counts and slices, each too long and too short.
fn e_ends(p: &mut Cases, base: &str, s: &Stores) {
    for n in 0..3 {
        let old = s.counts[n];
        for new in [0, 1, old.wrapping_sub(1), old + 1, old + 2, 1 << 32, usize::MAX - 1, usize::MAX] {
            if new == old {
                continue;
            }
            let mut changed = s.clone();
            changed.counts[n] = new;
            e_three(p, &format!("count/{base}-{n}-{new}"), H, &changed);
            // the same with more behind in every slice
            changed.instructions.extend(1..=RECORD as u32 + 1);
            changed.log.extend([34, 1, 2, 3, 4, 5]);
            changed.strings.extend(b"xy");
            e_three(p, &format!("count/{base}-{n}-{new}-more"), H, &changed);
        }
    }
    for n in 0..3 {
        for cut in [1, 2, 3, 8, 9, RECORD, RECORD + 1] {
            let mut changed = s.clone();
            match n {
                0 => changed.instructions.truncate(s.instructions.len() - cut),
                1 => changed.log.truncate(s.log.len().saturating_sub(cut)),
                _ => changed.strings.truncate(s.strings.len().saturating_sub(cut)),
            }
            e_three(p, &format!("slice/{base}-{n}-cut-{cut}"), H, &changed);
        }
        let mut changed = s.clone();
        match n {
            0 => changed.instructions.extend([7; 3]),
            1 => changed.log.extend([7; 3]),
            _ => changed.strings.extend([0; 3]),
        }
        e_three(p, &format!("slice/{base}-{n}-longer"), H, &changed);
    }
    // records in another order, left out, twice
    for n in 0..s.counts[0] {
        let mut without = s.clone();
        without.instructions.drain(RECORD * n..RECORD * n + RECORD);
        without.counts[0] -= 1;
        e_three(p, &format!("records/{base}-without-{}", n + 1), H, &without);
        let mut twice = s.clone();
        let copy = s.instructions[RECORD * n..RECORD * n + RECORD].to_vec();
        twice.instructions.splice(RECORD * n..RECORD * n, copy);
        twice.counts[0] += 1;
        e_three(p, &format!("records/{base}-twice-{}", n + 1), H, &twice);
        if n > 0 {
            let mut swapped = s.clone();
            for field in 0..RECORD {
                swapped.instructions.swap(RECORD * n - RECORD + field, RECORD * n + field);
            }
            e_three(p, &format!("records/{base}-swapped-{}", n + 1), H, &swapped);
        }
    }
    let mut leading = s.clone();
    leading.instructions[2] = 24;
    e_three(p, &format!("records/{base}-first-at-24"), H, &leading);
    // 30 comes before 29
    let mut left = s.clone();
    left.counts[1] += 1;
    for (what, bad) in [("first", &leading), ("left", &left)] {
        for output in [0, 19, 20, 60] {
            p.records(&format!("records/{base}-short-{what}"), H, bad, output);
        }
    }
}

/// Each tag under an opcode of each kind, in each state: what the table gives and what not.
fn e_tags(p: &mut Cases) {
    for opcode in [17u16, 10, 11, 14, 15, 16, 7, 5, 330, 71, 19, 43, 8, 317, 59, 1, 54, 55, 248, 253, 4449, 56, 0, 61, 9, 65535] {
        for (state, state_name) in STATES {
            let before = stores_of(p, &opening(state));
            let given = layout(layout_kind(opcode), state);
            let mut tags = vec![0, given.map_or(15, |g| g.0)];
            tags.extend([11, 16]);
            tags.sort();
            tags.dedup();
            for tag in tags {
                let mut s = before.clone();
                let offset = 20 + 4 * opening(state).len() as u32;
                s.instructions.extend(record([u32::from(opcode), tag, offset, 0, 0, s.log.len() as u32, 0, 1]));
                s.counts[0] += 1;
                e_three(p, &format!("tag/{opcode}-{state_name}-{tag}"), H, &s);
            }
        }
    }
    let mut high = stores_of(p, &inst(17, &[1]));
    high.instructions[1] = 1 + 65536;
    e_three(p, "tag/high-bits", H, &high);
    high.instructions[1] = 17;
    e_three(p, "tag/seventeen", H, &high);
}

/// The longest word count, and one more; as many records as the module bytes allow are not tried.
fn e_long(p: &mut Cases) {
    for length in [262_131usize, 262_132] {
        let words = 2 + (length / 4 + 1) as u32;
        let s = Stores {
            instructions: record([7 + 2 * 65536, 7, 20, 0, 1, 0, 1, words]).to_vec(),
            log: [&[40u8, 0, 0, 0, 0][..], &(length as u32).to_le_bytes()].concat(),
            strings: vec![b'a'; length],
            counts: [1, 9, length],
        };
        e_three(p, &format!("big/words-{words}"), H, &s);
    }
    let operands = 65_535usize;
    let s = Stores {
        instructions: record([30 + 2 * 65536, 11, 20, 0, 1, 0, operands as u32 - 2, operands as u32]).to_vec(),
        log: [33, 1, 0, 0, 0].repeat(operands - 2),
        strings: vec![],
        counts: [1, 5 * (operands - 2), 0],
    };
    e_three(p, "big/operands", H, &s);
    let mut more = s;
    more.log.extend([33, 1, 0, 0, 0]);
    more.counts[1] += 5;
    more.instructions[6] += 1;
    more.instructions[7] += 1;
    e_three(p, "big/operands-more", H, &more);
    more.instructions[6] = u32::MAX;
    e_three(p, "big/operands-most", H, &more);
}

// ------------------------------------------------------------------------------------------ Books

/// Books with function and block numbers that are called for and others, and what the request says of some.
fn books(p: &mut Cases) {
    for (name, s) in e_bases(p) {
        for n in 0..s.counts[0] {
            for word in [8, 9] {
                let at = RECORD * n + word;
                for new in [s.instructions[at] + 1, s.instructions[at].wrapping_sub(1), u32::MAX, s.instructions[at] ^ 0x8000_0000] {
                    let mut other = s.clone();
                    other.instructions[at] = new;
                    p.books(&format!("books/{name}-{}-{word}-{new}", n + 1), &other);
                }
            }
            // the two numbers the other way round, and those of the record before
            let mut other = s.clone();
            other.instructions.swap(RECORD * n + 8, RECORD * n + 9);
            p.books(&format!("books/{name}-{}-swapped", n + 1), &other);
            if n > 0 {
                let mut other = s.clone();
                other.instructions.copy_within(RECORD * n - 2..RECORD * n, RECORD * n + 8);
                p.books(&format!("books/{name}-{}-before", n + 1), &other);
            }
        }
        b_stray(p, name, &s);
        b_each_short(p, name, &s);
    }
    b_told(p);
}

/// The old store with words behind its records, and cut by each number of words; the new one likewise.
fn b_stray(p: &mut Cases, name: &str, s: &Stores) {
    for (turn, book) in [(Turn::New, old_of(s)), (Turn::Old, s.clone())] {
        let (from, to) = turn.lengths();
        let whole = crate::books::turn(turn, &book, usize::MAX);
        for stray in 1..=from {
            let mut longer = book.clone();
            longer.instructions.extend(1..=stray as u32);
            longer.log.extend([34, 1, 2, 3, 4, 5]);
            longer.strings.extend(b"xy");
            p.turned(&format!("books/{name}-stray-{stray}"), turn, &longer, to * s.counts[0] + stray, whole.clone());
            if s.counts[0] > 0 {
                let mut cut = book.clone();
                cut.instructions.truncate(from * s.counts[0] - stray);
                let refused = Turned { number: 30, index: s.counts[0], ..Turned::default() };
                p.turned(&format!("books/{name}-cut-{stray}"), turn, &cut, to * s.counts[0], refused);
            }
        }
    }
}

/// Outputs of every length up to all records: 25 names the first record that does not fit.
fn b_each_short(p: &mut Cases, name: &str, s: &Stores) {
    for (turn, book) in [(Turn::New, old_of(s)), (Turn::Old, s.clone())] {
        let (_, to) = turn.lengths();
        for output in 0..to * s.counts[0] {
            let refused = Turned { number: 25, index: output / to + 1, ..Turned::default() };
            p.turned(&format!("books/{name}-short-{output}"), turn, &book, output, refused);
        }
    }
}

/// What the papers say of single books, in numbers.
fn b_told(p: &mut Cases) {
    let refused = |number, index| Turned { number, index, ..Turned::default() };
    let bare = stores_of(p, &inst(317, &[]));
    let two = stores_of(p, &insts(&[inst(317, &[]), inst(317, &[])]));
    let whole = |turn: Turn, s: &Stores| {
        let words = if turn == Turn::New { s.instructions.clone() } else { old_of(s).instructions };
        Turned { number: 0, index: 0, records: s.counts[0], words }
    };
    for (turn, of) in [(Turn::New, old_of as fn(&Stores) -> Stores), (Turn::Old, |s: &Stores| s.clone())] {
        let (_, to) = turn.lengths();
        // "H 0001013D loaded, log count 1: 30 at 2"
        let mut left = of(&bare);
        left.counts[1] = 1;
        p.turned("books/log-count", turn, &left, 2 * to, refused(30, 2));
        left.log.push(33);
        p.turned("books/log-left", turn, &left, 2 * to, refused(30, 2));
        left.counts[1] = 0;
        left.counts[2] = 1;
        p.turned("books/string-count", turn, &left, 0, refused(30, 2));
        // "Two records, 19 words: 25 at 2"
        p.turned("books/two-short", turn, &of(&two), 2 * to - 1, refused(25, 2));
        p.turned("books/two-fit", turn, &of(&two), 2 * to, whole(turn, &two));
        p.turned("books/two-none", turn, &of(&two), 0, refused(25, 1));
        // "Count 0 is turned"
        let mut none = of(&two);
        none.counts[0] = 0;
        let empty = Turned::default();
        p.turned("books/count-zero", turn, &none, 0, empty.clone());
        p.turned("books/count-zero-room", turn, &none, 9, empty);
        // "an old book with every tag 0: 30 at 1"
        let mut untagged = two.clone();
        (untagged.instructions[1], untagged.instructions[RECORD + 1]) = (0, 0);
        p.turned("books/tags-zero", turn, &of(&untagged), 2 * to, refused(30, 1));
        // a count past the store, before a short output
        let mut past = of(&two);
        past.counts[0] = 3;
        p.turned("books/count-past", turn, &past, 0, refused(30, 3));
    }
    // "bad record 2, wrong numbers in record 1: 30 at 2"; 33 before 25; both numbers wrong in two records
    let mut wrong = two.clone();
    wrong.instructions[8] = 1;
    let mut bad = wrong.clone();
    bad.instructions[RECORD + 1] = 15;
    p.turned("books/wrong-and-bad", Turn::Old, &bad, 2 * OLD_RECORD, refused(30, 2));
    for output in [0, OLD_RECORD, 2 * OLD_RECORD - 1, 2 * OLD_RECORD] {
        p.turned("books/wrong-and-short", Turn::Old, &wrong, output, refused(33, 1));
    }
    wrong.instructions[8] = 0;
    wrong.instructions[RECORD + 9] = 7;
    p.turned("books/second-wrong-and-short", Turn::Old, &wrong, OLD_RECORD, refused(33, 2));
    // an old book has no numbers to be wrong
    p.turned("books/numbers-given", Turn::New, &old_of(&wrong), 2 * RECORD, whole(Turn::New, &two));
    // records that end inside a block, with the numbers by hand
    let mut open = stores_of(p, &insts(&[opening(State::Block), inst(55, &[1, 9]), inst(317, &[])]));
    for (record, numbers) in open.instructions.chunks_mut(RECORD).zip([[1, 0], [1, 1], [1, 0], [1, 1]]) {
        record[8..].copy_from_slice(&numbers);
    }
    assert_eq!(called_for(&[12, 14, 13, 15]), [[1, 0], [1, 1], [1, 0], [1, 1]]);
    p.turned("books/open", Turn::New, &old_of(&open), 4 * RECORD, whole(Turn::New, &open));
    p.turned("books/open", Turn::Old, &open, 4 * OLD_RECORD, whole(Turn::Old, &open));
}

// ------------------------------------------------------------------------------------------ Plain

fn plain(p: &mut Cases) {
    let case = |p: &mut Cases, name: &str, m: &[u8], grammar: Option<&[u8]>| {
        p.load_in(&format!("plain/{name}"), m, grammar, enough(m));
    };
    for (n, m) in fittings().iter().enumerate() {
        case(p, &format!("fitting/{}", n + 1), m, None);
    }
    for tail in 1..4 {
        case(p, &format!("tail/zeros-{tail}"), &[&module(&inst(17, &[1]))[..], &[0; 3][..tail]].concat(), None);
        case(p, &format!("tail/header-zeros-{tail}"), &[&module(&[])[..], &[0; 3][..tail]].concat(), None);
        case(p, &format!("tail/ones-{tail}"), &[&module(&inst(17, &[1]))[..], &[1; 3][..tail]].concat(), None);
    }
    // a string's last word: each byte behind its zero
    for length in 0..6usize {
        let words = inst(7, &[&[1][..], &text(&b"abcdefgh"[..length])].concat());
        case(p, &format!("padding/{length}"), &module(&words), None);
        let m = module(&words);
        let zero = 28 + length;
        for at in zero + 1..m.len() {
            let mut changed = m.clone();
            changed[at] = 1;
            case(p, &format!("padding/{length}-byte-{}", at - zero), &changed, None);
            changed[at] = 0x80;
            case(p, &format!("padding/{length}-high-{}", at - zero), &changed, None);
        }
    }
    let name = |id: u32, word: u32| inst(5, &[id, word]);
    for (n, words) in [
        insts(&[name(1, 0x61), name(2, 0x0100_0061)]),
        insts(&[name(1, 0x0100_0061), name(2, 0x61)]),
        insts(&[name(1, 0x61), name(2, 0x62)]),
        inst(15, &[&[0, 1][..], &text(b"main"), &[5]].concat()),
        inst(15, &[0, 1, 0x6E69_616D, 0x0000_0100, 5]),
        inst(71, &[&[1, 5834][..], &text(b"a"), &text(b"b")].concat()),
        inst(71, &[1, 5834, 0x61, 0x0001_0062]),
        inst(71, &[1, 5834, 0x0001_0061, 0x62]),
        inst(71, &[1, 41, 0x0001_0061, 1]),
        inst(3, &[1, 2, 3, 0x6261]),
        inst(3, &[1, 2, 3, 0x0100_6261]),
        inst(52, &[1, 2, 128, 5, 6]),
        inst(52, &[1, 2, 0x0001_0080, 5, 6]),
        inst(52, &[1, 2, 0x8000_0080, 5, 6]),
        inst(52, &[1, 2, 0x0001_0000]),
        inst(52, &[1, 2, 5, 7, 0x0100_0061]),
        insts(&[inst(52, &[1, 2, 128, 5, 6]), inst(52, &[1, 3, 0x0001_0080, 5, 6])]),
        // two or three breaks at once: the lowest is said
        insts(&[name(1, 0x0100_0061), name(2, 0x0100_0062)]),
        insts(&[name(1, 0x0101_0061), inst(52, &[1, 2, 0x0001_0080, 5, 6])]),
        insts(&[inst(52, &[1, 2, 0x0001_0080, 5, 6]), name(1, 0x0100_0061)]),
        insts(&[inst(52, &[1, 2, 0x0001_0080, 5, 6]), inst(52, &[1, 3, 0x0001_0080, 5, 6]), name(1, 0x0100_0061)]),
        inst(71, &[1, 5834, 0x0001_0061, 0x0001_0062]),
        inst(52, &[1, 2, 0x0001_0005, 7, 0x0100_0061]),
        insts(&[inst(21, &[2, 64, 0]), inst(43, &[2, 3, 7, 0xFFFF_FFFF])]),
        insts(&[inst(22, &[2, 32]), inst(43, &[2, 3, 0x7F80_0001])]),
        insts(&[inst(21, &[2, 8, 1]), inst(43, &[2, 3, 0xFFFF_FFFF])]),
        insts(&[inst(21, &[2, 64, 0xFFFF_FFFF]), inst(43, &[2, 3, 7, 1])]),
        insts(&[inst(14, &[0, 1]), inst(14, &[0, 1])]),
        insts(&[inst(21, &[2, 32, 0]), inst(17, &[1])]),
        in_block(&inst(61, &[1, 2, 3, 2, 0x0001_0000])),
        opening(State::Block),
        opening(State::Function),
        inst(17, &[9999]),
        insts(&[name(1, 0x61), inst(0, &[])]),
    ]
    .iter()
    .enumerate()
    {
        case(p, &format!("words/{n}"), &module(words), None);
        // and with tail bytes; by the built-in grammar as bytes, so that the replay sample does not choose from these
        case(p, &format!("words-tail/{n}"), &[module(words), vec![1; n % 3 + 1]].concat(), Some(crate::GRAMMAR));
    }
    let odd = [MAGIC, 0xFF01_05EE, 0x0102_0304, 0xFFFF_FFFE, 9];
    case(p, "header/odd", &bytes_of(&[&odd[..], &inst(17, &[1])].concat()), None);
    let rows: Rows = &[(7, &[(40, 2)]), (52, &[(39, 0), (39, 0)])];
    let grammar = grammar_bytes(rows, &[]);
    for (n, words) in [
        inst(7, &[0x61, 0x62, 0x63]),
        inst(7, &[0x61, 0x62, 0x0100_0063]),
        inst(7, &[0x61, 0x0100_0062, 0x63]),
        inst(7, &[0x6463_6261, 0x0000_0100, 0x63]),
        inst(52, &[7, 0x61, 7, 0x62]),
        inst(52, &[7, 0x61, 0x0001_0007, 0x62]),
        inst(52, &[7, 0x61, 7, 0x0001_0062]),
    ]
    .iter()
    .enumerate()
    {
        case(p, &format!("small/{n}"), &module(words), Some(&grammar));
    }
    case(p, "small/broken-grammar", &module(&[]), Some(&[1]));
}
