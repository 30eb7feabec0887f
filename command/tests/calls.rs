//! The command itself, called as people call it.

use std::fs::{self, File};
use std::io::{Read, Write};
use std::path::{Path, PathBuf};
use std::process::{Command, Output, Stdio};

const ROOT: &str = concat!(env!("CARGO_MANIFEST_DIR"), "/..");

/// The command, with these words, in the repository's root.
fn command(words: &[&str]) -> Command {
    let mut command = Command::new(env!("CARGO_BIN_EXE_kollafrin"));
    command.args(words).current_dir(ROOT).stdin(Stdio::null());
    command
}

/// What it says: status, standard output, standard error.
fn run(words: &[&str]) -> (i32, String, String) {
    said(command(words).output().unwrap())
}

fn said(output: Output) -> (i32, String, String) {
    let text = |bytes| String::from_utf8(bytes).unwrap();
    (output.status.code().unwrap(), text(output.stdout), text(output.stderr))
}

fn run_with_input(words: &[&str], input: &[u8]) -> Output {
    let mut child = command(words).stdin(Stdio::piped()).stdout(Stdio::piped()).stderr(Stdio::piped()).spawn().unwrap();
    let mut to = child.stdin.take().unwrap();
    let input = input.to_vec();
    let writer = std::thread::spawn(move || drop(to.write_all(&input)));
    let output = child.wait_with_output().unwrap();
    writer.join().unwrap();
    output
}

/// A folder of its own for a test, empty.
fn folder(name: &str) -> PathBuf {
    let folder = Path::new(env!("CARGO_TARGET_TMPDIR")).join(name);
    let _ = fs::remove_dir_all(&folder);
    fs::create_dir_all(&folder).unwrap();
    folder
}

fn path(folder: &Path, name: &str) -> String {
    folder.join(name).to_str().unwrap().to_string()
}

/// The header 07230203 00010000 0 0 0 and these words, as bytes.
fn module(words: &[u32]) -> Vec<u8> {
    [0x0723_0203, 0x0001_0000, 0, 0, 0].iter().chain(words).flat_map(|w| w.to_le_bytes()).collect()
}

/// Every module under samples, with its listing, the file `NAME.txt` beside it.
fn samples() -> Vec<(String, String)> {
    let mut all = Vec::new();
    for folder in ["samples", "samples/shaders"] {
        for entry in fs::read_dir(format!("{ROOT}/{folder}")).unwrap() {
            let name = entry.unwrap().file_name().into_string().unwrap();
            if let Some(stem) = name.strip_suffix(".spv") {
                all.push((format!("{folder}/{name}"), fs::read_to_string(format!("{ROOT}/{folder}/{stem}.txt")).unwrap()));
            }
        }
    }
    assert!(all.len() > 10);
    all
}

/// What Python's reader makes of each line, written back by Python with names in order; none where there is no Python.
fn read_by_python(lines: &str) -> Option<Vec<String>> {
    let mut child = Command::new("python3")
        .args(["-c", "import json, sys\nfor line in sys.stdin: print(json.dumps(json.loads(line), sort_keys=True))"])
        .stdin(Stdio::piped())
        .stdout(Stdio::piped())
        .spawn()
        .map_err(|_| println!("not tried: no python3"))
        .ok()?;
    child.stdin.take().unwrap().write_all(lines.as_bytes()).unwrap();
    let output = child.wait_with_output().unwrap();
    assert!(output.status.success(), "{lines}");
    Some(String::from_utf8(output.stdout).unwrap().lines().map(String::from).collect())
}

#[test]
fn samples_are_listed() {
    for (sample, listing) in samples() {
        let (status, out, err) = run(&["list", &sample]);
        assert_eq!(out, listing, "{sample}");
        let refused = !listing.lines().last().unwrap().starts_with("accepted");
        assert_eq!(status, i32::from(refused), "{sample}");
        assert_eq!(err.is_empty(), !refused, "{err}");
    }
    let (status, out, err) = run(&["list", "samples/cut-short.spv"]);
    assert_eq!((status, out.lines().last()), (1, Some("refused 9 68 5")));
    assert_eq!(err, "kollafrin: samples/cut-short.spv: 9 at byte 68, instruction 5: the module ends inside an operand\n");
}

#[test]
fn samples_are_shown_as_text() {
    for (sample, listing) in samples() {
        let (status, out, err) = run(&["text", &sample]);
        if listing.lines().last().unwrap().starts_with("accepted") {
            let text = fs::read_to_string(format!("{ROOT}/{}", sample.replace(".spv", ".dis"))).unwrap();
            assert_eq!((status, out, err.as_str()), (0, text, ""), "{sample}");
        } else {
            assert_eq!((status, out.as_str()), (1, ""), "{sample}");
            assert!(err.starts_with(&format!("kollafrin: {sample}: ")), "{err}");
        }
    }
    let (_, out, _) = run(&["text", "samples/fitting-6.spv"]);
    assert_eq!(out, "; SPIR-V\n; Version: 1.0\n; Generator: rspirv\n; Bound: 0\nOpMemoryModel Logical GLSL450\n");
}

#[test]
fn samples_are_restored() {
    let to = folder("restored");
    for (sample, listing) in samples() {
        let out = path(&to, &sample.replace('/', "-"));
        let (status, said, err) = run(&["restore", &sample, "-o", &out]);
        let bytes = fs::read(format!("{ROOT}/{sample}")).unwrap();
        if listing.lines().last().unwrap().starts_with("accepted") {
            assert_eq!((status, said, err.as_str()), (0, format!("{out}: {} bytes, the same as {sample}\n", bytes.len()), ""));
            assert_eq!(fs::read(&out).unwrap(), bytes);
        } else {
            assert_eq!((status, said.as_str()), (1, ""), "{sample}");
            assert!(fs::symlink_metadata(&out).is_err());
        }
    }
    nothing_beside(&to);
}

/// No file is left that a write began with.
fn nothing_beside(folder: &Path) {
    let left: Vec<_> =
        fs::read_dir(folder).unwrap().map(|e| e.unwrap().file_name()).filter(|n| n.to_string_lossy().starts_with('.')).collect();
    assert_eq!(left, Vec::<std::ffi::OsString>::new());
}

#[test]
fn restoring_says_where_bytes_differ() {
    let to = folder("differing");
    let (from, out) = (path(&to, "in.spv"), path(&to, "out.spv"));
    fs::write(&from, module(&[0x0003_0007, 1, 0x0100_6261])).unwrap();
    assert_eq!(run(&["restore", &from, "-o", &out]).1, format!("{out}: 32 bytes, first other at byte 31 than {from}\n"));
    assert_eq!(fs::read(&out).unwrap(), module(&[0x0003_0007, 1, 0x0000_6261]));
    // module order has a header of its own
    let (status, said, _) = run(&["restore", "--module-order", "--force", "samples/colour.spv", "-o", &out]);
    assert_eq!(status, 0);
    assert!(said.contains("first other at byte 10 than samples/colour.spv"), "{said}");
    // to standard output
    let output = command(&["restore", &from, "-o", "-"]).output().unwrap();
    assert_eq!(output.stdout, module(&[0x0003_0007, 1, 0x0000_6261]));
    nothing_beside(&to);
}

#[test]
fn what_is_there_stays() {
    let to = folder("there");
    let out = path(&to, "out.spv");
    fs::write(&out, "mine").unwrap();
    let (status, said, err) = run(&["restore", "samples/colour.spv", "-o", &out]);
    assert_eq!((status, said.as_str(), err), (2, "", format!("kollafrin: {out}: is there already; --force writes over it\n")));
    assert_eq!(fs::read(&out).unwrap(), b"mine");
    // a refused module writes over nothing, by force or not
    assert_eq!(run(&["restore", "--force", "samples/swapped.spv", "-o", &out]).0, 1);
    assert_eq!(fs::read(&out).unwrap(), b"mine");
    assert_eq!(run(&["restore", "--force", "samples/colour.spv", "-o", &out]).0, 0);
    assert_eq!(fs::read(&out).unwrap(), fs::read(format!("{ROOT}/samples/colour.spv")).unwrap());
    // over itself
    assert_eq!(run(&["restore", "--force", &out, "-o", &out]).0, 0);
    // a link to nowhere is something that is there
    #[cfg(unix)]
    {
        let link = path(&to, "link.spv");
        std::os::unix::fs::symlink("nowhere", &link).unwrap();
        assert_eq!(run(&["restore", "samples/colour.spv", "-o", &link]).0, 2);
    }
    nothing_beside(&to);
}

#[test]
fn a_folder_that_cannot_be_written() {
    let to = folder("unwritable");
    for out in [path(&to, "none/out.spv"), "/proc/self/out.spv".to_string(), to.to_str().unwrap().to_string()] {
        let (status, said, err) = run(&["restore", "--force", "samples/colour.spv", "-o", &out]);
        assert_eq!((status, said.as_str()), (2, ""), "{out}");
        assert!(err.starts_with(&format!("kollafrin: {out}: cannot be written: ")), "{err}");
    }
    nothing_beside(&to);
}

/// Good and broken files, in folders: those that are refused are told in the order asked, and the last line counts.
#[test]
fn a_folder_is_checked() {
    let at = folder("checked");
    for (name, words) in [("b/good.spv", &[0x0003_000E, 0, 1][..]), ("b/c/cut.spv", &[0x0003_000E, 0]), ("a.spv", &[0x0002_0011, 5283])] {
        let file = at.join(name);
        fs::create_dir_all(file.parent().unwrap()).unwrap();
        fs::write(file, module(words)).unwrap();
    }
    fs::write(at.join("b/notes.txt"), "no shader").unwrap();
    let top = at.to_str().unwrap();
    let (status, out, err) = run(&["check", top, "samples/swapped.spv"]);
    let a = format!(
        "{top}/a.spv: 10 at byte 24, instruction 1: OpCapability: Capability 5283 is not known to this grammar, SPIR-V 1.5 revision 4\n"
    );
    let cut = format!("{top}/b/c/cut.spv: 9 at byte 28, instruction 1: the module ends inside an operand\n");
    let swapped =
        "samples/swapped.spv: 3: the first word is the magic number in the other byte order: the bytes of every word are swapped\n";
    assert_eq!((status, out, err.as_str()), (1, format!("{a}{cut}{swapped}1 accepted, 3 refused\n"), ""));
    // what cannot be read is said by name, and the others go on
    let nothing = path(&at, "nothing.spv");
    let (status, out, err) = run(&["check", &nothing, "/proc/self/mem", top]);
    assert_eq!((status, out), (2, format!("{a}{cut}1 accepted, 2 refused, 2 not read\n")));
    let (first, second) = err.split_once('\n').unwrap();
    assert!(first.starts_with(&format!("kollafrin: {nothing}: cannot be read: ")), "{err}");
    assert!(second.starts_with("kollafrin: /proc/self/mem: cannot be read: "), "{err}");
    #[cfg(unix)]
    {
        std::os::unix::fs::symlink("nowhere", at.join("b/lost.spv")).unwrap();
        std::os::unix::fs::symlink("..", at.join("b/round.spv")).unwrap();
        let (status, out, err) = run(&["check", top]);
        assert_eq!((status, out), (2, format!("{a}{cut}1 accepted, 2 refused, 1 not read\n")));
        assert!(err.starts_with(&format!("kollafrin: {top}/b/lost.spv: cannot be read: ")), "{err}");
    }
}

/// Files and folders that may not be read or written, as nobody where the tests run as root, who may everything.
#[test]
fn what_is_not_allowed() {
    use std::os::unix::fs::PermissionsExt;
    let at = std::env::temp_dir().join(format!("kollafrin-{}", std::process::id()));
    fs::create_dir_all(at.join("closed")).unwrap();
    let (program, file, good, out) = (path(&at, "kollafrin"), path(&at, "mine.spv"), path(&at, "good.spv"), path(&at, "out.spv"));
    fs::copy(env!("CARGO_BIN_EXE_kollafrin"), &program).unwrap();
    fs::write(&file, module(&[])).unwrap();
    fs::write(&good, module(&[])).unwrap();
    for (name, mode) in [("mine.spv", 0o000), ("closed", 0o000), ("", 0o555)] {
        fs::set_permissions(at.join(name), fs::Permissions::from_mode(mode)).unwrap();
    }
    let mut words = vec![];
    if File::open(&file).is_ok() {
        words.extend(["setpriv", "--reuid=65534", "--regid=65534", "--clear-groups"]);
    }
    words.push(&program);
    let call = |more: &[&str]| Command::new(words[0]).args(&words[1..]).args(more).current_dir("/").output().ok().map(said);
    let tried = call(&["--version"]).is_some_and(|said| said.0 == 0);
    if tried {
        let (status, out_said, err) = call(&["check", at.to_str().unwrap()]).unwrap();
        assert_eq!((status, out_said.as_str()), (2, "1 accepted, 0 refused, 2 not read\n"));
        assert!(err.contains("/closed: cannot be read: ") && err.contains("/mine.spv: cannot be read: "), "{err}");
        assert_eq!(call(&["text", &file]).unwrap().0, 2);
        assert_eq!(call(&["restore", &good, "-o", &out]).unwrap().0, 2);
        nothing_beside(&at);
        assert!(fs::symlink_metadata(&out).is_err());
    } else {
        println!("not tried: who runs this may read every file, and cannot be another");
    }
    for name in ["", "closed"] {
        fs::set_permissions(at.join(name), fs::Permissions::from_mode(0o755)).unwrap();
    }
    fs::remove_dir_all(&at).unwrap();
}

/// So many that every thread has its share, with faults of every size between: the order is the one asked.
#[test]
fn many_files_in_their_order() {
    let at = folder("many");
    let mut expected = String::new();
    for i in 0..500u32 {
        let name = path(&at, &format!("{i:03}.spv"));
        let mut words = vec![0x0001_013D; (i as usize * 7919) % 3000];
        if i % 3 == 0 {
            words.push(0x0001_0038);
            expected += &format!(
                "{name}: 17 at byte {}, instruction {}: OpFunctionEnd: a function ends where none has begun\n",
                16 + 4 * words.len(),
                words.len()
            );
        }
        fs::write(&name, module(&words)).unwrap();
    }
    let (status, out, err) = run(&["check", at.to_str().unwrap()]);
    assert_eq!((status, out, err.as_str()), (1, format!("{expected}333 accepted, 167 refused\n"), ""));
}

#[test]
fn standard_input() {
    let colour = fs::read(format!("{ROOT}/samples/colour.spv")).unwrap();
    let (status, out, _) = said(run_with_input(&["check", "-"], &colour));
    assert_eq!((status, out.as_str()), (0, "1 accepted, 0 refused\n"));
    let (status, out, _) = said(run_with_input(&["check", "-"], &colour[..100]));
    assert_eq!((status, out.lines().count()), (1, 2));
    assert!(out.starts_with("-: 9 at byte "), "{out}");
    assert_eq!(said(run_with_input(&["text", "-"], &colour)).1, run(&["text", "samples/colour.spv"]).1);
    assert_eq!(said(run_with_input(&["list", "-"], &colour)).1, run(&["list", "samples/colour.spv"]).1);
    assert_eq!(run_with_input(&["restore", "-", "-o", "-"], &colour).stdout, colour);
    assert_eq!(said(run_with_input(&["check", "-"], &[])).1, "-: 1 at byte 0: the module ends inside its header\n0 accepted, 1 refused\n");
    assert_eq!(run(&["check", "-", "-"]).0, 2);
}

#[test]
fn plain_and_standing() {
    let at = folder("plain");
    let put = |name: &str, words: &[u32], tail: &[u8]| fs::write(at.join(name), [module(words), tail.to_vec()].concat()).unwrap();
    put("a.spv", &[0x0003_000E, 0, 1, 0x0003_0007, 1, 0x0100_6261], &[]);
    put("b.spv", &[0x0003_000E, 0, 1], &[0]);
    put("c.spv", &[0x0003_000E, 0, 1, 0x0005_0034, 1, 2, 0x0001_0084, 3], &[]);
    put("d.spv", &[0x0003_000E, 0, 1, 0x0002_0011, 0], &[]);
    put("e.spv", &[0x0002_0011, 0], &[]);
    put("f.spv", &[0x0002_0011, 0, 0x0003_000E, 0, 1], &[]);
    let top = at.to_str().unwrap();
    let plain = format!(
        "{top}/a.spv: not plain at byte 43, instruction 2: a byte that is not zero stands after a string's end\n\
         {top}/b.spv: not plain at byte 32: bytes are left over after the last whole word\n"
    );
    let embedded = format!("{top}/c.spv: 8 at byte 52, instruction 2: OpSpecConstantOp: the instruction's words end inside an operand\n");
    assert_eq!(run(&["check", "--plain", top]).1, format!("{plain}{embedded}5 accepted, 1 refused, 2 not plain\n"));
    put("c.spv", &[0x0003_000E, 0, 1, 0x0006_0034, 1, 2, 0x0001_0084, 3, 4], &[]);
    let embedded = format!("{top}/c.spv: not plain at byte 44, instruction 2: the embedded opcode's word has more than an opcode\n");
    let (status, out, _) = run(&["check", "--plain", top]);
    assert_eq!((status, out), (0, format!("{plain}{embedded}6 accepted, 0 refused, 3 not plain\n")));
    let (status, out, _) = run(&["check", "--standing", top]);
    let string = "its section belongs before what stands ahead of it";
    let standing = format!(
        "{top}/d.spv: not standing at byte 32, instruction 2: OpCapability: {string}\n\
         {top}/e.spv: not standing: there is no memory model\n"
    );
    assert_eq!((status, out), (0, format!("{standing}6 accepted, 0 refused, 2 not standing\n")));
}

#[test]
fn grammars_are_lent() {
    let at = folder("grammars");
    let (grammar, own) = (path(&at, "grammar"), path(&at, "own"));
    assert_eq!(run(&["grammar", "-o", &grammar]), (0, String::new(), String::new()));
    let bytes = fs::read(&grammar).unwrap();
    assert_eq!(bytes.len(), 12_251);
    assert_eq!(command(&["grammar"]).output().unwrap().stdout, bytes);
    assert_eq!(run(&["grammar", "-o", &grammar]).0, 2);
    let lent = format!("--grammar={grammar}");
    assert_eq!(run(&["text", &lent, "samples/colour.spv"]), run(&["text", "samples/colour.spv"]));
    assert_eq!(run(&["check", "--grammar", &grammar, "samples/shaders"]).1, "8 accepted, 0 refused\n");
    // row 17 alone, and a capability that the built-in grammar does not list
    fs::write(&own, [1, 17, 0, 2, 30, 0, 3, 30, 0xA3, 0x14, 0, 0]).unwrap();
    let newer = path(&at, "newer.spv");
    fs::write(&newer, module(&[0x0002_0011, 5283])).unwrap();
    assert_eq!(run(&["check", "--grammar", &own, &newer]).0, 0);
    assert_eq!(
        run(&["check", "--grammar", &own, "samples/fitting-6.spv"]).1,
        "samples/fitting-6.spv: 5 at byte 20, instruction 1: OpMemoryModel: opcode 14 is not known to this grammar\n0 accepted, 1 refused\n"
    );
    // the listing has names of the built-in grammar alone
    let (status, out, err) = run(&["text", "--grammar", &own, &newer]);
    assert_eq!((status, out.as_str()), (1, ""));
    assert!(err.contains(": 30 at record 1: "), "{err}");
    // bytes that are no grammar are said once
    fs::write(&own, [5]).unwrap();
    let refused = (1, String::new(), format!("kollafrin: {own}: 24: the grammar is not well-formed\n"));
    assert_eq!(run(&["check", "--grammar", &own, "samples"]), refused);
    fs::write(&own, vec![0; 100_000]).unwrap();
    assert_eq!(run(&["check", "--grammar", &own, "samples"]), refused);
    assert_eq!(run(&["check", "--grammar", &path(&at, "none"), "samples"]).0, 2);
}

/// A house row beside the built-in grammar, and a module that has it.
#[test]
fn grammars_are_joined() {
    let at = folder("joined");
    let [common, house, out, module_of_both] = ["common", "house", "out", "both.spv"].map(|name| path(&at, name));
    assert_eq!(run(&["grammar", "-o", &common]).0, 0);
    let own = [1, 0x00, 0xF0, 2, 33, 0];
    fs::write(&house, own).unwrap();
    let said_joined = |first: &str, second: &str| format!("{out}: 12257 bytes, {first} and {second} joined\n");
    assert_eq!(run(&["join", &common, &house, "-o", &out]), (0, said_joined(&common, &house), String::new()));
    let joined = fs::read(&out).unwrap();
    let rows = fs::read(&common).unwrap().chunks(3).take_while(|item| item[0] < 3).count() * 3;
    assert_eq!((joined.len(), &joined[rows..rows + 6]), (12_257, &own[..]));
    let words = [0x0005_0036, 1, 2, 0, 3, 0x0002_00F8, 4, 0x0002_F000, 7, 0x0001_00FD, 0x0001_0038];
    fs::write(&module_of_both, module(&words)).unwrap();
    assert_eq!(run(&["check", &module_of_both]).0, 1);
    assert_eq!(run(&["check", "--grammar", &out, &module_of_both]).1, "1 accepted, 0 refused\n");
    // what is there stays; by force, in the other order, it is the same
    let there = format!("kollafrin: {out}: is there already; --force writes over it\n");
    fs::write(&out, "mine").unwrap();
    assert_eq!(run(&["join", &common, &house, "-o", &out]), (2, String::new(), there));
    assert_eq!(fs::read(&out).unwrap(), b"mine");
    assert_eq!(run(&["join", "--force", &house, &common, "-o", &out]), (0, said_joined(&house, &common), String::new()));
    assert_eq!(fs::read(&out).unwrap(), joined);
    // from standard input and to standard output
    for words in [["join", "-", &common, "-o", "-"], ["join", &common, "-", "-o", "-"]] {
        let output = run_with_input(&words, &own);
        assert_eq!((output.status.code(), output.stdout), (Some(0), joined.clone()), "{words:?}");
    }
    // by objects
    let (status, object, err) = run(&["join", "--json", "--force", &common, &house, "-o", &out]);
    assert_eq!((status, err.as_str()), (0, ""));
    assert_eq!(object, format!("{{\"first\":\"{common}\",\"second\":\"{house}\",\"accepted\":true,\"out\":\"{out}\",\"bytes\":12257}}\n"));
    nothing_beside(&at);
}

/// What is not joined is said in words, and leaves what is there: which of two clashes is the lowest, and who is not well-formed.
#[test]
fn grammars_that_are_not_joined() {
    let at = folder("unjoined");
    let [first, second, out] = ["first", "second", "out"].map(|name| path(&at, name));
    fs::write(&out, "mine").unwrap();
    let unjoined = |one: &[u8], other: &[u8], who: &str, words: &str, object: &str| {
        fs::write(&first, one).unwrap();
        fs::write(&second, other).unwrap();
        let err = format!("kollafrin: {who}: {words}\n");
        assert_eq!(run(&["join", "--force", &first, &second, "-o", &out]), (1, String::new(), err.clone()));
        let object = format!("{{\"first\":\"{first}\",\"second\":\"{second}\",{object},\"words\":\"{}\"}}\n", &words[4..]);
        assert_eq!(run(&["join", "--force", "--json", &first, &second, "-o", &out]), (1, object, err));
        assert_eq!(fs::read(&out).unwrap(), b"mine");
    };
    let both = format!("{first} and {second}");
    unjoined(
        &[1, 14, 0, 2, 11, 0, 1, 17, 0, 3, 9, 1, 0, 0, 0],
        &[1, 14, 0, 1, 17, 0, 2, 30, 0, 3, 9, 1, 0, 0, 0, 4, 33],
        &both,
        "34: OpMemoryModel: the two grammars have row 14 each in its own way",
        "\"accepted\":false,\"number\":34,\"place\":0,\"value\":14,\"instruction\":\"OpMemoryModel\"",
    );
    unjoined(
        &[1, 0x00, 0xF0],
        &[1, 0x00, 0xF0, 2, 33, 0],
        &both,
        "34: the two grammars have row 61440 each in its own way",
        "\"accepted\":false,\"number\":34,\"place\":0,\"value\":61440",
    );
    unjoined(
        &[3, 25, 6, 0, 0, 0, 3, 25, 7, 0, 0, 0],
        &[3, 25, 6, 0, 0, 0, 4, 33, 3, 25, 7, 0, 0, 0, 4, 33],
        &both,
        "34: the two grammars have Decoration 6 each in its own way",
        "\"accepted\":false,\"number\":34,\"place\":25,\"value\":6,\"kind\":\"Decoration\"",
    );
    let not = "24: the grammar is not well-formed";
    let refused = "\"accepted\":false,\"number\":24,\"place\":0,\"value\":0";
    unjoined(&[5], &[1, 14, 0], &first, not, &format!("\"file\":\"{first}\",{refused}"));
    unjoined(&[1, 14, 0], &[0; 100_000], &second, not, &format!("\"file\":\"{second}\",{refused}"));
    unjoined(&[5], &[5], &first, not, &format!("\"file\":\"{first}\",{refused}"));
    let together = "24: the two grammars together are not well-formed: they have more than 65,535 bytes, or a parameter in one is of a kind that has parameters in the other";
    unjoined(&[3, 25, 1, 0, 0, 0, 4, 9], &[3, 9, 1, 0, 0, 0, 4, 33], &both, together, refused);
    // as long as a grammar can be, and a row more: in one, and in the two together
    let rows: Vec<u8> = (100..21_946u16).flat_map(|opcode| [1, opcode as u8, (opcode >> 8) as u8]).collect();
    let (most, one) = rows.split_at(65_535);
    unjoined(&rows, &[], &first, not, &format!("\"file\":\"{first}\",{refused}"));
    unjoined(most, one, &both, together, refused);
    fs::write(&second, []).unwrap();
    let said = format!("{out}: 65535 bytes, {first} and {second} joined\n");
    assert_eq!(run(&["join", "--force", &first, &second, "-o", &out]), (0, said, String::new()));
    assert_eq!(fs::read(&out).unwrap(), most);
    // nothing is there to be joined, or nowhere to put it
    let none = path(&at, "none");
    for (one, other) in [(&none, &first), (&first, &none)] {
        let (status, text, err) = run(&["join", one, other, "-o", &out]);
        assert_eq!((status, text.as_str()), (2, ""));
        assert!(err.starts_with(&format!("kollafrin: {none}: cannot be read: ")), "{err}");
    }
    fs::write(&first, []).unwrap();
    let (status, _, err) = run(&["join", &first, &first, "-o", &path(&at, "none/out")]);
    assert!(status == 2 && err.starts_with(&format!("kollafrin: {none}/out: cannot be written: ")), "{err}");
    nothing_beside(&at);
}

/// The words of a book's records, changed by `change`, in the bytes of a book.
fn with_records(book: &[u8], change: impl Fn(&mut [u8])) -> Vec<u8> {
    let mut other = book.to_vec();
    change(&mut other[36..]);
    other
}

/// Loaded, turned into an old book and back, each module under samples: byte for byte.
#[test]
fn books_are_loaded_and_turned() {
    let at = folder("books");
    for (sample, listing) in samples() {
        let [new, old, back] = ["new", "old", "back"].map(|name| path(&at, &format!("{}-{name}", sample.replace('/', "-"))));
        let (status, said, err) = run(&["book", "load", &sample, "-o", &new]);
        let Some(count) = listing.lines().last().unwrap().strip_prefix("accepted ") else {
            assert_eq!((status, said.as_str()), (1, ""), "{sample}");
            assert!(err.starts_with(&format!("kollafrin: {sample}: ")) && fs::symlink_metadata(&new).is_err(), "{err}");
            continue;
        };
        let book = fs::read(&new).unwrap();
        assert_eq!((status, said, err.as_str()), (0, format!("{new}: {} bytes, {sample} as a new book\n", book.len()), ""));
        assert_eq!(u32::from_le_bytes(book[..4].try_into().unwrap()).to_string(), count);
        assert_eq!(book[16..36], fs::read(format!("{ROOT}/{sample}")).unwrap()[..20]);
        let shorter = book.len() - 8 * count.parse::<usize>().unwrap();
        let said_old = format!("{old}: {shorter} bytes, {new} as an old book\n");
        assert_eq!(run(&["book", "old", &new, "-o", &old]), (0, said_old, String::new()));
        let said_new = format!("{back}: {} bytes, {old} as a new book\n", book.len());
        assert_eq!(run(&["book", "new", &old, "-o", &back]), (0, said_new, String::new()));
        assert!(fs::read(&back).unwrap() == book, "{sample}");
        // all but the records is the same
        let (records, turned) = (36 + 40 * (book.len() - shorter) / 8, fs::read(&old).unwrap());
        let old_records = 36 + 32 * (book.len() - shorter) / 8;
        assert!(turned[..36] == book[..36] && turned[old_records..] == book[records..], "{sample}");
        for (eight, ten) in turned[36..old_records].chunks(32).zip(book[36..records].chunks(40)) {
            assert_eq!(eight, &ten[..32]);
        }
    }
    // the books that are kept beside the samples
    for (call, from, kept) in [
        ("load", "samples/function.spv", "samples/function.new.book"),
        ("old", "samples/function.new.book", "samples/function.old.book"),
        ("new", "samples/function.old.book", "samples/function.new.book"),
    ] {
        let output = command(&["book", call, from, "-o", "-"]).output().unwrap();
        assert!(output.stdout == fs::read(format!("{ROOT}/{kept}")).unwrap(), "{call} {from}");
    }
    nothing_beside(&at);
}

/// From standard input and to standard output, by force and not, by a lent grammar, as objects.
#[test]
fn books_as_any_other_file() {
    let at = folder("book-files");
    let [new, old, out, grammar, house] = ["new", "old", "out", "grammar", "house.spv"].map(|name| path(&at, name));
    assert_eq!(run(&["book", "load", "samples/colour.spv", "-o", &new]).0, 0);
    assert_eq!(run(&["book", "old", &new, "-o", &old]).0, 0);
    let [of_new, of_old] = [&new, &old].map(|path| fs::read(path).unwrap());
    let colour = fs::read(format!("{ROOT}/samples/colour.spv")).unwrap();
    for (call, input, output) in [("load", &colour, &of_new), ("old", &of_new, &of_old), ("new", &of_old, &of_new)] {
        let told = run_with_input(&["book", call, "-", "-o", "-"], input);
        assert_eq!(told.status.code(), Some(0), "{call}");
        assert!(&told.stdout == output, "{call}");
        fs::write(&out, "mine").unwrap();
        let from = if call == "load" { "samples/colour.spv" } else { [&new, &old][usize::from(call == "new")] };
        let there = format!("kollafrin: {out}: is there already; --force writes over it\n");
        assert_eq!(run(&["book", call, from, "-o", &out]), (2, String::new(), there));
        assert_eq!(fs::read(&out).unwrap(), b"mine");
        let (status, object, err) = run(&["book", call, "--json", "--force", from, "-o", &out]);
        let kind = if call == "old" { "old" } else { "new" };
        let wanted = format!(
            "{{\"file\":\"{from}\",\"accepted\":true,\"out\":\"{out}\",\"bytes\":{},\"book\":\"{kind}\",\"instructions\":31}}\n",
            output.len()
        );
        assert_eq!((status, object, err.as_str()), (0, wanted, ""));
        assert!(&fs::read(&out).unwrap() == output, "{call}");
        // nothing is there, or nowhere to put it
        let (status, _, err) = run(&["book", call, &path(&at, "none"), "-o", &out]);
        assert!(status == 2 && err.contains("/none: cannot be read: "), "{err}");
        let (status, _, err) = run(&["book", call, from, "-o", &path(&at, "none/out")]);
        assert!(status == 2 && err.contains("/none/out: cannot be written: "), "{err}");
    }
    // a house row: its module loads by the lent grammar alone, and its book needs none
    fs::write(&grammar, [1, 54, 0, 1, 56, 0, 1, 248, 0, 1, 253, 0, 1, 0x00, 0xF0, 2, 33, 0]).unwrap();
    fs::write(&house, module(&[0x0001_0036, 0x0001_00F8, 0x0002_F000, 7, 0x0001_00FD, 0x0001_0038])).unwrap();
    assert_eq!(run(&["book", "load", "--force", &house, "-o", &new]).0, 1);
    assert_eq!(run(&["book", "load", "--force", "--grammar", &grammar, &house, "-o", &new]).0, 0);
    assert_eq!(run(&["book", "old", "--force", &new, "-o", &old]).0, 0);
    fs::write(&grammar, [5]).unwrap();
    let refused = (1, String::new(), format!("kollafrin: {grammar}: 24: the grammar is not well-formed\n"));
    assert_eq!(run(&["book", "load", "--grammar", &grammar, &house, "-o", &out]), refused);
    nothing_beside(&at);
}

/// Books that are refused, 30 and 33, and files that are no book of the kind asked for: each is said, and what is there stays.
#[test]
fn books_that_are_not_turned() {
    let at = folder("unturned");
    let [from, out] = ["from", "out"].map(|name| path(&at, name));
    fs::write(&out, "mine").unwrap();
    let [new, old] = ["new", "old"].map(|kind| fs::read(format!("{ROOT}/samples/function.{kind}.book")).unwrap());
    let refused = |call: &str, bytes: &[u8], words: &str, object: &str| {
        fs::write(&from, bytes).unwrap();
        let err = format!("kollafrin: {from}: {words}\n");
        assert_eq!(run(&["book", call, "--force", &from, "-o", &out]), (1, String::new(), err.clone()));
        let said = words.split_once(": ").filter(|(head, _)| head.starts_with('3')).map_or(words, |(_, said)| said);
        let object = format!("{{\"file\":\"{from}\",\"accepted\":false,{object},\"words\":\"{said}\"}}\n");
        assert_eq!(run(&["book", call, "--force", "--json", &from, "-o", &out]), (1, object, err));
        assert_eq!(fs::read(&out).unwrap(), b"mine");
    };
    let bad = |index: u32| {
        let words = format!("30 at record {index}: a record breaks the layout of the stores, or has no name in a listing");
        (words, format!("\"number\":30,\"offset\":0,\"index\":{index},\"value\":0"))
    };
    // the tag of the second record; a log byte more than the operands have, which is taken from the strings or types
    let (words, object) = bad(2);
    refused("old", &with_records(&new, |records| records[44] = 15), &words, &object);
    refused("new", &with_records(&old, |records| records[36] = 15), &words, &object);
    let (words, object) = bad(9);
    for (call, book) in [("old", &new), ("new", &old)] {
        let mut longer = [&book[..], &[33]].concat();
        longer[4] += 1;
        refused(call, &longer, &words, &object);
    }
    // the block number of the label, and behind it a record that is bad
    let wrong = with_records(&new, |records| records[5 * 40 + 36] = 2);
    let words = "33 at record 6: the function or block number is not the one that the tags call for";
    refused("old", &wrong, words, "\"number\":33,\"offset\":0,\"index\":6,\"value\":0");
    let (words, object) = bad(8);
    refused("old", &with_records(&wrong, |records| records[7 * 40 + 4] = 1), &words, &object);
    // one kind for the other, a byte more or less, less than counts and header
    let unlike = |call: &str, bytes: &[u8], why: &str, asked: Option<usize>| {
        let kind = if call == "old" { "new" } else { "old" };
        let asked = asked.map_or(String::new(), |asked| format!(",\"asked\":{asked}"));
        refused(call, bytes, &format!("this is no {kind} book: {why}"), &format!("\"bytes\":{}{asked}", bytes.len()));
    };
    unlike("old", &old, "it has 322 bytes and its counts ask for 386: it is as long as an old book", Some(386));
    unlike("new", &new, "it has 386 bytes and its counts ask for 322: it is as long as a new book", Some(322));
    unlike("old", &new[..385], "it has 385 bytes, and its counts ask for 386", Some(386));
    unlike("old", &[&new[..], &[0]].concat(), "it has 387 bytes, and its counts ask for 386", Some(386));
    unlike("new", &old[..321], "it has 321 bytes, and its counts ask for 322", Some(322));
    unlike("new", &[&old[..], &[0]].concat(), "it has 323 bytes, and its counts ask for 322", Some(322));
    unlike("new", &[&new[..], &[0; 1000]].concat(), "it has 1386 bytes, and its counts ask for 322", Some(322));
    for call in ["old", "new"] {
        unlike(call, &[], "it has 0 bytes, and counts and header words alone are 36", None);
        unlike(call, &old[..35], "it has 35 bytes, and counts and header words alone are 36", None);
    }
    // counts as large as there are, and a stream that does not end
    unlike("old", &[0xFF; 36], "it has 36 bytes, and its counts ask for 231928233966", Some(231_928_233_966));
    let endless = "kollafrin: /dev/zero: this is no new book: it has more than 36 bytes, and its counts ask for 36\n";
    assert_eq!(run(&["book", "old", "/dev/zero", "-o", &out]), (1, String::new(), endless.into()));
    let (status, _, err) = said(run_with_input(&["book", "new", "-", "-o", "-"], &new));
    assert_eq!(
        (status, err.as_str()),
        (1, "kollafrin: -: this is no old book: it has 386 bytes and its counts ask for 322: it is as long as a new book\n")
    );
    // a book without instructions is both
    let empty = [&[0; 16][..], &module(&[])].concat();
    fs::write(&from, &empty).unwrap();
    for call in ["old", "new"] {
        assert_eq!(run(&["book", call, "--force", &from, "-o", &out]).0, 0);
        assert_eq!(fs::read(&out).unwrap(), empty);
    }
    nothing_beside(&at);
}

#[test]
fn objects_for_machines() {
    let at = folder("objects");
    let odd = path(&at, "odd \"name\\\n\u{1}é.spv");
    fs::write(&odd, module(&[0x0002_0011, 5283])).unwrap();
    let none = path(&at, "none.spv");
    let (status, out, _) = run(&["check", "--json", "--plain", "--standing", &odd, &none, "samples/colour.spv"]);
    assert_eq!((status, out.lines().count()), (2, 4));
    if let Some(read) = read_by_python(&out) {
        let name = odd.replace('\\', "\\\\").replace('"', "\\\"").replace('\n', "\\n").replace('\u{1}', "\\u0001").replace('é', "\\u00e9");
        let words = "OpCapability: Capability 5283 is not known to this grammar, SPIR-V 1.5 revision 4";
        let refused = format!("{{\"accepted\": false, \"file\": \"{name}\", \"index\": 1, \"instruction\": \"OpCapability\", \"kind\": \"Capability\", \"number\": 10, \"offset\": 24, \"value\": 5283, \"words\": \"{words}\"}}");
        assert_eq!(read[0], refused);
        assert!(read[1].starts_with("{\"error\": \"") && read[1].contains("cannot be read"));
        assert_eq!(read[2], "{\"accepted\": true, \"file\": \"samples/colour.spv\", \"plain\": true, \"standing\": true}");
        assert_eq!(read[3], "{\"accepted\": 1, \"not_plain\": 0, \"not_read\": 1, \"not_standing\": 0, \"refused\": 1}");
    }
    let (_, out, _) = run(&["list", "--json", "samples/cut-short.spv"]);
    if let Some(read) = read_by_python(&out) {
        assert_eq!(read[0], "{\"bound\": 8, \"version\": \"1.5\"}");
        assert_eq!(read[1], "{\"block\": 0, \"function\": 0, \"index\": 1, \"offset\": 20, \"opcode\": 17, \"tag\": 1, \"words\": 2}");
        assert!(read[5].starts_with("{\"accepted\": false, ") && read.len() == 6);
    }
    // a label and what follows it: the first block of the first function
    let (_, out, _) = run(&["list", "--json", "samples/function.spv"]);
    assert_eq!(out.matches("\"function\":1,\"block\":1}\n").count(), 2);
    assert_eq!(out.matches("\"function\":1,\"block\":0}\n").count(), 2);
    assert_eq!(out.matches("\"function\":0,\"block\":0}\n").count(), 4);
    let [restored, book] = ["restored.spv", "book"].map(|name| path(&at, name));
    for call in [
        &["list", "--json", "samples/colour.spv"][..],
        &["text", "--json", "samples/colour.spv"],
        &["text", "--json", "samples/swapped.spv"],
        &["restore", "--json", "samples/colour.spv", "-o", &restored],
        &["restore", "--json", "--force", "--module-order", "samples/colour.spv", "-o", &restored],
        &["grammar", "--json"],
        &["book", "load", "--json", "samples/colour.spv", "-o", &book],
        &["book", "load", "--json", "samples/swapped.spv", "-o", &book],
        &["book", "old", "--json", "--force", "samples/function.new.book", "-o", &book],
        &["book", "new", "--json", "samples/function.new.book", "-o", &book],
    ] {
        let (_, out, _) = run(call);
        assert!(!out.is_empty() && out.ends_with("}\n"), "{call:?}");
        if let Some(read) = read_by_python(&out) {
            assert!(read.len() == out.lines().count() && read.iter().all(|object| object.starts_with('{')), "{call:?}");
        }
    }
}

#[test]
fn wrong_calls() {
    for call in [
        &[][..],
        &["chek"],
        &["check"],
        &["text"],
        &["text", "a", "b"],
        &["list", "--plain", "samples/colour.spv"],
        &["check", "--plane", "samples"],
        &["check", "samples", "--grammar"],
        &["restore", "samples/colour.spv"],
        &["grammar", "samples/colour.spv"],
        &["book", "-o", "out"],
        &["book", "old", "-o", "out"],
        &["book", "samples/function.new.book", "-o", "out"],
        &["book", "older", "samples/function.new.book", "-o", "out"],
        &["book", "old", "samples/function.new.book"],
        &["book", "old", "a", "b", "-o", "out"],
        &["book", "old", "--grammar", "a", "samples/function.new.book", "-o", "out"],
        &["book", "load", "--plain", "samples/function.spv", "-o", "out"],
        &["join", "-o", "out"],
        &["join", "a", "-o", "out"],
        &["join", "a", "b", "c", "-o", "out"],
        &["join", "a", "b"],
        &["join", "-", "-", "-o", "out"],
        &["join", "--grammar", "a", "samples/colour.spv", "samples/colour.spv", "-o", "out"],
    ] {
        let (status, out, err) = run(call);
        assert_eq!((status, out.as_str()), (2, ""), "{call:?}");
        assert!(err.starts_with("kollafrin: ") && err.lines().count() == 1, "{call:?}: {err}");
    }
    for call in ["text", "list", "restore"] {
        for bad in ["samples", "nothing.spv", "samples/colour.spv/more"] {
            let (status, out, err) = run(&[call, bad, "-o", "/nowhere/out.spv"][..if call == "restore" { 4 } else { 2 }]);
            assert_eq!((status, out.as_str()), (2, ""), "{call} {bad}");
            assert!(err.starts_with(&format!("kollafrin: {bad}: cannot be read: ")), "{err}");
        }
    }
    // a name that looks like an option
    let at = folder("wrong");
    fs::write(at.join("--plain"), module(&[])).unwrap();
    let mut call = command(&["check", "--", "--plain"]);
    assert_eq!(said(call.current_dir(&at).output().unwrap()).1, "1 accepted, 0 refused\n");
}

#[test]
fn help_and_version() {
    let (status, help, err) = run(&["--help"]);
    assert_eq!((status, err.as_str()), (0, ""));
    for call in ["check", "text", "list", "restore", "book", "grammar", "join"] {
        assert!(help.contains(&format!("kollafrin {call} ")), "{call}");
        let (status, own, _) = run(&[call, "--help"]);
        assert_eq!(status, 0);
        assert!(own.starts_with(&format!("kollafrin {call} ")));
    }
    for call in [&["--version"][..], &["check", "--version"], &["restore", "samples/colour.spv", "--version"]] {
        assert_eq!(run(call), (0, format!("kollafrin {}\n", env!("CARGO_PKG_VERSION")), String::new()), "{call:?}");
    }
    assert_eq!(env!("CARGO_PKG_VERSION_MAJOR"), kollafrin::VERSION.to_string());
}

/// The reader goes away: nothing is said about it.
#[test]
fn a_closed_pipe() {
    let at = folder("closed");
    // a listing that no pipe holds
    let long = path(&at, "long.spv");
    fs::write(&long, module(&vec![0x0001_013D; 200_000])).unwrap();
    for call in [&["list", &long][..], &["text", &long], &["restore", &long, "-o", "-"], &["book", "load", &long, "-o", "-"]] {
        let mut child = command(call).stdout(Stdio::piped()).stderr(Stdio::piped()).spawn().unwrap();
        let mut first = [0; 10];
        let mut from = child.stdout.take().unwrap();
        from.read_exact(&mut first).unwrap();
        drop(from);
        let (status, _, err) = said(child.wait_with_output().unwrap());
        assert_eq!((status, err.as_str()), (141, ""), "{call:?}");
    }
    for name in 0..2000 {
        fs::write(at.join(format!("{name:04}.spv")), module(&[0x0001_0038])).unwrap();
    }
    let mut child = command(&["check", at.to_str().unwrap()]).stdout(Stdio::piped()).stderr(Stdio::piped()).spawn().unwrap();
    drop(child.stdout.take());
    let (status, _, err) = said(child.wait_with_output().unwrap());
    assert_eq!((status, err.as_str()), (141, ""));
}

#[test]
fn an_output_without_room() {
    let Ok(full) = File::options().write(true).open("/dev/full") else { return println!("not tried: no /dev/full") };
    for call in [&["list", "samples/colour.spv"][..], &["text", "samples/colour.spv"], &["check", "samples"], &["grammar"], &["--help"]] {
        let (status, _, err) = said(command(call).stdout(full.try_clone().unwrap()).stderr(Stdio::piped()).output().unwrap());
        assert_eq!(status, 2, "{call:?}");
        assert!(err.starts_with("kollafrin: standard output: "), "{call:?}: {err}");
    }
}

/// The longest module that there is, and one that is a byte longer.
#[test]
fn sixty_four_mebibytes() {
    let at = folder("longest");
    let file = path(&at, "longest.spv");
    // OpTypeStruct of as many words as there can be, 256 times, and one that is shorter
    let mut words = Vec::new();
    for count in [65_535; 256].into_iter().chain([251]) {
        words.push(count << 16 | 30);
        words.extend(vec![1; count as usize - 1]);
    }
    let mut bytes = module(&words);
    assert_eq!(bytes.len(), 67_108_864);
    fs::write(&file, &bytes).unwrap();
    assert_eq!(run(&["check", "--plain", &file]), (0, "1 accepted, 0 refused, 0 not plain\n".into(), String::new()));
    assert_eq!(run(&["list", &file]).1.lines().last(), Some("accepted 257"));
    bytes.push(0);
    fs::write(&file, &bytes).unwrap();
    let (status, out, _) = run(&["check", &file, "samples/colour.spv"]);
    assert_eq!((status, out), (1, format!("{file}: 31: the module has more than 67,108,864 bytes\n1 accepted, 1 refused\n")));
    let (status, out, err) = run(&["list", &file]);
    assert_eq!((status, out.as_str()), (1, "refused 31 0 0\n"));
    assert_eq!(err, format!("kollafrin: {file}: 31: the module has more than 67,108,864 bytes\n"));
    // what never ends is longer too
    assert_eq!(run(&["check", "/dev/zero"]).1, "/dev/zero: 31: the module has more than 67,108,864 bytes\n0 accepted, 1 refused\n");
    fs::remove_file(file).unwrap();
}

/// Progress is shown on a terminal with many files, and is gone at the end; in a pipe there is none. Python makes the terminal.
#[test]
fn progress() {
    let script = r#"
import os, pty, sys, time
inner, keep = os.pipe()
child, terminal = pty.fork()
if child == 0:
    os.dup2(inner, 0)
    os.close(keep)
    os.execv(sys.argv[1], sys.argv[1:2] + ["check", "-"] + ["samples/colour.spv"] * 60)
os.close(inner)
time.sleep(0.5)
os.close(keep)
said = b""
try:
    while True:
        more = os.read(terminal, 65536)
        if not more: break
        said += more
except OSError:
    pass
os.waitpid(child, 0)
sys.stdout.buffer.write(said)
"#;
    let Ok(output) = Command::new("python3").args(["-c", script, env!("CARGO_BIN_EXE_kollafrin")]).current_dir(ROOT).output() else {
        return println!("not tried: no python3");
    };
    let shown = String::from_utf8(output.stdout).unwrap();
    assert!(shown.starts_with("\r0 of 61"), "{shown:?} {:?}", output.stderr);
    assert!(shown.ends_with("\r\x1b[K-: 1 at byte 0: the module ends inside its header\r\n60 accepted, 1 refused\r\n"), "{shown:?}");
    assert!(!run(&[vec!["check"], vec!["samples/colour.spv"; 60]].concat()).2.contains(" of "));
}

/// The examples of docs/REFERENCE.md ("The command") and of README.md: each call says what stands there.
#[test]
fn the_papers_show_what_is_said() {
    let at = folder("papers");
    let mut calls = 0;
    for paper in ["README.md", "docs/REFERENCE.md"] {
        let text = fs::read_to_string(format!("{ROOT}/{paper}")).unwrap();
        let mut lines = text.lines().peekable();
        while let Some(line) = lines.next() {
            let Some(call) = line.strip_prefix("    $ kollafrin ").or_else(|| line.strip_prefix("    $ ./kollafrin ")) else { continue };
            let mut expected = String::new();
            while let Some(next) = lines.next_if(|next| next.starts_with("    ") && !next.starts_with("    $ ")) {
                expected += &format!("{}\n", &next[4..]);
            }
            // what is written goes to a folder of the test
            let words: Vec<String> =
                call.split(' ').map(|word| word.strip_prefix("out/").map_or(word.into(), |name| path(&at, name))).collect();
            let (_, out, err) = run(&words.iter().map(String::as_str).collect::<Vec<_>>());
            let said = format!("{out}{err}").replace(at.to_str().unwrap(), "out");
            // three dots stand for lines that are left out
            match expected.split_once("...\n") {
                Some((start, end)) => assert!(said.starts_with(start) && said.ends_with(end), "{paper}: {call}\n{said}"),
                None => assert_eq!(said, expected, "{paper}: {call}"),
            }
            calls += 1;
        }
    }
    assert!(calls >= 6, "{calls}");
}
