//! The program: its line, its files, its refusals and failures.
mod common;
use common::*;
use oracle::{read_image, write_image, State, IMAGE_SIZE, MEMORY_SIZE};
use std::fs;
use std::path::{Path, PathBuf};
use std::process::{Command, Output};

/// A fresh folder for one test.
struct Folder(PathBuf);

impl Folder {
    fn new(name: &str) -> Folder {
        let path = std::env::temp_dir().join(format!("oracle-test-{}-{name}", std::process::id()));
        let _ = fs::remove_dir_all(&path);
        fs::create_dir_all(&path).unwrap();
        Folder(path)
    }
    fn file(&self, name: &str) -> PathBuf {
        self.0.join(name)
    }
    fn put(&self, name: &str, bytes: &[u8]) -> PathBuf {
        let path = self.file(name);
        fs::write(&path, bytes).unwrap();
        path
    }
    fn names(&self) -> Vec<String> {
        let mut names: Vec<String> = fs::read_dir(&self.0)
            .unwrap()
            .map(|entry| entry.unwrap().file_name().into_string().unwrap())
            .collect();
        names.sort();
        names
    }
}

impl Drop for Folder {
    fn drop(&mut self) {
        let _ = fs::remove_dir_all(&self.0);
    }
}

fn oracle(arguments: &[&Path]) -> Output {
    Command::new(env!("CARGO_BIN_EXE_oracle"))
        .args(arguments)
        .output()
        .unwrap()
}

fn replay(image: &Path, pins: &Path, out: &Path) -> (Option<i32>, String, String) {
    let output = oracle(&[Path::new("replay"), image, pins, out]);
    (
        output.status.code(),
        String::from_utf8(output.stdout).unwrap(),
        String::from_utf8(output.stderr).unwrap(),
    )
}

fn pins(words: &[u32]) -> Vec<u8> {
    words.iter().flat_map(|word| word.to_be_bytes()).collect()
}

/// The example of the papers.
fn example() -> Bench {
    let mut b = Bench::with(&[0xA081, 0x0000]);
    b.put(0x0302, 0x7FFF);
    b.put(0x0304, 0x0001);
    b
}

fn image_of(b: &Bench) -> Vec<u8> {
    let mut image = vec![0; IMAGE_SIZE];
    assert_eq!(write_image(b.state, &b.memory, &mut image).number, 0);
    image
}

fn ok(line: &str) -> (Option<i32>, String, String) {
    (Some(0), format!("{line}\n"), String::new())
}

#[test]
fn the_example_line() {
    let folder = Folder::new("example");
    let image = folder.put("image", &image_of(&example()));
    let pins = folder.put("pins", &pins(&[1, QUIET, QUIET]));
    let out = folder.file("out");
    assert_eq!(
        replay(&image, &pins, &out),
        ok("answer 0 steps 2 unassigned 1 pc 0104 wp 0300 st 8800 word")
    );
    let mut memory = vec![0; MEMORY_SIZE];
    let answer = read_image(&fs::read(&out).unwrap(), &mut memory);
    assert_eq!(answer.number, 0);
    assert_eq!(
        answer.state,
        State {
            wp: 0x0300,
            pc: 0x0104,
            st: 0x8800,
            ..State::BLANK
        }
    );
    let mut expected = example();
    expected.put(0x0304, 0x8000);
    assert_eq!(memory, expected.memory);
    assert_eq!(folder.names(), ["image", "out", "pins"]);
}

#[test]
fn pin_files() {
    let folder = Folder::new("pins");
    let image = folder.put("image", &image_of(&example()));
    let out = folder.file("out");
    let try_pins = |bytes: &[u8]| {
        let pins = folder.put("pins", bytes);
        let (code, line, error) = replay(&image, &pins, &out);
        assert_eq!((code, error.as_str()), (Some(0), ""));
        line
    };
    // No first word, or an incomplete one: stop 1, no records.
    for bytes in [&[][..], &[1], &[0, 0, 1]] {
        assert_eq!(
            try_pins(bytes),
            "answer 0 steps 0 unassigned 0 pc 0100 wp 0300 st 0000 none\n"
        );
    }
    // Only the low 16 bits of the first word are the stop address.
    assert_eq!(
        try_pins(&pins(&[0xABCD_0102, QUIET, QUIET])),
        "answer 0 steps 1 unassigned 0 pc 0102 wp 0300 st 8800 run\n"
    );
    assert_eq!(
        try_pins(&pins(&[0x0100, QUIET, QUIET])),
        "answer 0 steps 0 unassigned 0 pc 0100 wp 0300 st 0000 none\n"
    );
    // An incomplete last word is ignored.
    let mut bytes = pins(&[1, QUIET, QUIET]);
    bytes.pop();
    assert_eq!(
        try_pins(&bytes),
        "answer 0 steps 1 unassigned 0 pc 0102 wp 0300 st 8800 run\n"
    );
    // At most 16383 records; what lies beyond is ignored.
    let words: Vec<u32> = std::iter::once(1)
        .chain(std::iter::repeat_n(QUIET, 16382))
        .collect();
    assert!(try_pins(&pins(&words)).starts_with("answer 0 steps 16382 "));
    let words: Vec<u32> = std::iter::once(1)
        .chain(std::iter::repeat_n(QUIET, 16383))
        .collect();
    assert!(try_pins(&pins(&words)).starts_with("answer 0 steps 16383 "));
    let words: Vec<u32> = std::iter::once(1)
        .chain(std::iter::repeat_n(QUIET, 20000))
        .collect();
    assert!(try_pins(&pins(&words)).starts_with("answer 0 steps 16383 "));
}

#[test]
fn the_last_word() {
    let folder = Folder::new("last-word");
    let out = folder.file("out");
    let mut b = Bench::with(&[0x0340, 0x1000]);
    b.state.st = 0x000F;
    b.state.psi.control_and_masks = 0xFFFE;
    let image = folder.put("image", &image_of(&b));
    let word_after = |records: &[u32]| {
        let pins = folder.put("pins", &pins(&[&[1], records].concat()));
        let (code, line, error) = replay(&image, &pins, &out);
        assert_eq!((code, error.as_str()), (Some(0), ""));
        let (_, word) = line.strip_suffix('\n').unwrap().rsplit_once(' ').unwrap();
        String::from(word)
    };
    assert_eq!(word_after(&[]), "none");
    assert_eq!(word_after(&[QUIET]), "run"); // IDLE
    assert_eq!(word_after(&[QUIET, QUIET]), "idle");
    assert_eq!(word_after(&[QUIET, low(&[1])]), "reset");
    assert_eq!(word_after(&[QUIET, low(&[2])]), "load");
    for level in 1..=4 {
        assert_eq!(word_after(&[low(&[level + 2])]), format!("level{level}"));
    }
    assert_eq!(word_after(&[low(&[1]), QUIET]), "word"); // 0000 at 0000
}

#[test]
fn a_read_only_part() {
    let folder = Folder::new("read-only");
    let out = folder.file("out");
    // A R1,R2 is not stored in R2, at 0304h; the line is the same.
    let mut b = example();
    b.state.read_only = 0x0304;
    let image = folder.put("image", &image_of(&b));
    let pins = folder.put("pins", &pins(&[1, QUIET, QUIET]));
    assert_eq!(
        replay(&image, &pins, &out),
        ok("answer 0 steps 2 unassigned 1 pc 0104 wp 0300 st 8800 word")
    );
    b.state.pc = 0x0104;
    b.state.st = 0x8800;
    assert!(fs::read(&out).unwrap() == image_of(&b));
}

#[test]
fn an_image_of_the_first_edition() {
    let folder = Folder::new("first-edition");
    let out = folder.file("out");
    let second = image_of(&example());
    let mut first = second.clone();
    first[5] = 1;
    first[30..32].fill(0);
    let check = u16::from_be_bytes([first[510], first[511]]).wrapping_add(1 + 16384);
    first[510..512].copy_from_slice(&check.to_be_bytes());
    let image = folder.put("image", &first);
    // With no steps it comes out as the second edition, without a read-only part.
    let none = folder.put("pins", &pins(&[1]));
    assert_eq!(
        replay(&image, &none, &out),
        ok("answer 0 steps 0 unassigned 0 pc 0100 wp 0300 st 0000 none")
    );
    assert!(fs::read(&out).unwrap() == second);
    // With steps it stores everywhere.
    let two = folder.put("pins", &pins(&[1, QUIET, QUIET]));
    assert_eq!(
        replay(&image, &two, &out),
        ok("answer 0 steps 2 unassigned 1 pc 0104 wp 0300 st 8800 word")
    );
    let mut after = example();
    after.put(0x0304, 0x8000);
    after.state.pc = 0x0104;
    after.state.st = 0x8800;
    assert!(fs::read(&out).unwrap() == image_of(&after));
}

#[test]
fn out_may_be_the_image_itself() {
    let folder = Folder::new("same");
    let image = folder.put("image", &image_of(&example()));
    let pins = folder.put("pins", &pins(&[1, QUIET]));
    assert_eq!(
        replay(&image, &pins, &image),
        ok("answer 0 steps 1 unassigned 0 pc 0102 wp 0300 st 8800 run")
    );
    assert_eq!(
        replay(&image, &pins, &image),
        ok("answer 0 steps 1 unassigned 1 pc 0104 wp 0300 st 8800 word")
    );
}

#[test]
fn refusals() {
    let folder = Folder::new("refusals");
    let pins = folder.put("pins", &pins(&[1, QUIET]));
    let good = image_of(&example());
    let mut images = vec![
        (5, good[..17407].to_vec()),
        (5, [&good[..], &[0]].concat()),
        (5, Vec::new()),
    ];
    let mut bad = good.clone();
    bad[512 * 5 + 9] ^= 1;
    images.push((6, bad));
    let mut bad = good.clone();
    bad[512 * 5 + 1] = 4; // number 5 becomes 4, check word up by 1
    bad[512 * 5 + 511] = bad[512 * 5 + 511]
        .checked_add(1)
        .unwrap_or_else(|| panic!("choose another block"));
    images.push((7, bad));
    let mut bad = good.clone();
    bad[2 + 1] ^= 2; // 9903h
    let check = u16::from_be_bytes([bad[510], bad[511]]).wrapping_sub(2);
    bad[510..512].copy_from_slice(&check.to_be_bytes());
    images.push((8, bad));
    let mut bad = good.clone();
    bad[509] = 1;
    let check = u16::from_be_bytes([bad[510], bad[511]]).wrapping_sub(1);
    bad[510..512].copy_from_slice(&check.to_be_bytes());
    images.push((9, bad));
    let mut bad = good.clone();
    bad[2 + 2 * 5 + 1] = 3; // both flags
    let check = u16::from_be_bytes([bad[510], bad[511]]).wrapping_sub(3);
    bad[510..512].copy_from_slice(&check.to_be_bytes());
    images.push((9, bad));
    for (number, bytes) in images {
        let image = folder.put("image", &bytes);
        let line = format!("answer {number} steps 0 unassigned 0 pc 0000 wp 0000 st 0000 none");
        // No OUT is made, and one that is there stays.
        assert_eq!(replay(&image, &pins, &folder.file("out")), ok(&line));
        assert_eq!(folder.names(), ["image", "pins"]);
        let out = folder.put("old", b"old");
        assert_eq!(replay(&image, &pins, &out), ok(&line));
        assert_eq!(fs::read(&out).unwrap(), b"old");
        fs::remove_file(out).unwrap();
    }
}

#[test]
fn failures_name_the_file() {
    let folder = Folder::new("failures");
    let image = folder.put("image", &image_of(&example()));
    let pins = folder.put("pins", &pins(&[1, QUIET]));
    let out = folder.put("out", b"old");
    let missing = folder.file("missing");
    fs::create_dir(folder.file("folder")).unwrap();
    let below_missing = missing.join("out");
    let cases: [(&Path, &Path, &Path, &Path); 5] = [
        (&missing, &pins, &out, &missing),
        (&image, &missing, &out, &missing),
        (&folder.file("folder"), &pins, &out, &folder.file("folder")),
        (&image, &pins, &below_missing, &below_missing),
        (&image, &pins, &folder.file("folder"), &folder.file("folder")),
    ];
    for (image, pins, out_path, named) in cases {
        let (code, line, error) = replay(image, pins, out_path);
        assert_eq!((code, line.as_str()), (Some(1), ""));
        assert!(error.contains(named.to_str().unwrap()), "{error}");
        assert_eq!(fs::read(&out).unwrap(), b"old");
        assert_eq!(folder.names(), ["folder", "image", "out", "pins"]);
    }
}

#[test]
fn wrong_arguments() {
    let none: [&Path; 0] = [];
    let cases: [&[&Path]; 5] = [
        &none,
        &[Path::new("replay")],
        &[Path::new("replay"), Path::new("a"), Path::new("b")],
        &[
            Path::new("replay"),
            Path::new("a"),
            Path::new("b"),
            Path::new("c"),
            Path::new("d"),
        ],
        &[Path::new("run"), Path::new("a"), Path::new("b"), Path::new("c")],
    ];
    for arguments in cases {
        let output = oracle(arguments);
        assert_eq!(output.status.code(), Some(2));
        assert!(output.stdout.is_empty());
        assert!(String::from_utf8(output.stderr).unwrap().starts_with("usage: "));
    }
}
