//! The C side: the header says the same numbers, structs and functions as this package, and the example prints what stands beside
//! it.

use std::collections::{BTreeMap, BTreeSet};
use std::fmt::Debug;
use std::fs;
use std::path::{Path, PathBuf};
use std::process::{Command, Output};
use std::sync::OnceLock;

use zwailmoor::{Call, Refusal, Reply, ALL_DELIVERED};

const TOP: u64 = 4_294_967_296;

fn root() -> PathBuf {
    Path::new(env!("CARGO_MANIFEST_DIR")).join("..")
}

fn text(file: &str) -> String {
    fs::read_to_string(root().join(file)).unwrap()
}

fn header() -> String {
    text("include/zwailmoor.h")
}

/// Name and value of every constant of the header; its macros with an argument are called by `round_trip.c`.
fn header_constants() -> BTreeMap<String, u64> {
    let header = header();
    let lines = header.lines().filter_map(|line| line.strip_prefix("#define ZWAILMOOR_"));
    let constants = lines
        .filter_map(|line| line.split_once(' '))
        .filter(|(name, _)| !name.contains('('));
    constants.map(|(name, text)| (name.to_string(), value(name, text))).collect()
}

fn value(name: &str, text: &str) -> u64 {
    let text = text.split("/*").next().unwrap_or(text).trim();
    let digits = text
        .trim_start_matches("UINT64_C(")
        .trim_start_matches("UINT32_C(")
        .trim_end_matches(')');
    let value = match digits.strip_prefix("0x") {
        Some(digits) => u64::from_str_radix(digits, 16),
        None => digits.parse(),
    };
    value.unwrap_or_else(|_| panic!("ZWAILMOOR_{name} is {text}"))
}

/// `EndsEarly` as ENDS_EARLY, and `AtOrPast(0)` as AT_OR_PAST.
fn c_name(variant: &dyn Debug) -> String {
    let variant = format!("{variant:?}");
    let mut c_name = String::new();
    for letter in variant.chars().take_while(|letter| letter.is_alphabetic()) {
        if letter.is_uppercase() && !c_name.is_empty() {
            c_name.push('_');
        }
        c_name.push(letter.to_ascii_uppercase());
    }
    c_name
}

/// The header has the package's refusals, codes and replies, the paper's limits, and nothing else.
#[test]
fn constants() {
    let others = [
        ("LISTS", 32),
        ("LIST_NUMBERS", 65_535),
        ("NODES", 48),
        ("DEPTH", 12),
        ("FIRST_BOOKMARK", 0),
        ("TOP_BOOKMARK", TOP),
        ("ALL_DELIVERED", ALL_DELIVERED.into()),
        ("ACCEPTED", 0),
        ("DIFFERENCE", 64),
    ];
    let mut expected: BTreeMap<String, u64> = others.map(|(name, value)| (name.to_string(), value)).into();
    expected.extend(Refusal::ALL.iter().map(|refusal| (c_name(refusal), refusal.number().into())));
    let calls = [Call::Next, Call::AtOrPast(0), Call::Past(0), Call::Check(0)];
    expected.extend(calls.map(|call| (c_name(&call), call.code().into())));
    let replies = (TOP..TOP + 99).map_while(|element| Reply::from_row(element).map(|reply| (c_name(&reply), element)));
    expected.extend(replies);
    assert_eq!(header_constants(), expected);
}

/// The structs of a text with the fields of each, in order: a struct begins at a line with this text and ends at a brace.
fn structs(text: &str, begin: &str, field: fn(&str) -> String) -> BTreeMap<String, Vec<String>> {
    let lines: Vec<&str> = text.lines().collect();
    let bodies = lines.split_inclusive(|line| line.starts_with('}'));
    let one = |body: &[&str]| {
        let at = body.iter().position(|line| line.starts_with(begin))?;
        let name = body[at][begin.len()..].trim_end_matches(" {").replace('_', "").to_lowercase();
        let fields = body[at + 1..body.len() - 1].iter().map(|line| field(line.trim()));
        Some((name, fields.collect()))
    };
    bodies.filter_map(one).collect()
}

/// `uint16_t places[ZWAILMOOR_NODES];` as `places: [u16; 48]`.
fn as_in_rust(field: &str) -> String {
    let (c_type, name) = field.trim_end_matches(';').split_once(' ').unwrap();
    let rust_type = c_type.replace("size_t", "usize").replace("uint", "u").replace("_t", "");
    match name.split_once("[ZWAILMOOR_NODES]") {
        Some((name, _)) => format!("{name}: [{rust_type}; 48]"),
        None => format!("{name}: {rust_type}"),
    }
}

/// The header's structs have the fields of those in `src/ffi.rs`, in the same order and of the same types.
#[test]
fn results() {
    let from_c = structs(&header(), "typedef struct zwailmoor_", as_in_rust);
    let from_rust = structs(&text("rust/src/ffi.rs"), "pub struct ", |field| {
        field.trim_start_matches("pub ").trim_end_matches(',').to_string()
    });
    assert_eq!(from_c, from_rust);
    assert_eq!(
        from_c["boundsresult"],
        ["number: u32", "members: u32", "moves: u32", "bytes: usize"]
    );
}

/// The example's program, built once for all tests here.
fn built_console() -> &'static Path {
    static PROGRAM: OnceLock<PathBuf> = OnceLock::new();
    PROGRAM.get_or_init(|| build("console", "examples/console.c"))
}

fn build(name: &str, source: &str) -> PathBuf {
    let program = Path::new(env!("CARGO_TARGET_TMPDIR")).join(name);
    let built = Command::new("gcc")
        .current_dir(root())
        .args("-std=c99 -Wall -Wextra -pedantic -Werror -O2 -Iinclude".split(' '))
        .args([source, env!("ZWAILMOOR_ARCHIVE"), "-o"])
        .arg(&program)
        .output()
        .expect("gcc runs");
    assert!(built.status.success(), "{}", String::from_utf8_lossy(&built.stderr));
    program
}

/// What the example does with this input, and these arguments behind it.
fn console(program: &Path, name: &str, input: &[u8], change: &[&str]) -> Output {
    let file = Path::new(env!("CARGO_TARGET_TMPDIR")).join(name);
    fs::write(&file, input).unwrap();
    let mut console = Command::new(program);
    console.arg(file).args(change).output().expect("the example runs")
}

/// The functions that a text names ahead of their arguments.
fn functions(text: &str) -> BTreeSet<&str> {
    let letter = |c: char| c.is_ascii_lowercase() || c == '_';
    let ahead = text.match_indices('(').map(|(at, _)| &text[..at]);
    let names = ahead.map(|ahead| &ahead[ahead.trim_end_matches(letter).len()..]);
    names.filter(|name| name.starts_with("zwailmoor_")).collect()
}

/// Each of the header's prototypes is called from C, and is in `src/ffi.rs`.
#[test]
fn round_trip() {
    let header = header();
    let prototypes = functions(&header);
    assert_eq!(prototypes.len(), 11);
    assert_eq!(functions(&text("rust/src/ffi.rs")), prototypes);
    assert_eq!(functions(&text("rust/tests/round_trip.c")), prototypes);
    let program = build("round_trip", "rust/tests/round_trip.c");
    let ended = Command::new(program).status().expect("the program runs");
    assert_eq!(ended.code(), Some(0), "the first requirement that did not hold");
}

#[test]
fn example() {
    let program = built_console();
    let sample = fs::read(root().join("samples/console")).unwrap();
    let printed = console(program, "sample", &sample, &["3", "101"]);
    let expected = text("examples/console.out");
    assert_eq!(String::from_utf8_lossy(&printed.stdout), expected);
    assert_eq!((printed.status.code(), printed.stderr), (Some(0), vec![]));

    // A whole last page: its two members are followed by a page that only says finished.
    let two = [0x01, 0x00, 0x06, 0x00, 0x04, 0x00, 0x00, 0x00, 0x04, 0x00];
    let printed = console(program, "two", &two, &[]);
    let text = String::from_utf8_lossy(&printed.stdout).into_owned();
    assert!(text.contains("at most members 2, moves 2; reserved replies 3\n"), "{text}");
    assert!(
        text.contains("page 1 from bookmark 0: 2 3; go on from bookmark 4\n"),
        "{text}"
    );
    assert!(
        text.contains("page 2 from bookmark 4: finished; go on from bookmark 4294967296\n"),
        "{text}"
    );
    assert!(text.ends_with("members 2\n"), "{text}");

    // Of an empty list only finished can come, and there is one place for it; a number that is added takes it.
    let printed = console(program, "empty", &[0x01, 0x00, 0x06, 0x00, 0x00], &["0", "7"]);
    let text = String::from_utf8_lossy(&printed.stdout).into_owned();
    let expected = "at most members 0, moves 0; reserved replies 1\n\
                    page 1 from bookmark 0: finished; go on from bookmark 4294967296\n\
                    members 0\n\
                    7 added to list 0; members 1: 7\n";
    assert!(text.ends_with(expected), "{text}");
    assert_eq!(printed.status.code(), Some(0));
}

#[test]
fn example_refuses() {
    let program = built_console();
    let inputs: [(&[u8], &str); 9] = [
        (&[], "the input is refused, ZWAILMOOR_ENDS_EARLY"),
        (&[0x01], "the input is refused, ZWAILMOOR_ENDS_EARLY"),
        (&[0x01, 0x00], "the delivery is refused, ZWAILMOOR_ENDS_EARLY"),
        (&[0x01, 0x00, 0x00], "the delivery is refused, ZWAILMOOR_NUMBER_OF_LISTS"),
        (
            &[0x01, 0x02, 0x06, 0x00, 0x00],
            "the expression is refused, ZWAILMOOR_NO_SUCH_LIST",
        ),
        (
            &[0x01, 0x01, 0x06, 0x00, 0x00],
            "the expression is refused, ZWAILMOOR_LEFT_OVER",
        ),
        // The paper's own bytes are the old form's.
        (
            &[0x01, 0x00, 0x04, 0x00, 0x0C, 0x00, 0x00, 0x00, 0x08, 0x08],
            "the delivery is refused, ZWAILMOOR_LEFT_OVER",
        ),
        (&[0x01, 0x00, 0x04], "the expression is refused, ZWAILMOOR_LIST_NOT_DELIVERED"),
        (&[0; 65_536], "has more than 65535 bytes"),
    ];
    for (input, sentence) in inputs {
        let printed = console(program, "refused", input, &[]);
        let said = String::from_utf8_lossy(&printed.stderr).into_owned();
        assert!(said.contains(sentence), "{said}");
        assert_eq!(printed.status.code(), Some(1));
    }
}

/// The list of those withdrawn did not come: it is not taken for an empty one, and nobody is shown.
#[test]
fn example_without_the_withdrawn() {
    let sample = fs::read(root().join("samples/undelivered")).unwrap();
    let printed = console(built_console(), "undelivered", &sample, &[]);
    let expected = text("examples/undelivered.out");
    let both = [printed.stdout, printed.stderr].concat();
    assert_eq!(String::from_utf8_lossy(&both), expected);
    assert_eq!(printed.status.code(), Some(1));
}

#[test]
fn example_refuses_a_change() {
    let program = built_console();
    let sample = fs::read(root().join("samples/console")).unwrap();
    let changes: [(&[&str], &str); 7] = [
        (&["4", "101"], "the change is refused, ZWAILMOOR_NO_SUCH_LIST"),
        (&["3", "104"], "the change is refused, ZWAILMOOR_NO_CHANGE"),
        (&["3", "4294967296"], "4294967296 is no number up to 4294967295"),
        (&["3", "1x"], "1x is no number"),
        (&["-1", "101"], "-1 is no number"),
        (&["", "101"], "is no number"),
        (&["3"], "FILE LIST NUMBER"),
    ];
    for (change, sentence) in changes {
        let printed = console(program, "unchanged", &sample, change);
        let said = String::from_utf8_lossy(&printed.stderr).into_owned();
        assert!(said.contains(sentence), "{said}");
        assert_eq!(printed.status.code(), Some(1));
    }
}
