//! The constants and numbers of the crate are those of the C header, and the version is that of the
//! archive, of the header and of the crate.

use placelist::*;
use std::collections::BTreeMap;

const HEADER: &str = include_str!("../../placelist.h");

/// Macros that Rust has no use for: the guard of the header, the version as an expression, the
/// index of what is nowhere, and the room for a refusal in words.
const ONLY_IN_C: [&str; 4] = ["H", "VERSION", "NONE", "EXPLAIN_BYTES"];

type Named = BTreeMap<String, u64>;

/// Constants by their names.
macro_rules! constants {
    ($($name:ident)*) => {
        Named::from([$((stringify!($name).to_string(), $name as u64)),*])
    };
}

/// The macros of the header that have a place in Rust, without their prefix.
fn macros() -> Named {
    let named = |line: &str| {
        let rest = line.strip_prefix("#define PLACELIST_")?;
        let (name, value) = rest.split_once(' ').unwrap_or((rest, ""));
        let number = value.split(' ').next()?.parse();
        let used = !ONLY_IN_C.contains(&name);
        used.then(|| (name.to_string(), number.expect(line)))
    };
    HEADER.lines().filter_map(named).collect()
}

/// The enumerators of an enum of the header, without their prefix.
fn enumerators(name: &str) -> Named {
    let start = format!("enum placelist_{name} {{\n");
    let (_, rest) = HEADER.split_once(&start).expect(name);
    let (body, _) = rest.split_once("};").unwrap();
    let numbered = |line: &str| {
        let (name, rest) = line.trim().split_once(" = ").unwrap();
        let number = rest.split([',', ' ']).next().unwrap();
        let name = name.strip_prefix("PLACELIST_").unwrap().to_string();
        (name, number.parse().unwrap())
    };
    body.lines().map(numbered).collect()
}

/// A name of Rust as C writes it: `ListFull` is `LIST_FULL`.
fn in_capitals(name: &str) -> String {
    let mut capitals = String::new();
    for letter in name.chars() {
        if letter.is_uppercase() && !capitals.is_empty() {
            capitals.push('_');
        }
        capitals.push(letter.to_ascii_uppercase());
    }
    capitals
}

/// Variants of an enum by their names in C.
fn variants(numbered: impl IntoIterator<Item = (String, u8)>) -> Named {
    let named = |(name, number): (String, u8)| (in_capitals(&name), number.into());
    numbered.into_iter().map(named).collect()
}

#[test]
fn constants() {
    let mut expected = macros();
    expected.retain(|name, _| !name.starts_with("VERSION_"));
    let constants = constants! {
        LEAST_ACTIVITIES MOST_ACTIVITIES MOST_THRESHOLD
        MOST_FRAMES MOST_FRAME_ACTIVITIES MOST_FRAME_BYTES MOST_LOG_BYTES LINE_BYTES
        MOST_INPUT MOST_OUTPUT PROGRAM_REJECTED PROGRAM_FOUND PROGRAM_BUDGET MOST_STACK
    };
    assert_eq!(constants, expected);
}

#[test]
fn refusals() {
    let mut expected = enumerators("refusal");
    assert_eq!(expected.remove("NOT_REFUSED"), Some(0));
    assert!(RefusalKind::ALL.is_sorted_by(|left, right| (*left as u8) < *right as u8));
    let kinds = RefusalKind::ALL
        .iter()
        .map(|kind| (format!("{kind:?}"), *kind as u8));
    assert_eq!(variants(kinds), expected);
}

#[test]
fn verdicts_and_ends() {
    use Verdict::*;
    let verdicts = [Fitting, Underfed, Overfed, Both].map(|it| (format!("{it:?}"), it as u8));
    assert_eq!(variants(verdicts), enumerators("verdict"));
    let ends = [End::Complete, End::BudgetSpent, End::ListFull];
    let ends = ends.map(|end| (format!("{end:?}"), end as u8));
    assert_eq!(variants(ends), enumerators("end"));
}

/// An entry of a summary has its words at the indices of the header.
#[test]
fn entries() {
    let Variant {
        first_line,
        frames,
        cases,
    } = Variant::from_entries(&[0, 1, 2]).next().unwrap();
    let expected = [
        ("VARIANT_FIRST_LINE", first_line),
        ("VARIANT_FRAMES", frames),
        ("VARIANT_CASES", cases),
        ("VARIANT_LENGTH", VARIANT_LENGTH as u64),
    ];
    let expected = expected.map(|(name, number)| (name.to_string(), number));
    assert_eq!(enumerators("variant_index"), Named::from(expected));
}

#[test]
fn one_version() {
    let Version {
        major,
        minor,
        patch,
    } = version();
    assert_eq!(major.to_string(), env!("CARGO_PKG_VERSION_MAJOR"));
    assert_eq!(minor.to_string(), env!("CARGO_PKG_VERSION_MINOR"));
    assert_eq!(patch.to_string(), env!("CARGO_PKG_VERSION_PATCH"));
    assert_eq!(version().to_string(), env!("CARGO_PKG_VERSION"));
    let macros = macros();
    assert_eq!(macros["VERSION_MAJOR"], major.into());
    assert_eq!(macros["VERSION_MINOR"], minor.into());
    assert_eq!(macros["VERSION_PATCH"], patch.into());
}
