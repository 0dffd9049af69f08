//! The crate and include/sirqobal.h say the same: the texts of the refusals, and the constants.

use sirqobal::lent::{LIST, QUESTION, RECORDS, STAMPS};
use sirqobal::{Refusal, ANY, CHUNK, NEVER};

const HEADER: &str = include_str!("../../../include/sirqobal.h");

/// The number that an enumerator has there: the first `NAME = NUMBER`.
fn number_of(name: &str) -> u32 {
    let start = HEADER.find(&format!("    {name} = ")).expect(name) + name.len() + 7;
    let digits = HEADER[start..].split(|c: char| !c.is_ascii_digit()).next();
    digits.unwrap().parse().expect(name)
}

/// The number in a line `#define NAME UINT64_C(NUMBER)`.
fn constant(name: &str) -> u64 {
    let line = HEADER
        .lines()
        .find(|line| line.starts_with(&format!("#define {name} ")));
    let (_, rest) = line.expect(name).split_once("UINT64_C(").expect(name);
    rest.split(')').next().unwrap().parse().expect(name)
}

#[test]
fn each_refusal_has_the_same_text() {
    let cases = HEADER
        .lines()
        .filter_map(|line| line.trim().strip_prefix("case "));
    let mut seen = 0;
    for case in cases {
        let (name, text) = case.split_once(": return \"").expect(case);
        let text = text.strip_suffix("\";").expect(case);
        if name == "SIRQOBAL_GRANTED" || name == "SIRQOBAL_QUESTION" {
            continue;
        }
        let number = number_of(name);
        let refusal = Refusal::from_number(number).expect(name);
        assert_eq!(refusal.to_string(), format!("{text} (refusal {number})"));
        seen += 1;
    }
    assert_eq!(seen, Refusal::ALL.len());
}

#[test]
fn the_constants_are_the_same() {
    assert_eq!(constant("SIRQOBAL_CHUNK"), CHUNK);
    assert_eq!(constant("SIRQOBAL_RECORDS"), RECORDS as u64);
    assert_eq!(constant("SIRQOBAL_STAMPS"), STAMPS as u64);
    assert_eq!(constant("SIRQOBAL_LIST"), LIST as u64);
    assert!(HEADER.contains(&format!("#define SIRQOBAL_QUESTION {QUESTION}\n")));
    assert!(HEADER.contains(&format!("#define SIRQOBAL_ANY ({ANY})\n")));
    assert!(HEADER.contains(&format!("#define SIRQOBAL_NEVER ({NEVER})\n")));
    let version = env!("CARGO_PKG_VERSION");
    assert!(HEADER.contains(&format!("#define SIRQOBAL_VERSION \"{version}\"\n")));
}
