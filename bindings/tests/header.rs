//! The numbers of this crate beside those of include/sqimrutta.h, which it is written after: a row that the header gets is missed here.

use sqimrutta::{Refusal, BLOCK, CONTEXT, IMAGE, REPLY, TABLE, VALUE};
use std::collections::BTreeMap;

/// Every `SQIMRUTTA_NAME = NUMBER` of the header; a number may be a product, as in `67 * 512`.
fn header() -> BTreeMap<String, usize> {
    let path = concat!(env!("CARGO_MANIFEST_DIR"), "/../include/sqimrutta.h");
    let text = std::fs::read_to_string(path).expect("the header is there");
    let constant = |line: &str| {
        let (name, rest) = line.trim().strip_prefix("SQIMRUTTA_")?.split_once(" = ")?;
        let number = rest.split([',', '/']).next()?;
        let factors: Option<Vec<usize>> = number.split('*').map(|factor| factor.trim().parse().ok()).collect();
        Some((name.to_string(), factors?.into_iter().product()))
    };
    text.lines().filter_map(constant).collect()
}

/// `WrongLength` as `WRONG_LENGTH`.
fn in_capitals(name: &str) -> String {
    let mut capitals = String::new();
    for letter in name.chars() {
        if letter.is_uppercase() && !capitals.is_empty() {
            capitals.push('_');
        }
        capitals.push(letter.to_ascii_uppercase());
    }
    capitals
}

#[test]
fn lengths_and_refusals_are_the_headers() {
    let lengths = [
        ("BLOCK", BLOCK),
        ("IMAGE", IMAGE),
        ("REPLY", REPLY),
        ("TABLE", TABLE),
        ("CONTEXT", CONTEXT),
        ("VALUE", VALUE),
        ("ACCEPTED", 0),
    ];
    let mut here: BTreeMap<String, usize> =
        lengths.into_iter().map(|(name, number)| (name.to_string(), number)).collect();
    here.extend(Refusal::ALL.map(|refusal| (in_capitals(&format!("{refusal:?}")), refusal.number() as usize)));
    assert_eq!(here, header());
}
