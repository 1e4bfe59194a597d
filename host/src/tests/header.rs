//! The layout of this crate against the header.

use std::collections::BTreeMap;

use crate::layout as l;

const HEADER: &str = include_str!("../../../include/fiber_settlement.h");

/// The header's `#define`s, without the prefix of their names: what stands behind the name, up to a comment.
fn defines() -> Vec<(&'static str, &'static str)> {
    HEADER
        .lines()
        .filter_map(|line| line.strip_prefix("#define FIBER_"))
        .map(|line| line.strip_prefix("SETTLEMENT_").unwrap_or(line))
        .map(|line| line.split("/*").next().expect("a front").trim())
        .map(|line| match line.find(") ") {
            // A macro with parameters, which its name has with it.
            Some(end) if line.find('(') < line.find(' ') => line.split_at(end + 1),
            _ => line.split_at(line.find(' ').unwrap_or(line.len())),
        })
        .map(|(name, value)| (name, value.trim()))
        .collect()
}

fn number(text: &str) -> u64 {
    match text.strip_prefix("0x") {
        Some(digits) => u64::from_str_radix(digits, 16).expect("hex"),
        None => text.parse().expect("a number"),
    }
}

#[test]
fn every_number_of_the_header_is_ours() {
    let guard = ("H", "");
    let (macros, numbers): (Vec<_>, Vec<_>) =
        defines().into_iter().filter(|define| *define != guard).partition(|(name, _)| name.contains('('));
    let header: BTreeMap<&str, u64> = numbers.iter().map(|(name, value)| (*name, number(value))).collect();
    let ours: BTreeMap<&str, u64> = l::TABLE.iter().copied().collect();
    assert_eq!(header.len(), numbers.len(), "a name stands twice in the header");
    assert_eq!(ours.len(), l::TABLE.len(), "a name stands twice in layout.rs");
    assert_eq!(header, ours);
    assert!(ours.len() > 100, "{} numbers", ours.len());

    // Those with parameters, built from our numbers.
    let (record, tracked, state) = (l::RECORD_FIXED, l::TRACKED_FIXED, l::STATE_FIXED);
    let ours = [
        ("RECORD(h)", format!("({record} + (h))")),
        ("STATE(h, n)", format!("({state} + (n) * ({record} + (h)))")),
        ("TRACKED(h)", format!("({tracked} + (h))")),
    ];
    assert_eq!(
        macros.into_iter().collect::<BTreeMap<_, _>>(),
        ours.iter().map(|(n, v)| (*n, v.as_str())).collect()
    );
}

#[test]
fn every_function_of_the_header_is_bound() {
    let bound = include_str!("../c.rs");
    let declared: Vec<&str> = HEADER
        .split(';')
        .filter_map(|text| text.rsplit('\n').find(|line| line.contains(" fiber_")))
        .filter(|line| line.starts_with("uint64_t fiber_") || line.starts_with("void fiber_"))
        .filter_map(|line| line.split(' ').nth(1)?.split('(').next())
        .collect();
    assert!(declared.len() >= 14, "{declared:?}");
    for name in declared {
        assert!(bound.contains(&format!("pub fn {name}(")), "{name}");
    }
}
