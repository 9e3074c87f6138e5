//! The crate against `vibetorch.h`: what stands in both must be the same. The structs' layout is asserted in `raw`
//! itself.

use vibetorch::*;

const HEADER: &str = include_str!("../../include/vibetorch.h");

/// What a name of the header stands for.
fn defined(name: &str) -> &'static str {
    let line = HEADER.lines().find_map(|line| line.strip_prefix(&format!("#define {name} ")));
    let line = line.unwrap_or_else(|| panic!("the header has no {name}"));
    line.split("/*").next().unwrap_or(line).trim()
}

#[test]
fn sizes_are_the_headers() {
    let sizes = [
        ("VT_SLOT", SLOT),
        ("VT_SLOTS_LEAST", SLOTS_LEAST),
        ("VT_SLOTS_MOST", SLOTS_MOST),
        ("VT_WRITES", WRITES),
        ("VT_PINS", PINS),
        ("VT_WRITE_MOST", WRITE_MOST),
        ("VT_FILL_MOST", FILL_MOST),
        ("VT_FILE_END", FILE_END as usize),
        ("VT_BATCH", BATCH),
    ];
    for (name, size) in sizes {
        assert_eq!(defined(name), size.to_string(), "{name}");
    }
    assert_eq!(defined("VT_SHEET_MOST"), "(8 + VT_BATCH * (8 + VT_WRITE_MOST))");
    assert_eq!(SHEET_MOST, 131_336);
    assert_eq!(defined("VT_RING_BYTES(slots)"), "(16 + VT_SLOT * (slots))");
    assert_eq!((ring_bytes(18), ring_bytes(255)), (4624, 65_296));
}

#[test]
fn refusals_are_the_headers() {
    let (_, listed) = HEADER.split_once("enum vt_refusal {").expect("the header lists refusals");
    let (listed, _) = listed.split_once("};").expect("the list ends");
    let names: Vec<(String, u32)> = listed
        .lines()
        .filter_map(|line| line.trim().split_once(" = "))
        .map(|(name, rest)| {
            let digits: String = rest.chars().take_while(char::is_ascii_digit).collect();
            (name.to_string(), digits.parse().unwrap())
        })
        .collect();
    assert_eq!(names[0], ("VT_OK".to_string(), 0));
    assert_eq!(names.len(), 13);
    for (refused, (name, number)) in Refused::ALL.into_iter().zip(&names[1..]) {
        assert_eq!(refused.number(), *number);
        // NodeZero is VT_NODE_ZERO
        let squeezed = name.trim_start_matches("VT_").replace('_', "").to_lowercase();
        assert_eq!(format!("{refused:?}").to_lowercase(), squeezed);
        assert_eq!(Refused::from_number(*number), Some(refused));
    }
    assert_eq!((Refused::from_number(0), Refused::from_number(13)), (None, None));
}
