//! Local names of the rdf namespace, and whether each is a container property's: those of docs/REFERENCE.md, 11.2.

macro_rules! hundred_zeros {
    () => {
        concat!("00000000000000000000000000000000000000000000000000", "00000000000000000000000000000000000000000000000000")
    };
}

pub const NAMES: &[(&str, bool)] = &[
    // No digit left after leading zeros.
    ("_", false),
    ("_0", false),
    ("_00", false),
    ("_000", false),
    (concat!("_", hundred_zeros!()), false),
    // 1 to 19.
    ("_1", true),
    ("_01", true),
    ("_9999999999999999999", true),
    (concat!("_", hundred_zeros!(), "9999999999999999999"), true),
    // 20, not above the largest number.
    ("_10000000000000000000", true),
    ("_18446744073709551614", true),
    ("_18446744073709551615", true),
    ("_00018446744073709551615", true),
    (concat!("_", hundred_zeros!(), "18446744073709551615"), true),
    // 20, above it.
    ("_18446744073709551616", false),
    (concat!("_", hundred_zeros!(), "18446744073709551616"), false),
    ("_20000000000000000000", false),
    ("_99999999999999999999", false),
    // One digit other than the largest number's: the first, one in the middle, the last but one.
    ("_08446744073709551615", true),
    ("_28446744073709551615", false),
    ("_18446744063709551615", true),
    ("_18446744083709551615", false),
    ("_18446744073709551605", true),
    ("_18446744073709551625", false),
    // The first digit that differs decides, whatever follows it.
    ("_18446744073709551599", true),
    ("_18446744073709551620", false),
    // Over 20.
    ("_100000000000000000000", false),
    ("_184467440737095516150", false),
    // Bytes that are no digits: a letter at each end, a sign, a full-width digit, one behind the 20th digit.
    ("_1a", false),
    ("_a1", false),
    ("_+1", false),
    ("_-1", false),
    ("_\u{ff11}", false),
    ("_18446744073709551615a", false),
    // No `_`.
    ("", false),
    ("1", false),
    ("li", false),
];
