//! The specification's example and bytes in hexadecimal, for the tests of both directions.

/// The text of the example (docs/SPECIFICATION.md, "The example"): book Q and one comparison.
pub const EXAMPLE: &str = "letters 4\nabdc = cadb\ncompare abdc cadb 100\n";

/// The bytes of the example's three records, as the specification writes them.
pub const HEAD: &str = "01 00 01 00 04";
pub const RULE: &str = "0A 00 02 00 04 04 00 01 03 02 02 00 03 01";
pub const COMPARISON: &str = "10 00 03 00 64 00 00 00 04 00 04 00 00 01 03 02 02 00 03 01";

/// The bytes that pairs of hexadecimal digits with blanks between them say.
pub fn hex(digits: &str) -> Vec<u8> {
    digits.split_whitespace().map(|byte| u8::from_str_radix(byte, 16).expect("two hexadecimal digits")).collect()
}

/// The bytes of records in hexadecimal, one behind the other.
pub fn records(records: &[&str]) -> Vec<u8> {
    records.iter().flat_map(|record| hex(record)).collect()
}
