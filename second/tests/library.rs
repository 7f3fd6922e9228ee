//! The library under test says the version that its header has.

use second as _; // links the library
use std::fs::read_to_string;

extern "C" {
    fn tds_version() -> u64;
}

/// The three numbers of `#define TDS_VERSION (65536 * a + 256 * b + c)`.
fn of_header() -> Vec<u64> {
    let header = concat!(env!("CARGO_MANIFEST_DIR"), "/../include/tds.h");
    let text = read_to_string(header).unwrap();
    let line = text
        .lines()
        .find(|line| line.starts_with("#define TDS_VERSION "));
    let words = line.unwrap().split(|sign: char| !sign.is_ascii_digit());
    let numbers: Vec<u64> = words.filter_map(|word| word.parse().ok()).collect();
    assert_eq!([numbers[0], numbers[2]], [65_536, 256]);
    vec![numbers[1], numbers[3], numbers[4]]
}

#[test]
fn the_version_is_that_of_the_header() {
    let version = unsafe { tds_version() };
    let told = [version >> 16, version >> 8 & 255, version & 255];
    assert_eq!(told[..], of_header());
}

/// The newest entry of the changelog begins with it too.
#[test]
fn the_version_is_that_of_the_changelog() {
    let changelog = concat!(env!("CARGO_MANIFEST_DIR"), "/../CHANGELOG.md");
    let text = read_to_string(changelog).unwrap();
    let newest = text.lines().find(|line| line.starts_with("## ")).unwrap();
    let [major, minor, patch] = of_header()[..] else {
        panic!("three numbers");
    };
    assert!(
        newest.contains(&format!("{major}.{minor}.{patch}")),
        "{newest}"
    );
}
