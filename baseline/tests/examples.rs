//! Each trace of `examples/` gives the listing beside it.

use baseline::listing::listing;
use std::fs;
use std::path::Path;

/// The bytes of hex text, where `#` starts a comment.
fn bytes_of(text: &str) -> Vec<u8> {
    let digits: Vec<u8> = text
        .lines()
        .flat_map(|line| line.split('#').next().unwrap_or("").chars())
        .filter(|c| !c.is_whitespace())
        .map(|c| c.to_digit(16).expect("a hex digit") as u8)
        .collect();
    assert_eq!(digits.len() % 2, 0, "whole bytes");
    digits.chunks(2).map(|pair| pair[0] * 16 + pair[1]).collect()
}

#[test]
fn the_examples_give_their_listings() {
    let folder = Path::new(env!("CARGO_MANIFEST_DIR")).join("../examples");
    let mut compared = 0;
    for entry in fs::read_dir(folder).expect("the folder examples") {
        let path = entry.unwrap().path();
        if path.extension().is_some_and(|extension| extension == "hex") {
            let trace = bytes_of(&fs::read_to_string(&path).unwrap());
            let expected = fs::read_to_string(path.with_extension("listing")).expect("a listing beside the trace");
            assert_eq!(String::from_utf8(listing::<true>(&trace)).unwrap(), expected, "{}", path.display());
            compared += 1;
        }
    }
    assert_eq!(compared, 8);
}
