//! The examples' listings are judged here, with the Rust text at hand.

use judge::examples::names;
use judge::listing;
use std::fs;

#[test]
fn an_example_is_listed_otherwise_than_by_the_rust() {
    if !oracle::at_hand("the examples' listings") {
        return;
    }
    assert_eq!(names("list"), names("rec"), "each example has its listing and its records");
    for name in names("list") {
        let said = fs::read_to_string(name.with_extension("list")).expect("it can be read");
        let records = fs::read(name.with_extension("rec")).expect("the records can be read");
        assert_eq!(said, listing::printed(&records, oracle::lay), "{name:?}");
    }
}
