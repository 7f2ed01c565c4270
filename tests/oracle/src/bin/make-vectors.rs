//! Writes the stored vectors anew, and each example's records and listing by its words. It needs the
//! Rust text.

use judge::{examples, listing, words};
use oracle::vectors;
use std::fs;
use std::io::{Error, Result};

fn main() -> Result<()> {
    for (name, text) in vectors::made() {
        fs::write(vectors::folder().join(name), text)?;
    }
    for name in examples::names("txt") {
        let text = fs::read_to_string(name.with_extension("txt"))?;
        let records = words::read(&text).map_err(Error::other)?.bytes();
        fs::write(name.with_extension("list"), listing::printed(&records, oracle::lay))?;
        fs::write(name.with_extension("rec"), records)?;
    }
    Ok(())
}
