//! What the Rust text asks of its base crate: names kept once, and the two hash tables.

use std::ptr;

/// A name that an [`Interner`] keeps.
#[derive(Debug, Clone, Copy, PartialEq, Eq, PartialOrd, Ord, Hash)]
pub struct Symbol(usize);

/// The names in use. There are about a dozen, so a search from the front is quick enough for tests.
#[derive(Debug, Default)]
pub struct Interner {
    names: Vec<String>,
    known: Vec<Known>,
}

/// A name whose two halves are told by where they stand, so that no letter is looked at.
#[derive(Debug)]
struct Known {
    front: &'static str,
    back: &'static str,
    symbol: Symbol,
}

impl Interner {
    pub fn intern(&mut self, text: &str) -> Symbol {
        self.join(text, "")
    }

    /// Has a name resolved beforehand: whoever asks for it by these very halves is told at once.
    pub fn know(&mut self, front: &'static str, back: &'static str) {
        let symbol = self.join(front, back);
        self.known.push(Known { front, back, symbol });
    }

    /// The name that is `front` with `back` behind it.
    pub fn join(&mut self, front: &str, back: &str) -> Symbol {
        let told = |known: &&Known| ptr::eq(known.back, back) && ptr::eq(known.front, front);
        if let Some(known) = self.known.iter().find(told) {
            return known.symbol;
        }
        let same = |name: &String| name.strip_prefix(front) == Some(back);
        if let Some(at) = self.names.iter().position(same) {
            return Symbol(at);
        }
        self.names.push(format!("{front}{back}"));
        Symbol(self.names.len() - 1)
    }

    #[must_use]
    pub fn resolve(&self, symbol: Symbol) -> &str {
        &self.names[symbol.0]
    }
}

pub mod hash {
    pub type Map<K, V> = std::collections::HashMap<K, V>;
    pub type Set<T> = std::collections::HashSet<T>;
}
