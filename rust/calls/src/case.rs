//! A case: an entry, and all that is lent to it.

use image::raw::Raw;

/// The public entries, under the numbers by which `crates/test_calls` knows them.
#[derive(Debug, Clone, Copy, PartialEq, Eq)]
pub enum Entry {
    ReadStatement,
    ReadExpression,
    /// `Reader::statement`
    Statement,
    /// `Reader::expression`
    Expression,
    Accept,
    PastStatement,
    PastExpression,
    Shares,
    IsStatic,
    TypeWords,
    TypedVar,
    TypedVarIn,
    LookupArray,
    DeclaredType,
    Builtin,
    ConstEval,
    SubscriptCount,
    CheckNameCollisions,
    Collect,
    ResolveExpr,
    ResolveArgs,
    ResolveArrayAccesses,
    Analyse,
}

/// What a call is given. Numbers that its entry doesn't take are 0.
#[derive(Debug, Clone)]
pub struct Case {
    pub label: String,
    pub entry: Entry,
    pub numbers: [u32; 3],
    pub raw: Raw,
    pub rows: Vec<u32>,
    pub notes: Vec<u32>,
    pub out: Vec<u32>,
}

fn put(to: &mut Vec<u8>, words: &[u32]) {
    to.extend((words.len() as u32).to_le_bytes());
    to.extend(words.iter().flat_map(|w| w.to_le_bytes()));
}

impl Case {
    pub fn new(label: impl Into<String>, entry: Entry, numbers: &[u32], raw: &Raw) -> Case {
        let mut three = [0; 3];
        three[..numbers.len()].copy_from_slice(numbers);
        Case {
            label: label.into(),
            entry,
            numbers: three,
            raw: raw.clone(),
            rows: Vec::new(),
            notes: Vec::new(),
            out: Vec::new(),
        }
    }

    /// As `crates/test_calls` reads it.
    pub fn to_bytes(&self) -> Vec<u8> {
        let mut to = Vec::new();
        to.extend((self.label.len() as u32).to_le_bytes());
        to.extend(self.label.as_bytes());
        to.extend((self.entry as u32).to_le_bytes());
        to.extend(self.numbers.iter().flat_map(|w| w.to_le_bytes()));
        to.extend((self.raw.bytes.len() as u32).to_le_bytes());
        to.extend(&self.raw.bytes);
        for words in [
            &self.raw.ends,
            &self.raw.tree,
            &self.raw.erased,
            &self.rows,
            &self.notes,
            &self.out,
        ] {
            put(&mut to, words);
        }
        to
    }
}
