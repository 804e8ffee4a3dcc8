//! An image as document 01 lays it out in a file: counts, ends, tree words, erased numbers, string bytes.

/// The sizes that document 01 allows.
pub const MAX_WORDS: usize = 8_192;
pub const MAX_STRINGS: usize = 1_024;
pub const MAX_BYTES: usize = 16_384;
pub const MAX_ERASED: usize = 1_024;
/// The deepest statement or expression.
pub const MAX_DEPTH: u32 = 100;
/// What the listing program lends.
pub const MAX_ROWS: usize = 2_048;
pub const MAX_DIAGNOSTICS: usize = 2_048;
/// The most words that the kept fields of a TYPE may take.
pub const MAX_TYPE_WORDS: i64 = 65_535;

/// Why a call stopped: document 01's number and place.
#[derive(Debug, Clone, Copy, PartialEq, Eq)]
pub struct Refusal {
    pub number: u32,
    pub place: u32,
}

impl Refusal {
    pub fn new(number: u32, place: usize) -> Refusal {
        Refusal {
            number,
            place: place as u32,
        }
    }
}

/// An image taken apart, not yet tested beyond its sizes.
#[derive(Debug, Clone, PartialEq, Eq, Default)]
pub struct Raw {
    pub ends: Vec<u32>,
    pub tree: Vec<u32>,
    pub erased: Vec<u32>,
    pub bytes: Vec<u8>,
}

/// The string table, tested: each string, and whether it is a name.
#[derive(Debug, Clone, Default)]
pub struct Strings<'a> {
    pub all: Vec<&'a str>,
    pub is_name: Vec<bool>,
}

fn word(bytes: &[u8], at: usize) -> u32 {
    u32::from_le_bytes([bytes[at], bytes[at + 1], bytes[at + 2], bytes[at + 3]])
}

impl Raw {
    /// Take a file apart. Malformed or oversized is number 5.
    pub fn from_bytes(file: &[u8]) -> Result<Raw, Refusal> {
        let refused = Err(Refusal::new(5, 0));
        if file.len() < 12 || !file.len().is_multiple_of(4) {
            return refused;
        }
        let [strings, words, erased] = [0, 4, 8].map(|at| word(file, at) as usize);
        if strings > MAX_STRINGS || words > MAX_WORDS || erased > MAX_ERASED {
            return refused;
        }
        let text = 12 + 4 * (strings + words + erased);
        if file.len() < text {
            return refused;
        }
        let run = |from: usize, count: usize| -> Vec<u32> {
            (0..count).map(|i| word(file, from + 4 * i)).collect()
        };
        let ends = run(12, strings);
        let byte_count = ends.last().copied().unwrap_or(0) as usize;
        if byte_count > MAX_BYTES || file.len() != text + byte_count.div_ceil(4) * 4 {
            return refused;
        }
        if file[text + byte_count..].iter().any(|b| *b != 0) {
            return refused;
        }
        Ok(Raw {
            tree: run(12 + 4 * strings, words),
            erased: run(12 + 4 * (strings + words), erased),
            bytes: file[text..text + byte_count].to_vec(),
            ends,
        })
    }

    /// The file. Nothing is tested: damaged images are written too.
    pub fn to_bytes(&self) -> Vec<u8> {
        let counts = [self.ends.len(), self.tree.len(), self.erased.len()].map(|n| n as u32);
        let words = counts.iter().chain(&self.ends).chain(&self.tree);
        let mut file: Vec<u8> = words
            .chain(&self.erased)
            .flat_map(|w| w.to_le_bytes())
            .collect();
        file.extend_from_slice(&self.bytes);
        file.resize(file.len().div_ceil(4) * 4, 0);
        file
    }

    /// Lay strings out in the order given.
    pub fn set_strings<S: AsRef<[u8]>>(&mut self, strings: &[S]) {
        self.bytes.clear();
        self.ends.clear();
        for s in strings {
            self.bytes.extend_from_slice(s.as_ref());
            self.ends.push(self.bytes.len() as u32);
        }
    }

    /// The string table under its rule; number 1 and the first string that breaks it.
    pub fn strings(&self) -> Result<Strings<'_>, Refusal> {
        let mut table = Strings::default();
        let mut from = 0;
        for (i, end) in self.ends.iter().enumerate() {
            let broken = Err(Refusal::new(1, i));
            let end = *end as usize;
            if end < from || end > self.bytes.len() {
                return broken;
            }
            let bytes = &self.bytes[from..end];
            if !bytes.iter().all(|b| (32..=126).contains(b)) {
                return broken;
            }
            let s = std::str::from_utf8(bytes).expect("ASCII");
            // `str` compares as its bytes do.
            if table.all.last().is_some_and(|before| *before >= s) {
                return broken;
            }
            table.is_name.push(is_name(s));
            table.all.push(s);
            from = end;
        }
        if from != self.bytes.len() {
            return Err(Refusal::new(1, self.ends.len().saturating_sub(1)));
        }
        Ok(table)
    }

    /// The erased names; number 4 where they don't rise or one is no name.
    pub fn erased_names<'a>(&self, strings: &Strings<'a>) -> Result<Vec<&'a str>, Refusal> {
        let rising = self.erased.windows(2).all(|w| w[0] < w[1]);
        let name = |n: &u32| {
            let is_name = strings.is_name.get(*n as usize).copied().unwrap_or(false);
            is_name.then(|| strings.all[*n as usize])
        };
        let names: Option<Vec<&str>> = self.erased.iter().map(name).collect();
        match names {
            Some(names) if rising => Ok(names),
            _ => Err(Refusal::new(4, 0)),
        }
    }
}

/// 1 to 40 bytes: a capital, then capitals, digits or dots, then at most one of `% & ! # $`.
pub fn is_name(s: &str) -> bool {
    let stem = s.strip_suffix(['%', '&', '!', '#', '$']).unwrap_or(s);
    let mut rest = stem.bytes();
    s.len() <= 40
        && rest.next().is_some_and(|b| b.is_ascii_uppercase())
        && rest.all(|b| b.is_ascii_uppercase() || b.is_ascii_digit() || b == b'.')
}
