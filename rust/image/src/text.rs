//! A form of an image that a person can read and write.
//!
//! ```text
//! ; DIM A(5), then X = (A(2))
//! (program
//!   (Dim line=1 decls=[{name=A dimensions=[5]}])
//!   (Let line=2 name=X value=(Paren (FnCall name=A args=[2]))))
//! ```
//!
//! Variants and fields have their names of `parser.rs`. Named fields stand in any order, and one may be left out where it is
//! absent, an empty list, `no` or, for a line, 0; a line comes first. `-` is an absent option, `[ ]` a list, `{ }` a struct. An expression may be a bare name for a variable, or a
//! literal: `5` Integer, `5&` Long, `1.5!` Single, `1.5` Float, `"text"` String. Strings are numbered in byte order;
//! `(strings "A")` adds some that nothing mentions, `(erased A)` lists the erased names.
//!
//! What no program has is written with its words in hexadecimal, `(raw ends=[1] tree=[01000000] erased=[] bytes="A")`, or
//! with its bytes, `(file 00 01)`.

use crate::raw::Raw;
use crate::schema::{self, Field, Heads, Sort, Variant};
use std::fmt::Write;

// Printing

/// The text of a file's bytes, in the most readable form that has all of it.
pub fn print(file: &[u8]) -> String {
    match Raw::from_bytes(file) {
        Ok(raw) => print_image(&raw),
        Err(_) => {
            let bytes: String = file.iter().map(|b| format!(" {b:02x}")).collect();
            format!("; refused with 5\n(file{bytes})\n")
        }
    }
}

/// The text of an image.
pub fn print_image(raw: &Raw) -> String {
    match crate::read(raw) {
        Ok(_) => print_program(raw),
        Err(refusal) => {
            let note = format!(
                "; refused with {}, place {}\n",
                refusal.number, refusal.place
            );
            note + &print_raw(raw)
        }
    }
}

fn print_raw(raw: &Raw) -> String {
    let plain = |numbers: &[u32]| format!("{numbers:?}").replace(',', "");
    let mut out = format!("(raw\n  ends={}\n  tree=[", plain(&raw.ends));
    for (i, w) in raw.tree.iter().enumerate() {
        let gap = if i % 12 == 0 { "\n    " } else { " " };
        write!(out, "{gap}{w:08x}").expect("a String takes all");
    }
    write!(out, "]\n  erased={}\n  bytes=", plain(&raw.erased)).expect("a String takes all");
    quote(&mut out, &raw.bytes);
    out + ")\n"
}

fn quote(out: &mut String, bytes: &[u8]) {
    out.push('"');
    for b in bytes {
        match b {
            b'"' | b'\\' => out.extend(['\\', char::from(*b)]),
            32..=126 => out.push(char::from(*b)),
            _ => write!(out, "\\x{b:02x}").expect("a String takes all"),
        }
    }
    out.push('"');
}

fn print_program(raw: &Raw) -> String {
    let strings = raw.strings().expect("read before").all;
    let mut printer = Printer {
        words: raw.tree.iter().copied(),
        used: vec![false; strings.len()],
        strings,
        out: String::from("(program"),
        indent: 1,
    };
    let count = printer.payload();
    for _ in 0..count {
        printer.line();
        printer.value(&Sort::Stmt);
    }
    printer.out.push_str(")\n");
    let mut head = String::new();
    for n in &raw.erased {
        printer.used[*n as usize] = true;
    }
    let unused: Vec<&str> = printer.unused().collect();
    if !unused.is_empty() {
        head.push_str("(strings");
        for s in unused {
            head.push(' ');
            quote(&mut head, s.as_bytes());
        }
        head.push_str(")\n");
    }
    if !raw.erased.is_empty() {
        head.push_str("(erased");
        for n in &raw.erased {
            head.push(' ');
            head.push_str(printer.strings[*n as usize]);
        }
        head.push_str(")\n");
    }
    head + &printer.out
}

struct Printer<'a, W> {
    words: W,
    strings: Vec<&'a str>,
    used: Vec<bool>,
    out: String,
    indent: usize,
}

impl<'a, W: Iterator<Item = u32> + Clone> Printer<'a, W> {
    fn word(&mut self) -> u32 {
        self.words.next().expect("read before")
    }

    fn payload(&mut self) -> u32 {
        self.word() & 0x00ff_ffff
    }

    fn peek(&self) -> u32 {
        self.words.clone().next().expect("read before")
    }

    fn string(&mut self) -> &'a str {
        let n = self.payload() as usize;
        self.used[n] = true;
        self.strings[n]
    }

    fn unused(&self) -> impl Iterator<Item = &'a str> {
        let pairs = self.strings.iter().zip(&self.used);
        pairs.filter(|(_, used)| !**used).map(|(s, _)| *s)
    }

    fn line(&mut self) {
        self.out.push('\n');
        self.out.extend(std::iter::repeat_n("  ", self.indent));
    }

    fn show(&mut self, what: impl std::fmt::Display) {
        write!(self.out, "{what}").expect("a String takes all");
    }

    fn value(&mut self, sort: &Sort) {
        match sort {
            Sort::Name => {
                let s = self.string();
                self.show(s);
            }
            Sort::Text => {
                let s = self.string();
                quote(&mut self.out, s.as_bytes());
            }
            Sort::Integer => {
                let n = self.payload();
                self.show(n);
            }
            Sort::Flag => {
                let yes = self.payload() == 1;
                self.show(if yes { "yes" } else { "no" });
            }
            Sort::Letter => {
                let c = char::from(self.payload() as u8);
                self.show(c);
            }
            Sort::Whole => {
                let n = self.word() as i32;
                self.show(n);
            }
            Sort::Float => self.float(),
            Sort::Simple(names) => {
                let n = self.payload();
                self.show(names[n as usize]);
            }
            Sort::Option(inner) => self.option(inner),
            Sort::List(inner) => self.list(inner),
            Sort::Struct(fields) => self.structure(fields),
            Sort::Heads(heads) => self.variant(heads),
            Sort::Expr => self.expr(),
            Sort::Stmt => self.stmt(),
        }
    }

    /// A float, its low word first.
    fn float(&mut self) {
        let bits = u64::from(self.word()) | u64::from(self.word()) << 32;
        self.show(format_args!("{:?}", f64::from_bits(bits)));
    }

    /// A value, or `-` where it is absent.
    fn option(&mut self, inner: &Sort) {
        if self.peek() == 0 {
            self.word();
            self.show('-');
        } else {
            self.value(inner);
        }
    }

    /// The fields of a struct in braces.
    fn structure(&mut self, fields: &[Field]) {
        self.show('{');
        self.fields(fields, "");
        self.show('}');
    }

    /// A statement with its line.
    fn stmt(&mut self) {
        let head = self.word();
        let variant = &schema::STMT.variants[((head >> 24) - schema::STMT.base) as usize];
        self.show(format_args!(
            "({} line={}",
            variant.name,
            head & 0x00ff_ffff
        ));
        self.fields(variant.fields, " ");
        self.show(')');
    }

    fn list(&mut self, inner: &Sort) {
        let count = self.payload();
        self.show('[');
        self.indent += 1;
        for i in 0..count {
            match inner {
                Sort::Stmt => self.line(),
                _ if i > 0 => self.show(' '),
                _ => {}
            }
            self.value(inner);
        }
        self.indent -= 1;
        self.show(']');
    }

    fn variant(&mut self, heads: &Heads) {
        let variant = &heads.variants[((self.word() >> 24) - heads.base) as usize];
        if variant.fields.is_empty() {
            return self.show(variant.name);
        }
        self.show(format_args!("({}", variant.name));
        self.fields(variant.fields, " ");
        self.show(')');
    }

    /// Fields with their names, those that are absent, empty or `no` left out.
    fn fields(&mut self, fields: &[Field], mut gap: &str) {
        for field in fields {
            let default = match field.sort {
                Sort::Option(_) => Some(0),
                Sort::List(_) => Some(schema::LIST << 24),
                Sort::Flag => Some(schema::FLAG << 24),
                _ => None,
            };
            if !field.name.is_empty() && default == Some(self.peek()) {
                self.word();
                continue;
            }
            self.show(gap);
            gap = " ";
            if !field.name.is_empty() {
                self.show(format_args!("{}=", field.name));
            }
            self.value(&field.sort);
        }
    }

    /// A variable is its name, a literal its value; the rest has the variant's name.
    fn expr(&mut self) {
        let heads = &schema::EXPR;
        match self.peek() >> 24 {
            17 => {
                self.word();
                self.value(&Sort::Name);
            }
            16 => {
                self.word();
                let literal = self.word() >> 24;
                match literal {
                    24 | 25 => self.value(&Sort::Whole),
                    26 | 27 => self.value(&Sort::Float),
                    _ => self.value(&Sort::Text),
                }
                self.show(match literal {
                    25 => "&",
                    26 => "!",
                    _ => "",
                });
            }
            _ => self.variant(heads),
        }
    }
}

// Reading

/// What is wrong with a text, and on which line.
#[derive(Debug, Clone, PartialEq, Eq)]
pub struct Fault {
    pub line: usize,
    pub message: String,
}

impl std::fmt::Display for Fault {
    fn fmt(&self, f: &mut std::fmt::Formatter<'_>) -> std::fmt::Result {
        write!(f, "line {}: {}", self.line, self.message)
    }
}

type Parse<T> = Result<T, Fault>;

#[derive(Debug, Clone, PartialEq)]
enum Token {
    /// One of `( ) [ ] { } =`.
    Mark(char),
    Quoted(Vec<u8>),
    Atom(String),
    End,
}

/// The bytes of the file that a text describes.
pub fn parse(text: &str) -> Parse<Vec<u8>> {
    let mut parser = Parser {
        tokens: tokens(text)?,
        at: 0,
        words: Vec::new(),
        strings: Vec::new(),
        places: Vec::new(),
    };
    parser.file()
}

fn tokens(text: &str) -> Parse<Vec<(usize, Token)>> {
    let mut tokens = Vec::new();
    for (line, content) in (1..).zip(text.lines()) {
        let mut rest = content;
        loop {
            rest = rest.trim_start();
            let Some(c) = rest.chars().next().filter(|c| *c != ';') else {
                break;
            };
            if "()[]{}=".contains(c) {
                tokens.push((line, Token::Mark(c)));
                rest = &rest[1..];
            } else if c == '"' {
                let (bytes, after) =
                    quoted(&rest[1..]).map_err(|message| Fault { line, message })?;
                tokens.push((line, Token::Quoted(bytes)));
                rest = after;
            } else {
                let ends = |c: char| c.is_whitespace() || "()[]{}=\";".contains(c);
                let end = rest.find(ends).unwrap_or(rest.len());
                tokens.push((line, Token::Atom(rest[..end].to_string())));
                rest = &rest[end..];
            }
        }
    }
    tokens.push((text.lines().count(), Token::End));
    Ok(tokens)
}

/// The bytes up to the closing quote, and what follows it.
fn quoted(text: &str) -> Result<(Vec<u8>, &str), String> {
    let mut bytes = Vec::new();
    let mut rest = text.chars();
    loop {
        let c = match rest.next() {
            None => return Err("a quote that doesn't end".into()),
            Some('"') => return Ok((bytes, rest.as_str())),
            Some('\\') => match rest.next() {
                Some('x') => {
                    let digits = rest.as_str().get(..2).unwrap_or("");
                    let byte = u8::from_str_radix(digits, 16);
                    bytes.push(byte.map_err(|_| "\\x wants two digits".to_string())?);
                    rest = rest.as_str()[2..].chars();
                    continue;
                }
                Some(c) => c,
                None => return Err("a quote that doesn't end".into()),
            },
            Some(c) => c,
        };
        bytes.extend_from_slice(c.encode_utf8(&mut [0; 4]).as_bytes());
    }
}

struct Parser {
    tokens: Vec<(usize, Token)>,
    at: usize,
    words: Vec<u32>,
    /// Each mention of a string, and the place of its word.
    strings: Vec<Vec<u8>>,
    places: Vec<usize>,
}

impl Parser {
    fn fault<T>(&self, message: impl Into<String>) -> Parse<T> {
        let message = message.into();
        let line = self.tokens[self.at.min(self.tokens.len() - 1)].0;
        Err(Fault { line, message })
    }

    fn peek(&self) -> &Token {
        &self.tokens[self.at].1
    }

    fn peek_mark(&self, c: char) -> bool {
        *self.peek() == Token::Mark(c)
    }

    fn mark(&mut self, c: char) -> Parse<()> {
        if !self.peek_mark(c) {
            return self.fault(format!("expected {c}"));
        }
        self.at += 1;
        Ok(())
    }

    fn atom(&mut self, what: &str) -> Parse<String> {
        let Token::Atom(a) = self.peek() else {
            return self.fault(format!("expected {what}"));
        };
        let a = a.clone();
        self.at += 1;
        Ok(a)
    }

    fn bytes(&mut self) -> Parse<Vec<u8>> {
        let Token::Quoted(b) = self.peek() else {
            return self.fault("expected a string in quotes");
        };
        let b = b.clone();
        self.at += 1;
        Ok(b)
    }

    /// Items up to a closing mark.
    fn until<T>(
        &mut self,
        close: char,
        mut item: impl FnMut(&mut Self) -> Parse<T>,
    ) -> Parse<Vec<T>> {
        let mut items = Vec::new();
        while !self.peek_mark(close) {
            if *self.peek() == Token::End {
                return self.fault(format!("expected {close}"));
            }
            items.push(item(self)?);
        }
        self.at += 1;
        Ok(items)
    }

    fn file(&mut self) -> Parse<Vec<u8>> {
        let mut extra = Vec::new();
        let mut erased = Vec::new();
        let mut program = None;
        while *self.peek() != Token::End {
            self.mark('(')?;
            match self.atom("strings, erased, program, raw or file")?.as_str() {
                "strings" => extra.extend(self.until(')', Self::bytes)?),
                "erased" => erased.extend(self.until(')', |p| p.atom("a name"))?),
                "program" => program = Some(self.program()?),
                "raw" => return self.raw().map(|raw| raw.to_bytes()),
                "file" => {
                    return self.until(')', |p| {
                        let a = p.atom("a byte")?;
                        u8::from_str_radix(&a, 16).or_else(|_| p.fault("expected two digits"))
                    });
                }
                other => return self.fault(format!("unknown part {other}")),
            }
        }
        let Some(tree) = program else {
            return self.fault("no program");
        };
        Ok(self.numbered(tree, extra, &erased).to_bytes())
    }

    /// The image of a program, its strings numbered.
    fn numbered(&self, mut tree: Vec<u32>, extra: Vec<Vec<u8>>, erased: &[String]) -> Raw {
        let mut all = self.strings.clone();
        all.extend(extra);
        all.extend(erased.iter().map(|n| n.clone().into_bytes()));
        all.sort_unstable();
        all.dedup();
        let number = |s: &[u8]| {
            all.binary_search_by(|x| x.as_slice().cmp(s))
                .expect("listed") as u32
        };
        for (place, s) in self.places.iter().zip(&self.strings) {
            tree[*place] = schema::STRING << 24 | number(s);
        }
        let mut raw = Raw {
            tree,
            ..Raw::default()
        };
        raw.erased = erased.iter().map(|n| number(n.as_bytes())).collect();
        raw.erased.sort_unstable();
        raw.set_strings(&all);
        raw
    }

    fn raw(&mut self) -> Parse<Raw> {
        let mut raw = Raw::default();
        while !self.peek_mark(')') {
            let field = self.atom("ends, tree, erased or bytes")?;
            self.mark('=')?;
            let radix = if field == "tree" { 16 } else { 10 };
            match field.as_str() {
                "bytes" => raw.bytes = self.bytes()?,
                "ends" => raw.ends = self.numbers(radix)?,
                "tree" => raw.tree = self.numbers(radix)?,
                "erased" => raw.erased = self.numbers(radix)?,
                other => return self.fault(format!("unknown field {other}")),
            }
        }
        self.mark(')')?;
        Ok(raw)
    }

    fn numbers(&mut self, radix: u32) -> Parse<Vec<u32>> {
        self.mark('[')?;
        self.until(']', |p| {
            let a = p.atom("a number")?;
            u32::from_str_radix(&a, radix).or_else(|_| p.fault("expected a number"))
        })
    }

    fn program(&mut self) -> Parse<Vec<u32>> {
        self.words.push(0);
        let count = self.until(')', Self::stmt)?.len();
        self.words[0] = schema::LIST << 24 | count as u32;
        Ok(std::mem::take(&mut self.words))
    }

    fn put(&mut self, kind: u32, payload: u32) {
        self.words.push(kind << 24 | payload);
    }

    fn string(&mut self, s: Vec<u8>) {
        self.places.push(self.words.len());
        self.strings.push(s);
        self.put(schema::STRING, 0);
    }

    fn number<T: std::str::FromStr>(&mut self, a: &str) -> Parse<T> {
        a.parse()
            .or_else(|_| self.fault(format!("{a} is no number here")))
    }

    fn payload(&mut self) -> Parse<u32> {
        let a = self.atom("a number")?;
        let n: u32 = self.number(&a)?;
        if n >= 1 << 24 {
            return self.fault(format!("{n} is over 24 bits"));
        }
        Ok(n)
    }

    fn value(&mut self, sort: &Sort) -> Parse<()> {
        match sort {
            Sort::Name => {
                let a = self.atom("a name")?;
                self.string(a.into_bytes());
            }
            Sort::Text => {
                let s = self.bytes()?;
                self.string(s);
            }
            Sort::Integer => {
                let n = self.payload()?;
                self.put(schema::INTEGER, n);
            }
            Sort::Flag => self.flag()?,
            Sort::Letter => self.letter()?,
            Sort::Whole => {
                let a = self.atom("a number")?;
                let n: i32 = self.number(&a)?;
                self.words.push(n as u32);
            }
            Sort::Float => {
                let a = self.atom("a number")?;
                let f: f64 = self.number(&a)?;
                self.float(f);
            }
            Sort::Simple(names) => self.simple(names)?,
            Sort::Option(inner) => self.option(inner)?,
            Sort::List(inner) => self.list(inner)?,
            Sort::Struct(fields) => {
                self.mark('{')?;
                self.fields(fields, '}')?;
            }
            Sort::Heads(heads) => self.variant(heads)?,
            Sort::Expr => self.expr()?,
            Sort::Stmt => self.stmt()?,
        }
        Ok(())
    }

    /// `yes` or `no`.
    fn flag(&mut self) -> Parse<()> {
        let flag = match self.atom("yes or no")?.as_str() {
            "yes" => 1,
            "no" => 0,
            _ => return self.fault("expected yes or no"),
        };
        self.put(schema::FLAG, flag);
        Ok(())
    }

    /// One letter.
    fn letter(&mut self) -> Parse<()> {
        match self.atom("a letter")?.as_bytes() {
            [b] => self.put(schema::LETTER, u32::from(*b)),
            _ => return self.fault("expected one letter"),
        }
        Ok(())
    }

    /// A value of an enum without data, by its name.
    fn simple(&mut self, names: &[&str]) -> Parse<()> {
        let a = self.atom("a variant")?;
        match names.iter().position(|n| *n == a) {
            Some(n) => self.put(schema::SIMPLE, n as u32),
            None => return self.fault(format!("{a} is none of {names:?}")),
        }
        Ok(())
    }

    /// A value, or `-` where it is absent.
    fn option(&mut self, inner: &Sort) -> Parse<()> {
        if *self.peek() != Token::Atom("-".into()) {
            return self.value(inner);
        }
        self.at += 1;
        self.put(0, 0);
        Ok(())
    }

    /// Values in brackets, their number before them.
    fn list(&mut self, inner: &Sort) -> Parse<()> {
        let place = self.words.len();
        self.put(schema::LIST, 0);
        self.mark('[')?;
        let count = self.until(']', |p| p.value(inner))?.len();
        self.words[place] |= count as u32;
        Ok(())
    }

    fn float(&mut self, f: f64) {
        self.words.push(f.to_bits() as u32);
        self.words.push((f.to_bits() >> 32) as u32);
    }

    fn find<'a>(&self, heads: &'a Heads, name: &str) -> Parse<(u32, &'a Variant)> {
        let mut named = (heads.base..).zip(heads.variants);
        match named.find(|(_, v)| v.name == name) {
            Some(found) => Ok(found),
            None => self.fault(format!("no variant {name}")),
        }
    }

    fn variant(&mut self, heads: &Heads) -> Parse<()> {
        if !self.peek_mark('(') {
            let name = self.atom("a variant")?;
            let (kind, variant) = self.find(heads, &name)?;
            if !variant.fields.is_empty() {
                return self.fault(format!("{name} has fields"));
            }
            self.put(kind, 0);
            return Ok(());
        }
        self.at += 1;
        let name = self.atom("a variant")?;
        let (kind, variant) = self.find(heads, &name)?;
        self.put(kind, 0);
        self.fields(variant.fields, ')')
    }

    fn stmt(&mut self) -> Parse<()> {
        self.mark('(')?;
        let name = self.atom("a statement")?;
        let (kind, variant) = self.find(&schema::STMT, &name)?;
        let line = if *self.peek() == Token::Atom("line".into()) {
            self.at += 1;
            self.mark('=')?;
            self.payload()?
        } else {
            0
        };
        self.put(kind, line);
        self.fields(variant.fields, ')')
    }

    /// Fields up to the closing mark: named ones in any order, the others in theirs.
    fn fields(&mut self, fields: &[Field], close: char) -> Parse<()> {
        let named = self.named(fields)?;
        let from = self.at;
        let mut ends = Vec::new();
        for field in fields {
            if field.name.is_empty() {
                self.value(&field.sort)?;
                continue;
            }
            if let Some((_, at)) = named.iter().find(|(name, _)| *name == field.name) {
                self.at = *at;
                self.value(&field.sort)?;
                ends.push(self.at);
                continue;
            }
            match field.sort {
                Sort::Option(_) => self.put(0, 0),
                Sort::List(_) => self.put(schema::LIST, 0),
                Sort::Flag => self.put(schema::FLAG, 0),
                _ => return self.fault(format!("expected {}=", field.name)),
            }
        }
        // Each value ends where the next field's name or the closing mark stands, and the first name comes at once.
        ends.sort_unstable();
        for (start, end) in named.iter().zip(std::iter::once(from).chain(ends.clone())) {
            self.at = end;
            if start.1 != end + 2 {
                return self.fault("expected a field's name");
            }
        }
        self.at = ends.last().copied().unwrap_or(self.at);
        self.mark(close)
    }

    /// Where the value of each named field starts.
    fn named(&self, fields: &[Field]) -> Parse<Vec<(&'static str, usize)>> {
        let mut named: Vec<(&'static str, usize)> = Vec::new();
        let mut nested = 0;
        for (i, pair) in (self.at..).zip(self.tokens[self.at..].windows(2)) {
            match &pair[0].1 {
                Token::Mark('(' | '[' | '{') => nested += 1,
                Token::Mark(')' | ']' | '}') if nested == 0 => break,
                Token::Mark(')' | ']' | '}') => nested -= 1,
                Token::Atom(a) if nested == 0 && pair[1].1 == Token::Mark('=') => {
                    let Some(field) = fields.iter().find(|f| f.name == a) else {
                        return self.fault(format!("no field {a}"));
                    };
                    if named.iter().any(|(name, _)| name == a) {
                        return self.fault(format!("{a} comes twice"));
                    }
                    named.push((field.name, i + 2));
                }
                _ => {}
            }
        }
        Ok(named)
    }

    fn expr(&mut self) -> Parse<()> {
        match self.peek().clone() {
            Token::Quoted(s) => {
                self.at += 1;
                self.put(16, 0);
                self.put(28, 0);
                self.string(s);
                Ok(())
            }
            Token::Atom(a) if a.starts_with(|c: char| c.is_ascii_digit() || c == '-') => {
                self.at += 1;
                self.literal(&a)
            }
            Token::Atom(a) => {
                self.at += 1;
                self.put(17, 0);
                self.string(a.into_bytes());
                Ok(())
            }
            _ => self.variant(&schema::EXPR),
        }
    }

    fn literal(&mut self, a: &str) -> Parse<()> {
        self.put(16, 0);
        if let Some(long) = a.strip_suffix('&') {
            self.put(25, 0);
            let n: i32 = self.number(long)?;
            self.words.push(n as u32);
        } else if let Some(single) = a.strip_suffix('!') {
            self.put(26, 0);
            let f: f64 = self.number(single)?;
            self.float(f);
        } else if a.contains(['.', 'e', '#']) {
            self.put(27, 0);
            let f: f64 = self.number(a.trim_end_matches('#'))?;
            self.float(f);
        } else {
            self.put(24, 0);
            let n: i32 = self.number(a)?;
            self.words.push(n as u32);
        }
        Ok(())
    }
}
