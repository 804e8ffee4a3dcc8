//! An image through the original's passes, to the listing.

use crate::ast::Stmt;
use crate::codec;
pub use crate::limits::Lent;
use crate::limits::{Stepper, may_stop};
use crate::raw::{MAX_DIAGNOSTICS, MAX_ROWS, Raw, Refusal};
use crate::sema::{Diagnostic, Original, Scope, Symbols};
pub use crate::table::Row;
use crate::table::rows;
pub use crate::table::{Numbers, scope_of, symbols};
use std::collections::HashSet;
use std::fmt::Write;

/// What the passes give for an image that nothing refuses.
#[derive(Debug, Clone)]
pub struct Analysis {
    pub diagnostics: Vec<Diagnostic>,
    pub rows: Vec<Row>,
    pub resolved: Vec<u32>,
}

/// What the listing program lends.
pub const LENT: Lent = Lent {
    rows: MAX_ROWS,
    diagnostics: MAX_DIAGNOSTICS,
};

/// An image read into the original's own types.
#[derive(Clone)]
pub struct Input<'a> {
    pub program: Vec<Stmt>,
    pub erased: HashSet<String>,
    pub numbers: Numbers<'a>,
}

/// Numbers 1, 2, 3, 4.
pub fn input(raw: &Raw) -> Result<Input<'_>, Refusal> {
    let strings = raw.strings()?;
    let program = codec::decode(&raw.tree, &strings)?;
    let erased = raw.erased_names(&strings)?;
    Ok(Input {
        program,
        erased: erased.into_iter().map(str::to_string).collect(),
        numbers: codec::numbers(&strings.all),
    })
}

/// The passes as the original runs them, in its order; then what they left, as document 01 writes it.
pub fn whole(mut input: Input<'_>) -> Analysis {
    let mut original = Original::new(std::mem::take(&mut input.erased));
    original.collect(&input.program, &Scope::Module);
    let collected = original.diagnostics().len();
    original.check_name_collisions();
    finish(original, collected, input)
}

/// The tables that `collect` gives, in the original's own form.
pub fn tables(input: &Input<'_>) -> Symbols {
    let mut original = Original::new(input.erased.clone());
    original.collect(&input.program, &Scope::Module);
    original.symbols().clone()
}

/// The same, a step at a time, stopped by numbers 7, 8 and 9.
pub fn stepwise(mut input: Input<'_>, lent: Lent) -> Result<Analysis, Refusal> {
    let mut stepper = Stepper::new(std::mem::take(&mut input.erased), lent);
    stepper.collect(&input.program, &Scope::Module)?;
    let collected = stepper.original.diagnostics().len();
    stepper.check_name_collisions()?;
    Ok(finish(stepper.original, collected, input))
}

/// `collect` alone: its rows and diagnostics, or number 7, 8 or 9.
pub fn collected(input: &Input<'_>, lent: Lent) -> Result<(Vec<Row>, Vec<Diagnostic>), Refusal> {
    let mut stepper = Stepper::new(input.erased.clone(), lent);
    stepper.collect(&input.program, &Scope::Module)?;
    let diagnostics = std::mem::take(stepper.original.diagnostics_mut());
    Ok((rows(&stepper.original, &input.numbers), diagnostics))
}

fn finish(mut original: Original, collected: usize, mut input: Input<'_>) -> Analysis {
    let rows = rows(&original, &input.numbers);
    let collisions = original.diagnostics_mut().split_off(collected);
    let mut diagnostics = std::mem::take(original.diagnostics_mut());
    diagnostics.extend(in_row_order(collisions, &rows, &input.numbers));
    original.resolve_array_accesses(&mut input.program, &Scope::Module);
    assert!(original.diagnostics().is_empty(), "resolving says nothing");
    Analysis {
        resolved: codec::encode(&input.program, &input.numbers),
        diagnostics,
        rows,
    }
}

/// The collisions, which the original pushes in its hash map's order, in the order of the array rows.
///
/// Two that agree in name and line are the same text, so either may come first.
pub fn in_row_order(
    collisions: Vec<Diagnostic>,
    rows: &[Row],
    numbers: &Numbers<'_>,
) -> Vec<Diagnostic> {
    let mut left: Vec<(u32, Diagnostic)> = collisions
        .into_iter()
        .map(|d| {
            let name = d.message.split('\'').nth(1).expect("a quoted name");
            (numbers[name], d)
        })
        .collect();
    let mut ordered = Vec::with_capacity(left.len());
    for row in rows.iter().filter(|r| r[0] >> 24 == 133) {
        let here =
            |(name, d): &(u32, Diagnostic)| *name == row[0] & 0x00ff_ffff && d.line == row[3];
        if let Some(at) = left.iter().position(here) {
            ordered.push(left.swap_remove(at).1);
        }
    }
    assert!(left.is_empty(), "a collision of no array row");
    ordered
}

/// An image's analysis, or the number and place that refuse it.
pub fn analyse(raw: &Raw, lent: Lent) -> Result<Analysis, Refusal> {
    let input = input(raw)?;
    if may_stop(&input.program, lent) {
        stepwise(input, lent)
    } else {
        Ok(whole(input))
    }
}

/// A file's analysis under what the listing program lends.
pub fn analyse_file(file: &[u8]) -> Result<Analysis, Refusal> {
    analyse(&Raw::from_bytes(file)?, LENT)
}

/// The listing of a file.
pub fn listing(file: &[u8]) -> String {
    text(&analyse_file(file))
}

/// The listing's lines.
pub fn text(answer: &Result<Analysis, Refusal>) -> String {
    let analysis = match answer {
        Ok(analysis) => analysis,
        Err(refusal) => return format!("E {}\n", refusal.number),
    };
    let mut out = String::new();
    for d in &analysis.diagnostics {
        writeln!(out, "D {} {}", d.line, d.message).expect("a String takes all");
        if let Some(note) = &d.note {
            writeln!(out, "N {note}").expect("a String takes all");
        }
    }
    for row in &analysis.rows {
        words(&mut out, 'T', row);
    }
    words(&mut out, 'R', &analysis.resolved);
    out
}

fn words(out: &mut String, letter: char, words: &[u32]) {
    out.reserve(9 * words.len() + 2);
    out.push(letter);
    for w in words {
        // By hand, since `{:08x}` would be most of the time that a listing takes.
        out.push(' ');
        for shift in (0..8).rev() {
            let digit = (w >> (4 * shift)) & 15;
            out.push(char::from(b"0123456789abcdef"[digit as usize]));
        }
    }
    out.push('\n');
}

/// Document 01's six words of a diagnostic, by the original's text: code, line, the names in the message's order, the number shown, the note's line.
pub fn words_of(d: &Diagnostic, numbers: &Numbers<'_>) -> Row {
    let code = code(d);
    // What stands between apostrophes and is no name is a possessive's end.
    let mut names = d.message.split('\'').skip(1).step_by(2);
    let mut name = || names.find_map(|n| numbers.get(n)).map_or(0, |n| n + 1);
    let names = [name(), name()];
    let after = |text: &str, mark: &str| {
        let at = text.find(mark).expect("the number's mark") + mark.len();
        let digits = text[at..].split(|c: char| !c.is_ascii_digit()).next();
        digits.and_then(|n| n.parse().ok()).expect("a number")
    };
    let number = match code {
        1 => after(&d.message, "number "),
        13 => u32::from(d.message.starts_with("STATIC")),
        20 | 21 => after(&d.message, "must keep its "),
        22 | 23 => after(&d.message, "STRING * "),
        27 => u32::from(d.message.ends_with("FUNCTION")),
        _ => 0,
    };
    let note = match (code, &d.note) {
        (3 | 25 | 27, Some(note)) => after(note, "is on line "),
        _ => 0,
    };
    [code, d.line, names[0], names[1], number, note]
}

/// Document 01's code of a diagnostic, by the original's text.
pub fn code(d: &Diagnostic) -> u32 {
    const PARTS: [(&str, u32); 26] = [
        ("duplicate line number ", 1),
        ("duplicate label '", 2),
        ("' cannot contain itself", 6),
        ("' must be defined at module level", 4),
        ("' is declared twice in TYPE '", 5),
        ("parameter '", 0),
        ("' uses undefined TYPE '", 7),
        ("OPTION BASE may appear only once", 8),
        ("OPTION BASE must come before any DIM", 9),
        ("Overflow: CONST '", 11),
        ("' must have a constant value", 12),
        (" belongs inside a SUB or FUNCTION", 13),
        ("DIM SHARED belongs at module level", 14),
        ("' is declared AS a different type", 15),
        ("undefined TYPE '", 16),
        ("' needs at least one dimension", 18),
        ("REDIM PRESERVE of '", 20),
        ("REDIM of '", 21),
        ("the result of '", 23),
        ("' cannot be defined inside another procedure", 24),
        ("' is declared both as an array and as a ", 27),
        ("' is the name of a built-in function", 28),
        ("TYPE '", 3),
        ("array '", 19),
        ("' is already declared", 17),
        ("' is already defined", 10),
    ];
    let found = PARTS.iter().find(|(part, _)| d.message.contains(part));
    match (found.map_or(0, |(_, code)| *code), &d.note) {
        (0, Some(_)) => 22,
        (0, None) => 26,
        (10, Some(_)) => 25,
        (code, _) => code,
    }
}
