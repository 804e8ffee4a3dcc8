//! What each entry must answer and leave: numbers and places from document 01, answers from the original over tables built from the lent rows.

use crate::case::{Case, Entry};
use crate::lent;
use image::raw::{MAX_BYTES, MAX_ERASED, MAX_STRINGS, MAX_WORDS, Refusal, Strings};
use oracle::ast::{DataType, Expr, Literal, TypeRef};
use oracle::codec;
use oracle::sema::{Original, builtin_takes, subscripts};
use oracle::{Lent, Row};
use std::fmt::Write;

type Answer = Result<String, Refusal>;

/// The line that the program prints for a case.
pub fn line(case: &Case) -> String {
    let mut after = case.clone();
    let answer = answer(&mut after);
    let mut out = case.label.clone();
    let reads = matches!(
        case.entry,
        Entry::Statement | Entry::Expression | Entry::ConstEval
    );
    let past = matches!(case.entry, Entry::PastStatement | Entry::PastExpression);
    match answer {
        Ok(text) => write!(out, " {text}"),
        // The reading place stays.
        Err(r) if reads => write!(out, " {} {} at {}", r.number, r.place, case.numbers[0]),
        Err(_) if past => write!(out, " {}", case.numbers[0]),
        Err(r) => write!(out, " {} {}", r.number, r.place),
    }
    .expect("a String takes all");
    if (case.entry as u32) < Entry::CheckNameCollisions as u32 {
        return out + "\n";
    }
    for (name, words) in [
        ("rows", &after.rows),
        ("notes", &after.notes),
        ("out", &after.out),
    ] {
        write!(out, " {name}").expect("a String takes all");
        for w in words {
            write!(out, " {w:08x}").expect("a String takes all");
        }
    }
    out + "\n"
}

fn refused<T>(number: u32) -> Result<T, Refusal> {
    Err(Refusal::new(number, 0))
}

/// Number 5, on those of the sized inputs that the entry takes.
fn sizes(case: &Case) -> Result<(), Refusal> {
    use Entry::*;
    let tree = !matches!(
        case.entry,
        Shares
            | IsStatic
            | TypeWords
            | TypedVar
            | TypedVarIn
            | LookupArray
            | DeclaredType
            | Builtin
            | CheckNameCollisions
    );
    let erased = matches!(case.entry, Accept | Collect | Analyse);
    let raw = &case.raw;
    let over = raw.ends.len() > MAX_STRINGS
        || raw.bytes.len() > MAX_BYTES
        || tree && raw.tree.len() > MAX_WORDS
        || erased && raw.erased.len() > MAX_ERASED;
    if over { refused(5) } else { Ok(()) }
}

/// Number 6.
fn rows(case: &Case, strings: &Strings<'_>) -> Result<Vec<Row>, Refusal> {
    lent::table(strings, &case.rows).map_or_else(|| refused(6), Ok)
}

/// Number 11.
fn asked(right: bool) -> Result<(), Refusal> {
    if right { Ok(()) } else { refused(11) }
}

fn answer(case: &mut Case) -> Answer {
    use Entry::*;
    sizes(case)?;
    let raw = case.raw.clone();
    let strings = raw.strings()?;
    match case.entry {
        ReadStatement | ReadExpression | Statement | Expression | Accept | PastStatement
        | PastExpression => reading(case, &strings),
        Shares | IsStatic | TypeWords | TypedVar | TypedVarIn | LookupArray | DeclaredType => {
            lookup(case, &strings)
        }
        Builtin => {
            let [name, ..] = case.numbers;
            asked(lent::name(&strings, name))?;
            Ok(match builtin_takes(strings.all[name as usize]) {
                Some((least, most)) => format!("0 {least} {most}"),
                None => "0 none".to_string(),
            })
        }
        ConstEval => const_eval(case, &strings),
        SubscriptCount => {
            let body = codec::decode(&raw.tree, &strings)?;
            let [name, ..] = case.numbers;
            asked(lent::name(&strings, name))?;
            Ok(match subscripts(&body, strings.all[name as usize]) {
                Some(n) => format!("0 {n}"),
                None => "0 none".to_string(),
            })
        }
        CheckNameCollisions => collisions(case, &strings),
        Collect => collect(case),
        ResolveExpr | ResolveArgs | ResolveArrayAccesses => resolve(case, &strings),
        Analyse => analyse(case),
    }
}

fn reading(case: &Case, strings: &Strings<'_>) -> Answer {
    let tree = &case.raw.tree;
    if case.entry == Entry::Accept {
        codec::decode(tree, strings)?;
        case.raw.erased_names(strings)?;
        return Ok("0".to_string());
    }
    let at = case.numbers[0] as usize;
    let end = match case.entry {
        Entry::ReadStatement | Entry::Statement | Entry::PastStatement => {
            codec::statement_at(tree, at, strings)?.1
        }
        _ => codec::expression_at(tree, at, strings)?.1,
    };
    Ok(match case.entry {
        Entry::PastStatement | Entry::PastExpression => format!("{end}"),
        Entry::Statement | Entry::Expression => format!("0 {} {at} {end} at {end}", tree[at]),
        _ => format!("0 {} {at} {end}", tree[at]),
    })
}

fn words_of(ty: &TypeRef, strings: &Strings<'_>) -> [u32; 2] {
    match ty {
        TypeRef::Integer => [40, 0],
        TypeRef::Long => [41, 0],
        TypeRef::Single => [42, 0],
        TypeRef::Double => [43, 0],
        TypeRef::FixedString(n) => [44, *n as u32],
        TypeRef::Record(name) => {
            let number = strings.all.iter().position(|s| s == name);
            [45, number.expect("a name of the table") as u32]
        }
    }
}

fn type_of(head: u32, arg: u32, strings: &Strings<'_>) -> TypeRef {
    match head {
        40 => TypeRef::Integer,
        41 => TypeRef::Long,
        42 => TypeRef::Single,
        43 => TypeRef::Double,
        44 => TypeRef::FixedString(arg as usize),
        _ => TypeRef::Record(strings.all[arg as usize].to_string()),
    }
}

/// Whether the names, scope or type asked of a lookup are right.
fn lookup_takes(case: &Case, strings: &Strings<'_>) -> bool {
    let [a, b, _] = case.numbers;
    match case.entry {
        Entry::TypeWords => lent::field_type(strings, a, b),
        Entry::Shares | Entry::IsStatic => lent::name(strings, a) && lent::name(strings, b),
        _ => lent::scope(strings, a) && lent::name(strings, b),
    }
}

fn lookup(case: &Case, strings: &Strings<'_>) -> Answer {
    let rows = rows(case, strings)?;
    let [a, b, c] = case.numbers;
    asked(lookup_takes(case, strings))?;
    let symbols = oracle::symbols(&rows, &strings.all);
    let text = |n: u32| strings.all[n as usize];
    let flag = |yes: bool| if yes { "0 yes" } else { "0 no" }.to_string();
    let typed = |ty: Option<&TypeRef>| match ty.map(|ty| words_of(ty, strings)) {
        Some([head, arg]) => format!("0 {head} {arg}"),
        None => "0 none".to_string(),
    };
    Ok(match case.entry {
        Entry::Shares => flag(symbols.shares(text(a), text(b), c == 1)),
        Entry::IsStatic => flag(symbols.is_static(text(a), text(b), c == 1)),
        Entry::TypeWords => format!("0 {}", symbols.type_words(&type_of(a, b, strings))),
        Entry::TypedVar => {
            let scope = oracle::scope_of(a, &strings.all);
            typed(symbols.typed_var(&scope, text(b)))
        }
        Entry::TypedVarIn => {
            let scope = oracle::scope_of(a, &strings.all);
            typed(symbols.typed_var_in(&scope, text(b)))
        }
        Entry::LookupArray => {
            let scope = oracle::scope_of(a, &strings.all);
            match symbols.lookup_array(&scope, text(b)) {
                Some(i) => format!("0 {} {} {}", i.rank, i.line, u32::from(i.has_lower)),
                None => "0 none".to_string(),
            }
        }
        _ => {
            let scope = oracle::scope_of(a, &strings.all);
            match Original::over(symbols).declared_type(text(b), &scope) {
                Some(ty) => format!("0 {}", position(ty)),
                None => "0 none".to_string(),
            }
        }
    })
}

/// A position in `DataType`.
fn position(ty: DataType) -> u32 {
    match ty {
        DataType::Integer => 0,
        DataType::Long => 1,
        DataType::Single => 2,
        DataType::Double => 3,
        DataType::String => 4,
    }
}

fn const_eval(case: &Case, strings: &Strings<'_>) -> Answer {
    let (e, end) = codec::expression_at(&case.raw.tree, case.numbers[0] as usize, strings)?;
    let rows = rows(case, strings)?;
    let original = Original::over(oracle::symbols(&rows, &strings.all));
    let halves = |kind: u32, bits: u64| format!("{kind} {} {}", bits as u32, bits >> 32);
    let value = match original.const_eval(&e) {
        Ok(Literal::Integer(n)) => halves(24, n as u64),
        Ok(Literal::Long(n)) => halves(25, n as u64),
        Ok(Literal::Single(f)) => halves(26, f.to_bits()),
        Ok(Literal::Float(f)) => halves(27, f.to_bits()),
        Ok(Literal::String(s)) => {
            let number = strings.all.iter().position(|t| *t == s);
            halves(28, number.expect("a string of the table") as u64)
        }
        Err(code) => format!("code {code}"),
    };
    Ok(format!("0 {value} at {end}"))
}

/// Rows or diagnostics in a buffer: these, then zeros to its last word.
fn fill(buffer: &mut [u32], rows: &[Row]) {
    buffer.fill(0);
    for (to, row) in buffer.chunks_exact_mut(6).zip(rows) {
        to.copy_from_slice(row);
    }
}

fn collisions(case: &mut Case, strings: &Strings<'_>) -> Answer {
    let rows = rows(case, strings)?;
    let numbers = codec::numbers(&strings.all);
    let mut original = Original::over(oracle::symbols(&rows, &strings.all));
    original.check_name_collisions();
    let found = std::mem::take(original.diagnostics_mut());
    let found = oracle::in_row_order(found, &rows, &numbers);
    if found.len() > case.notes.len() / 6 {
        case.notes.fill(0);
        return refused(8);
    }
    let words: Vec<Row> = found
        .iter()
        .map(|d| oracle::words_of(d, &numbers))
        .collect();
    fill(&mut case.notes, &words);
    Ok(format!("0 {}", words.len()))
}

fn lent_by(case: &Case) -> Lent {
    Lent {
        rows: case.rows.len() / 6,
        diagnostics: case.notes.len() / 6,
    }
}

/// Numbers 7, 8 and 9 leave rows and diagnostics zero.
fn emptied(case: &mut Case, r: Refusal) -> Refusal {
    if r.number >= 7 {
        case.rows.fill(0);
        case.notes.fill(0);
    }
    r
}

fn collect(case: &mut Case) -> Answer {
    let raw = case.raw.clone();
    let input = oracle::input(&raw)?;
    let (rows, notes) = oracle::collected(&input, lent_by(case)).map_err(|r| emptied(case, r))?;
    let notes: Vec<Row> = notes
        .iter()
        .map(|d| oracle::words_of(d, &input.numbers))
        .collect();
    fill(&mut case.rows, &rows);
    fill(&mut case.notes, &notes);
    Ok(format!("0 {} {}", rows.len(), notes.len()))
}

fn analyse(case: &mut Case) -> Answer {
    let raw = case.raw.clone();
    let input = oracle::input(&raw)?;
    if case.out.len() < raw.tree.len() {
        return refused(10);
    }
    let numbers = input.numbers.clone();
    let a = oracle::stepwise(input, lent_by(case)).map_err(|r| emptied(case, r))?;
    let notes: Vec<Row> = a
        .diagnostics
        .iter()
        .map(|d| oracle::words_of(d, &numbers))
        .collect();
    fill(&mut case.rows, &a.rows);
    fill(&mut case.notes, &notes);
    case.out[..a.resolved.len()].copy_from_slice(&a.resolved);
    Ok(format!(
        "0 {} {} {}",
        notes.len(),
        a.rows.len(),
        a.resolved.len()
    ))
}

/// What is resolved.
enum What {
    Expr(Expr),
    Args(Vec<Expr>),
    Program(Vec<oracle::ast::Stmt>),
}

/// What a case resolves, and from where to where it stands in the tree.
fn decoded(case: &Case, strings: &Strings<'_>) -> Result<(What, usize, usize), Refusal> {
    let tree = &case.raw.tree;
    let from = case.numbers[2] as usize;
    Ok(match case.entry {
        Entry::ResolveExpr => {
            let (e, end) = codec::expression_at(tree, from, strings)?;
            (What::Expr(e), from, end)
        }
        Entry::ResolveArgs => {
            let (args, end) = codec::expressions_at(tree, from, strings)?;
            (What::Args(args), from, end)
        }
        _ => (What::Program(codec::decode(tree, strings)?), 0, tree.len()),
    })
}

/// The words of what is resolved over these rows, in this scope and among the arguments of this name.
fn resolved(what: What, rows: &[Row], [scope, name]: [u32; 2], strings: &Strings<'_>) -> Vec<u32> {
    let numbers = codec::numbers(&strings.all);
    let mut original = Original::over(oracle::symbols(rows, &strings.all));
    match what {
        What::Expr(mut e) => {
            original.resolve_expr(&mut e, &oracle::scope_of(scope, &strings.all));
            // One expression's words: a list of it without the count.
            codec::encode_exprs(&[e], &numbers)[1..].to_vec()
        }
        What::Args(mut args) => {
            let scope = oracle::scope_of(scope, &strings.all);
            original.resolve_args(strings.all[name as usize], &mut args, &scope);
            codec::encode_exprs(&args, &numbers)
        }
        What::Program(mut program) => {
            original.resolve_array_accesses(&mut program, &oracle::sema::Scope::Module);
            codec::encode(&program, &numbers)
        }
    }
}

fn resolve(case: &mut Case, strings: &Strings<'_>) -> Answer {
    let [scope, name, _] = case.numbers;
    let (what, from, end) = decoded(case, strings)?;
    let rows = rows(case, strings)?;
    asked(match case.entry {
        Entry::ResolveExpr => lent::scope(strings, scope),
        Entry::ResolveArgs => lent::scope(strings, scope) && lent::name(strings, name),
        _ => true,
    })?;
    if case.out.len() < end - from {
        return refused(10);
    }
    let written = resolved(what, &rows, [scope, name], strings);
    case.out[..written.len()].copy_from_slice(&written);
    Ok(format!("0 {end} {}", written.len()))
}
