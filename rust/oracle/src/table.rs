//! Document 01's rows, from the original's hash maps.

use crate::ast::{Literal, Param, TypeRef};
use crate::sema::{ArrayInfo, FieldInfo, NameSets, Original, ProcInfo, RecordInfo, Scope, Symbols};
use std::collections::HashMap;

pub type Row = [u32; 6];

/// The number of a string, by its text.
pub type Numbers<'a> = HashMap<&'a str, u32>;

fn scope_word(scope: &Scope, numbers: &Numbers<'_>) -> u32 {
    match scope {
        Scope::Module => 0,
        Scope::Proc(name) => numbers[name.as_str()] + 1,
    }
}

fn type_words(ty: &TypeRef, numbers: &Numbers<'_>) -> [u32; 2] {
    match ty {
        TypeRef::Integer => [40, 0],
        TypeRef::Long => [41, 0],
        TypeRef::Single => [42, 0],
        TypeRef::Double => [43, 0],
        TypeRef::FixedString(n) => [44, *n as u32],
        TypeRef::Record(name) => [45, numbers[name.as_str()]],
    }
}

fn optional_type(ty: &Option<TypeRef>, numbers: &Numbers<'_>) -> [u32; 2] {
    ty.as_ref().map_or([0, 0], |ty| type_words(ty, numbers))
}

fn literal_words(value: &Literal, numbers: &Numbers<'_>) -> [u32; 3] {
    let split = |kind: u32, bits: u64| [kind, bits as u32, (bits >> 32) as u32];
    match value {
        Literal::Integer(n) => split(24, *n as u64),
        Literal::Long(n) => split(25, *n as u64),
        Literal::Single(f) => split(26, f.to_bits()),
        Literal::Float(f) => split(27, f.to_bits()),
        Literal::String(s) => [28, numbers[s.as_str()], 0],
    }
}

/// Names of SHARED or STATIC items, each with 1 for a variable plus 2 for an array.
fn marks(sets: &NameSets) -> HashMap<&str, u32> {
    let mut marks = HashMap::new();
    for name in &sets.vars {
        *marks.entry(name.as_str()).or_insert(0) += 1;
    }
    for name in &sets.arrays {
        *marks.entry(name.as_str()).or_insert(0) += 2;
    }
    marks
}

/// A row's first word.
#[inline]
fn head(kind: u32, payload: u32) -> u32 {
    kind << 24 | payload
}

/// All rows, rising by their first two words.
pub fn rows(original: &Original, numbers: &Numbers<'_>) -> Vec<Row> {
    let symbols = original.symbols();
    let mut rows: Vec<Row> = Vec::new();
    target_rows(&mut rows, symbols, numbers);
    record_rows(&mut rows, symbols, numbers);
    variable_rows(&mut rows, symbols, numbers);
    proc_rows(&mut rows, symbols, numbers);
    item_rows(&mut rows, symbols, numbers);
    for (kind, procs) in [(140, &symbols.static_procs), (141, &symbols.def_fns)] {
        rows.extend(
            procs
                .iter()
                .map(|name| [head(kind, numbers[name.as_str()]), 0, 0, 0, 0, 0]),
        );
    }
    for (proc, name) in original.unranked_array_params() {
        let (name, proc) = (numbers[name.as_str()], numbers[proc.as_str()]);
        rows.push([head(142, name), proc + 1, 0, 0, 0, 0]);
    }
    if original.seen_option_base() {
        rows.push([head(143, 0), 0, symbols.option_base as u32, 0, 0, 0]);
    }
    rows.sort_unstable();
    debug_assert!(rows.windows(2).all(|w| w[0][..2] < w[1][..2]));
    rows
}

/// Rows 128 and 129: line numbers and labels.
#[inline]
fn target_rows(rows: &mut Vec<Row>, symbols: &Symbols, numbers: &Numbers<'_>) {
    let n = |name: &str| numbers[name];
    for (line, scope) in &symbols.lines {
        rows.push([head(128, *line), 0, scope_word(scope, numbers), 0, 0, 0]);
    }
    for (name, scope) in &symbols.labels {
        rows.push([head(129, n(name)), 0, scope_word(scope, numbers), 0, 0, 0]);
    }
}

/// Rows 130 and 131: TYPEs and their fields.
#[inline]
fn record_rows(rows: &mut Vec<Row>, symbols: &Symbols, numbers: &Numbers<'_>) {
    let n = |name: &str| numbers[name];
    for (name, record) in &symbols.records {
        let words = record.words as u32;
        rows.push([head(130, n(name)), 0, words, record.line, 0, 0]);
        for (ordinal, (field, info)) in (0..).zip(&record.fields) {
            let [ty, arg] = type_words(&info.ty, numbers);
            let word = info.word as u32;
            rows.push([head(131, n(name)), ordinal, n(field), word, ty, arg]);
        }
    }
}

/// Rows 132, 133 and 134: constants, arrays and typed variables.
#[inline]
fn variable_rows(rows: &mut Vec<Row>, symbols: &Symbols, numbers: &Numbers<'_>) {
    let n = |name: &str| numbers[name];
    for (name, value) in &symbols.consts {
        let [kind, low, high] = literal_words(value, numbers);
        rows.push([head(132, n(name)), 0, kind, low, high, 0]);
    }
    for ((scope, name), info) in &symbols.arrays {
        let lower = u32::from(info.has_lower);
        let scope = scope_word(scope, numbers);
        rows.push([
            head(133, n(name)),
            scope,
            info.rank as u32,
            info.line,
            lower,
            0,
        ]);
    }
    for ((scope, name), ty) in &symbols.typed_vars {
        let [ty, arg] = type_words(ty, numbers);
        rows.push([
            head(134, n(name)),
            scope_word(scope, numbers),
            ty,
            arg,
            0,
            0,
        ]);
    }
}

/// Rows 135 and 136: procedures and their parameters.
#[inline]
fn proc_rows(rows: &mut Vec<Row>, symbols: &Symbols, numbers: &Numbers<'_>) {
    let n = |name: &str| numbers[name];
    for (name, info) in &symbols.procs {
        let [ty, arg] = optional_type(&info.ret_ty, numbers);
        let function = u32::from(info.is_function);
        rows.push([head(135, n(name)), 0, function, info.line, ty, arg]);
        for (ordinal, p) in (0..).zip(&info.params) {
            let [ty, arg] = optional_type(&p.ty, numbers);
            let mark = u32::from(p.byval) + 2 * u32::from(p.array);
            rows.push([head(136, n(name)), ordinal, n(&p.name), mark, ty, arg]);
        }
    }
}

/// Rows 137, 138 and 139: items of DIM SHARED, SHARED and STATIC.
#[inline]
fn item_rows(rows: &mut Vec<Row>, symbols: &Symbols, numbers: &Numbers<'_>) {
    let n = |name: &str| numbers[name];
    for name in &symbols.shared_all.vars {
        rows.push([head(137, n(name)), 0, 0, 0, 0, 0]);
    }
    for name in &symbols.shared_all.arrays {
        rows.push([head(137, n(name)), 1, 0, 0, 0, 0]);
    }
    for (kind, procs) in [(138, &symbols.proc_shared), (139, &symbols.proc_static)] {
        for (proc, sets) in procs {
            for (name, mark) in marks(sets) {
                rows.push([head(kind, n(name)), n(proc) + 1, mark, 0, 0, 0]);
            }
        }
    }
}

fn type_of(head: u32, arg: u32, strings: &[&str]) -> Option<TypeRef> {
    Some(match head {
        0 => return None,
        40 => TypeRef::Integer,
        41 => TypeRef::Long,
        42 => TypeRef::Single,
        43 => TypeRef::Double,
        44 => TypeRef::FixedString(arg as usize),
        _ => TypeRef::Record(strings[arg as usize].to_string()),
    })
}

fn literal_of(kind: u32, low: u32, high: u32, strings: &[&str]) -> Literal {
    let bits = u64::from(high) << 32 | u64::from(low);
    match kind {
        24 => Literal::Integer(bits as i64),
        25 => Literal::Long(bits as i64),
        26 => Literal::Single(f64::from_bits(bits)),
        27 => Literal::Float(f64::from_bits(bits)),
        _ => Literal::String(strings[low as usize].to_string()),
    }
}

/// Names of items with these marks.
fn put_items(sets: &mut NameSets, name: &str, mark: u32) {
    if mark & 1 != 0 {
        sets.vars.insert(name.to_string());
    }
    if mark & 2 != 0 {
        sets.arrays.insert(name.to_string());
    }
}

/// The scope of a word: 0 the module, else a string's number plus 1.
pub fn scope_of(word: u32, strings: &[&str]) -> Scope {
    match word {
        0 => Scope::Module,
        n => Scope::Proc(strings[n as usize - 1].to_string()),
    }
}

/// The original's tables, from rows that meet the rule of a lent table.
///
/// A field without its TYPE, a parameter without its procedure, and an item of the module's scope have no place in the original's tables and can't be
/// asked there. An ordinal that no row has becomes a BYVAL parameter, which keeps no parentheses either.
pub fn symbols(rows: &[Row], strings: &[&str]) -> Symbols {
    let mut s = Symbols::default();
    for r in rows {
        put_row(&mut s, r, strings);
    }
    s
}

/// One row's entry.
#[inline]
fn put_row(s: &mut Symbols, r: &Row, strings: &[&str]) {
    let payload = r[0] & 0x00ff_ffff;
    let name = || strings[payload as usize].to_string();
    let scope = |w: u32| scope_of(w, strings);
    match r[0] >> 24 {
        128 => drop(s.lines.insert(payload, scope(r[2]))),
        129 => drop(s.labels.insert(name(), scope(r[2]))),
        130 => drop(s.records.insert(name(), record_of(r))),
        131 => put_field(s, &name(), r, strings),
        132 => drop(
            s.consts
                .insert(name(), literal_of(r[2], r[3], r[4], strings)),
        ),
        133 => drop(s.arrays.insert((scope(r[1]), name()), array_of(r))),
        134 => {
            let ty = type_of(r[2], r[3], strings).expect("a typed variable has a type");
            s.typed_vars.insert((scope(r[1]), name()), ty);
        }
        135 => drop(s.procs.insert(name(), proc_of(r, strings))),
        136 => put_param(s, &name(), r, strings),
        137 => put_items(&mut s.shared_all, &name(), 1 + r[1]),
        138 | 139 if r[1] == 0 => {}
        138 => {
            let proc = strings[r[1] as usize - 1].to_string();
            put_items(s.proc_shared.entry(proc).or_default(), &name(), r[2]);
        }
        139 => {
            let proc = strings[r[1] as usize - 1].to_string();
            put_items(s.proc_static.entry(proc).or_default(), &name(), r[2]);
        }
        140 => drop(s.static_procs.insert(name())),
        141 => drop(s.def_fns.insert(name())),
        142 => {}
        _ => s.option_base = i64::from(r[2]),
    }
}

/// The TYPE of a row 130, without its fields.
#[inline]
fn record_of(r: &Row) -> RecordInfo {
    RecordInfo {
        fields: Vec::new(),
        words: r[2] as i32,
        line: r[3],
    }
}

/// The field of a row 131, at the end of its TYPE.
#[inline]
fn put_field(s: &mut Symbols, name: &str, r: &Row, strings: &[&str]) {
    if let (Some(record), Some(ty)) = (s.records.get_mut(name), type_of(r[4], r[5], strings)) {
        let word = r[3] as i32;
        let field = strings[r[2] as usize].to_string();
        record.fields.push((field, FieldInfo { word, ty }));
    }
}

/// The array of a row 133.
#[inline]
fn array_of(r: &Row) -> ArrayInfo {
    ArrayInfo {
        rank: r[2] as usize,
        line: r[3],
        has_lower: r[4] == 1,
        implicit: false,
    }
}

/// The procedure of a row 135, without its parameters.
#[inline]
fn proc_of(r: &Row, strings: &[&str]) -> ProcInfo {
    ProcInfo {
        is_function: r[2] == 1,
        params: Vec::new(),
        ret_ty: type_of(r[4], r[5], strings),
        line: r[3],
    }
}

/// The parameter of a row 136, at its place in its procedure.
#[inline]
fn put_param(s: &mut Symbols, name: &str, r: &Row, strings: &[&str]) {
    if let Some(info) = s.procs.get_mut(name) {
        let param = |name: &str, mark: u32, ty| Param {
            name: name.to_string(),
            byval: mark & 1 != 0,
            array: mark & 2 != 0,
            ty,
        };
        let ordinal = (r[1] as usize).min(MOST_ORDINALS);
        info.params.resize_with(ordinal, || param("", 1, None));
        let ty = type_of(r[4], r[5], strings);
        info.params.push(param(strings[r[2] as usize], r[3], ty));
    }
}

/// No list has so many members that a greater ordinal could be asked for.
const MOST_ORDINALS: usize = 8_192;

/// How many rows there are, without building them.
pub fn row_count(original: &Original) -> usize {
    let s = original.symbols();
    let items = |sets: &NameSets| sets.vars.union(&sets.arrays).count();
    s.lines.len()
        + s.labels.len()
        + s.records
            .values()
            .map(|r| 1 + r.fields.len())
            .sum::<usize>()
        + s.consts.len()
        + s.arrays.len()
        + s.typed_vars.len()
        + s.procs.values().map(|p| 1 + p.params.len()).sum::<usize>()
        + s.shared_all.vars.len()
        + s.shared_all.arrays.len()
        + s.proc_shared.values().map(items).sum::<usize>()
        + s.proc_static.values().map(items).sum::<usize>()
        + s.static_procs.len()
        + s.def_fns.len()
        + original.unranked_array_params().len()
        + usize::from(original.seen_option_base())
}
