//! The cases, group by group. Each group says which rows of `docs/TRACE.md` it is for.

use crate::case::{Case, Entry};
use image::raw::Raw;
use oracle::Row;
use oracle::sema::builtin_names;

const EVERY: [Entry; 23] = [
    Entry::ReadStatement,
    Entry::ReadExpression,
    Entry::Statement,
    Entry::Expression,
    Entry::Accept,
    Entry::PastStatement,
    Entry::PastExpression,
    Entry::Shares,
    Entry::IsStatic,
    Entry::TypeWords,
    Entry::TypedVar,
    Entry::TypedVarIn,
    Entry::LookupArray,
    Entry::DeclaredType,
    Entry::Builtin,
    Entry::ConstEval,
    Entry::SubscriptCount,
    Entry::CheckNameCollisions,
    Entry::Collect,
    Entry::ResolveExpr,
    Entry::ResolveArgs,
    Entry::ResolveArrayAccesses,
    Entry::Analyse,
];

/// Those that take lent rows.
const OVER_ROWS: [Entry; 12] = [
    Entry::Shares,
    Entry::IsStatic,
    Entry::TypeWords,
    Entry::TypedVar,
    Entry::TypedVarIn,
    Entry::LookupArray,
    Entry::DeclaredType,
    Entry::ConstEval,
    Entry::CheckNameCollisions,
    Entry::ResolveExpr,
    Entry::ResolveArgs,
    Entry::ResolveArrayAccesses,
];

/// What a buffer holds that was used before.
const DIRT: u32 = 0xdead_beef;

/// A word of a kind that is none.
const WRONG: u32 = 200 << 24 | 1;
const LITERAL: [u32; 3] = [16 << 24, 24 << 24, 5];
const PAREN: u32 = 23 << 24;
const LOOP: u32 = 73 << 24;
const CLS: u32 = 107 << 24;

pub fn all() -> Vec<Case> {
    let mut to = Vec::new();
    no_strings(&mut to);
    pairs_of_causes(&mut to);
    sizes(&mut to);
    places(&mut to);
    whole_trees(&mut to);
    depths(&mut to);
    rules(&mut to);
    orders_and_tails(&mut to);
    names_and_scopes(&mut to);
    visible(&mut to);
    types(&mut to);
    builtins(&mut to);
    folds(&mut to);
    subscripts(&mut to);
    collisions(&mut to);
    collecting(&mut to);
    resolving(&mut to);
    gaps(&mut to);
    analysing(&mut to);
    to
}

// ---- parts of a case

/// A string table of these strings.
fn table(strings: &[&str]) -> Raw {
    let mut sorted = strings.to_vec();
    sorted.sort_unstable();
    sorted.dedup();
    let mut raw = Raw::default();
    raw.set_strings(&sorted);
    raw
}

fn program(text: &str) -> Raw {
    let file = image::text::parse(text).unwrap_or_else(|fault| panic!("{fault}\n{text}"));
    Raw::from_bytes(&file).expect("an image")
}

/// The number of a string.
fn number(raw: &Raw, s: &str) -> u32 {
    let strings = raw.strings().expect("a right table").all;
    let found = strings.iter().position(|t| *t == s);
    found.unwrap_or_else(|| panic!("no string {s}")) as u32
}

fn row(kind: u32, name: u32, words: &[u32]) -> Row {
    let mut row = [0; 6];
    row[0] = kind << 24 | name;
    row[1..=words.len()].copy_from_slice(words);
    row
}

/// Rows in their order, as words.
fn laid(mut rows: Vec<Row>) -> Vec<u32> {
    rows.sort_unstable();
    rows.concat()
}

/// A call that nothing refuses where the strings have a name under number 0.
fn right(label: String, entry: Entry, strings: &Raw) -> Case {
    let mut raw = strings.clone();
    let mut numbers = [0; 3];
    raw.tree = match entry {
        Entry::ReadExpression
        | Entry::Expression
        | Entry::PastExpression
        | Entry::ConstEval
        | Entry::ResolveExpr => LITERAL.to_vec(),
        Entry::ResolveArgs => [&[1 << 24 | 1], &LITERAL[..]].concat(),
        _ => program("(program (Cls line=7))").tree,
    };
    match entry {
        Entry::ReadStatement | Entry::Statement | Entry::PastStatement => numbers[0] = 1,
        Entry::TypeWords => numbers[0] = 40,
        _ => {}
    }
    let mut case = Case::new(label, entry, &numbers, &raw);
    case.rows = vec![0; 12];
    case.notes = vec![0; 12];
    case.out = vec![DIRT; 8];
    if matches!(entry, Entry::Collect | Entry::Analyse) {
        case.rows.fill(DIRT);
    }
    case.notes.fill(DIRT);
    case
}

// ---- R-STR-06: no strings, with and without bytes

fn no_strings(to: &mut Vec<Case>) {
    for entry in EVERY {
        let mut raw = Raw::default();
        to.push(right(format!("no strings, {entry:?}"), entry, &raw));
        raw.bytes = b"A".to_vec();
        to.push(right(format!("bytes alone, {entry:?}"), entry, &raw));
    }
}

// ---- R-REF-13: each pair of causes, in every entry; the first in document 01's order is told

/// Puts a cause of this number into a case, where its entry can have one.
fn cause(case: &mut Case, cause: u32) -> bool {
    use Entry::*;
    let entry = case.entry;
    let lookup = matches!(
        entry,
        Shares | IsStatic | TypedVar | TypedVarIn | LookupArray | DeclaredType
    );
    let rows = OVER_ROWS.contains(&entry);
    let tree = !lookup && !matches!(entry, TypeWords | Builtin | CheckNameCollisions);
    let whole = matches!(entry, Accept | Collect | Analyse);
    match cause {
        // equal strings, the second and third of the table
        1 => case.raw.bytes[1..3].copy_from_slice(b"BB"),
        // the statement's head, or the literal's
        2 if tree => {
            let last = case.raw.tree.len() - 1;
            let literal = case.raw.tree.ends_with(&LITERAL);
            case.raw.tree[last - usize::from(literal)] = WRONG;
        }
        // a hundred levels and a right head below, before the wrong word if there is one
        3 if tree => deepen(case),
        4 if whole => case.raw.erased = vec![1, 1],
        6 if rows => case.rows[0] = 1,
        7 if matches!(entry, Collect | Analyse) => case.rows.truncate(5),
        8 if matches!(entry, Collect | Analyse) => case.notes.truncate(5),
        10 if matches!(
            entry,
            ResolveExpr | ResolveArgs | ResolveArrayAccesses | Analyse
        ) =>
        {
            case.out.truncate(1);
        }
        11 if lookup || matches!(entry, SubscriptCount | Builtin | TypeWords) => {
            case.numbers = [99; 3];
        }
        11 if matches!(entry, ResolveExpr | ResolveArgs) => case.numbers[0] = 99,
        _ => return false,
    }
    true
}

/// A hundred levels in place of the tree, and behind them the wrong word if there was one.
fn deepen(case: &mut Case) {
    use Entry::*;
    let entry = case.entry;
    let list = matches!(entry, ResolveArgs);
    let expr = [vec![PAREN; 100], LITERAL.to_vec()].concat();
    let wrong = case.raw.tree.contains(&WRONG);
    case.raw.tree = match entry {
        ReadExpression | Expression | PastExpression | ConstEval | ResolveExpr => expr,
        _ if list => [vec![1 << 24 | 1], expr].concat(),
        _ => [vec![1 << 24 | 1], nested(100), vec![CLS]].concat(),
    };
    if wrong {
        case.raw.tree.push(WRONG);
    }
}

/// DO loops in one another, so many, the innermost with one statement to come.
fn nested(levels: usize) -> Vec<u32> {
    let level = [LOOP, 0, 3 << 24, 3 << 24, 1 << 24 | 1];
    level.repeat(levels)
}

fn pairs_of_causes(to: &mut Vec<Case>) {
    const CAUSES: [u32; 9] = [1, 2, 3, 4, 6, 11, 10, 7, 8];
    let strings = table(&["A", "B", "C"]);
    for entry in EVERY {
        let mut whole = right(format!("all causes, {entry:?}"), entry, &strings);
        if matches!(entry, Entry::Collect | Entry::Analyse) {
            // a label twice: a row and a diagnostic
            whole.raw.tree = program("(program (Label 1) (Label line=2 1))").tree;
        }
        for (i, first) in CAUSES.iter().enumerate() {
            let mut one = whole.clone();
            one.label = format!("cause {first}, {entry:?}");
            if !cause(&mut one, *first) {
                continue;
            }
            for second in &CAUSES[i + 1..] {
                let mut two = one.clone();
                two.label = format!("causes {first} {second}, {entry:?}");
                if cause(&mut two, *second) {
                    to.push(two);
                }
            }
            to.push(one);
        }
        for c in CAUSES {
            cause(&mut whole, c);
        }
        // and 5 before them all
        whole.raw.ends.resize(1025, 3);
        to.push(whole);
    }
}

// ---- R-IN-06, R-IN-07: each size at its limit and one past it

/// Each sized input, so many past its limit.
fn sized(to: &mut Vec<Case>, over: usize) {
    let mut raw = table(&["A"]);
    raw.tree = vec![CLS; 8192 + over];
    raw.tree[0] = 1 << 24 | (8191 + over as u32);
    to.push(Case::new(
        format!("{} words", 8192 + over),
        Entry::Accept,
        &[],
        &raw,
    ));
    let texts: Vec<String> = (0..1024 + over).map(|i| format!("A{i:05}")).collect();
    let mut raw = table(&texts.iter().map(String::as_str).collect::<Vec<_>>());
    raw.tree = vec![1 << 24];
    to.push(Case::new(
        format!("{} strings", 1024 + over),
        Entry::Builtin,
        &[5],
        &raw,
    ));
    raw.erased = (0..1024 + over as u32).collect();
    raw.ends.truncate(1024);
    raw.bytes.truncate(6 * 1024);
    if over == 1 {
        raw.erased.push(7);
    }
    to.push(Case::new(
        format!("{} erased", 1024 + over),
        Entry::Accept,
        &[],
        &raw,
    ));
    let mut raw = Raw::default();
    raw.set_strings(&[vec![b'A'; 16384 + over]]);
    let label = format!("{} bytes", 16384 + over);
    to.push(Case::new(label, Entry::TypeWords, &[41, 0], &raw));
}

fn sizes(to: &mut Vec<Case>) {
    for over in [0, 1] {
        sized(to, over);
    }
    // rows, diagnostics and outputs have no limit
    let mut case = right(
        "2000 rows of zeros".to_string(),
        Entry::Shares,
        &table(&["A"]),
    );
    case.rows = vec![0; 8200];
    to.push(case);
}

// ---- R-ENT-06 to R-ENT-08: every place of a tree, and past its end

/// The entries that resolve, at every place of the tree.
fn resolved_places(to: &mut Vec<Case>, raw: &Raw) {
    for at in 0..raw.tree.len() as u32 + 3 {
        for (entry, numbers) in [
            (Entry::ResolveExpr, [0, 0, at]),
            (Entry::ResolveArgs, [0, 0, at]),
        ] {
            let mut case = Case::new(format!("{entry:?} at {at}"), entry, &numbers, raw);
            case.out = vec![DIRT; 14];
            to.push(case);
        }
    }
}

fn places(to: &mut Vec<Case>) {
    let raw = program(
        "(program
          (Let line=3 name=X value=(Binary op=Add left=(Paren A) right=(FnCall name=F args=[1 \"T\"])))
          (While line=4 condition=1.5 body=[(Cls line=5) (Const line=6 name=K value=(Unary op=Neg operand=2&))])
          (End line=7))",
    );
    let entries = [
        Entry::ReadStatement,
        Entry::ReadExpression,
        Entry::Statement,
        Entry::Expression,
        Entry::PastStatement,
        Entry::PastExpression,
        Entry::ConstEval,
    ];
    for entry in entries {
        for at in 0..raw.tree.len() as u32 + 3 {
            to.push(Case::new(format!("{entry:?} at {at}"), entry, &[at], &raw));
        }
        to.push(Case::new(
            format!("{entry:?} at the last place"),
            entry,
            &[u32::MAX],
            &raw,
        ));
    }
    resolved_places(to, &raw);
    // a float that isn't finite is told at its high word
    let mut raw = table(&["A"]);
    raw.tree = vec![DIRT, 16 << 24, 27 << 24, 0, 0x7ff0_0000, DIRT];
    for entry in [Entry::ReadExpression, Entry::Expression, Entry::ConstEval] {
        to.push(Case::new(format!("infinite, {entry:?}"), entry, &[1], &raw));
    }
}

// ---- R-REF-03: no words, an early end, words over and a wrong word, in the entries that take a whole tree

fn whole_trees(to: &mut Vec<Case>) {
    let raw = program("(program (Let line=3 name=A value=5) (Cls line=4))");
    let size = raw.tree.len();
    let mut trees: Vec<(String, Vec<u32>)> = (0..size)
        .map(|n| (format!("{n} of {size} words"), raw.tree[..n].to_vec()))
        .collect();
    for over in [vec![0], vec![CLS], vec![WRONG], vec![DIRT; 3]] {
        let label = format!("{} words over, {:x}", over.len(), over[0]);
        trees.push((label, [raw.tree.clone(), over].concat()));
    }
    // wrong everywhere but as the Integer's value, which any word is
    for at in 0..size {
        let mut tree = raw.tree.clone();
        tree[at] = WRONG;
        trees.push((format!("{WRONG:x} at {at}"), tree));
    }
    for (label, tree) in trees {
        for entry in [
            Entry::Accept,
            Entry::SubscriptCount,
            Entry::Collect,
            Entry::ResolveArrayAccesses,
            Entry::Analyse,
        ] {
            let mut case = right(format!("{label}, {entry:?}"), entry, &raw);
            case.raw.tree = tree.clone();
            case.out = vec![DIRT; size + 4];
            to.push(case);
        }
    }
}

// ---- R-DEP-06: depth counts from the reading place

fn depths(to: &mut Vec<Case>) {
    deep_pairs(to);
    first_faults(to);
    deep_loops(to);
}

/// Parentheses about the limit, from the tree's first word and from a later one.
fn deep_pairs(to: &mut Vec<Case>) {
    for (pairs, deepest) in [(98, 0), (99, 0), (100, 0), (100, 1), (101, 0)] {
        for before in [0, 3] {
            let inner = if deepest == 1 { [9 << 24; 3] } else { LITERAL };
            let expr = [vec![PAREN; pairs], inner.to_vec()].concat();
            let mut raw = table(&["A"]);
            raw.tree = [vec![DIRT; before], expr, vec![DIRT; 2]].concat();
            let at = before as u32;
            for (entry, numbers) in [
                (Entry::ReadExpression, [at, 0, 0]),
                (Entry::Expression, [at, 0, 0]),
                (Entry::Expression, [at + 1, 0, 0]),
                (Entry::PastExpression, [at, 0, 0]),
                (Entry::PastExpression, [at + 1, 0, 0]),
                (Entry::ConstEval, [at, 0, 0]),
                (Entry::ConstEval, [at + 2, 0, 0]),
                (Entry::ResolveExpr, [0, 0, at]),
            ] {
                let label = format!("{pairs} pairs from {before}, {entry:?}");
                let mut case = Case::new(label, entry, &numbers, &raw);
                case.out = vec![DIRT; 110];
                if entry != Entry::ResolveExpr {
                    case.out.clear();
                }
                to.push(case);
            }
        }
    }
}

/// The first fault decides: a wrong word before the deep head, and after it.
fn first_faults(to: &mut Vec<Case>) {
    let deep = [vec![PAREN; 100], LITERAL.to_vec()].concat();
    for (label, sides) in [
        ("wrong before deep", [vec![WRONG], deep.clone()]),
        ("deep before wrong", [deep, vec![WRONG]]),
    ] {
        let mut raw = table(&["A"]);
        raw.tree = [vec![20 << 24, 9 << 24], sides.concat()].concat();
        for (entry, numbers) in [
            (Entry::ReadExpression, [0; 3]),
            (Entry::Expression, [0; 3]),
            (Entry::PastExpression, [0; 3]),
            (Entry::ConstEval, [0; 3]),
            (Entry::ResolveExpr, [0; 3]),
        ] {
            to.push(Case::new(
                format!("{label}, {entry:?}"),
                entry,
                &numbers,
                &raw,
            ));
        }
    }
}

/// Loops about the limit.
fn deep_loops(to: &mut Vec<Case>) {
    for levels in [98, 99, 100] {
        let last = [[CLS].to_vec(), vec![DIRT; 2]].concat();
        let mut raw = table(&["A"]);
        raw.tree = [vec![DIRT; 4], nested(levels), last].concat();
        for entry in [Entry::ReadStatement, Entry::Statement, Entry::PastStatement] {
            for at in [4, 9] {
                let label = format!("{levels} loops at {at}, {entry:?}");
                to.push(Case::new(label, entry, &[at], &raw));
            }
        }
    }
}

// ---- R-REF-06, R-ROW-17 to R-ROW-21, R-ROW-23: every word of every kind of row, at the bounds

/// Strings 0 to 4: a text, three names and a text.
fn four() -> Raw {
    table(&["", "A", "B%", "C.1$", "lower"])
}

/// A call of an entry over rows, which nothing but these can refuse.
fn over(label: String, entry: Entry, rows: Vec<u32>) -> Case {
    let mut case = right(label, entry, &four());
    case.numbers = match entry {
        Entry::TypeWords => [45, 2, 0],
        Entry::Shares | Entry::IsStatic => [1, 2, 0],
        Entry::ConstEval | Entry::ResolveExpr => [0, 0, 0],
        _ => [0, 1, 0],
    };
    if !matches!(entry, Entry::CheckNameCollisions) {
        case.notes.clear();
    }
    case.out = vec![DIRT; 5];
    case.rows = rows;
    case
}

/// Right rows of every kind: kind, name and words.
const RIGHT_ROWS: [(u32, u32, &[u32]); 24] = [
    (128, 0, &[0, 2, 0, 0, 0]),
    (129, 1, &[0, 0, 0, 0, 0]),
    (130, 1, &[0, 8, 3, 0, 0]),
    (131, 1, &[0, 2, 4, 40, 0]),
    (131, 1, &[0, 2, 4, 44, 9]),
    (131, 1, &[0, 2, 4, 45, 3]),
    (132, 1, &[0, 24, 5, 0, 0]),
    (132, 1, &[0, 25, 5, 0, 0]),
    (132, 1, &[0, 26, 5, 0, 0]),
    (132, 1, &[0, 27, 5, 0, 0]),
    (132, 1, &[0, 28, 0, 0, 0]),
    (133, 1, &[2, 1, 3, 1, 0]),
    (134, 1, &[2, 41, 0, 0, 0]),
    (134, 1, &[2, 44, 7, 0, 0]),
    (135, 1, &[0, 1, 3, 0, 0]),
    (135, 1, &[0, 0, 3, 43, 0]),
    (136, 1, &[0, 2, 3, 0, 0]),
    (137, 1, &[1, 0, 0, 0, 0]),
    (138, 1, &[2, 3, 0, 0, 0]),
    (139, 1, &[2, 3, 0, 0, 0]),
    (140, 1, &[0, 0, 0, 0, 0]),
    (141, 1, &[0, 0, 0, 0, 0]),
    (142, 1, &[2, 0, 0, 0, 0]),
    (143, 0, &[0, 1, 0, 0, 0]),
];

/// What each word of them is set to.
const VALUES: [u32; 24] = [
    0,
    1,
    2,
    3,
    4,
    5,
    6,
    39,
    40,
    43,
    44,
    45,
    46,
    65_535,
    65_536,
    16_777_215,
    16_777_216,
    0x7fef_ffff,
    0x7ff0_0000,
    0x7fff_ffff,
    0x8000_0000,
    0x8000_0001,
    0xfff0_0000,
    u32::MAX,
];

fn rules(to: &mut Vec<Case>) {
    let mut entries = OVER_ROWS.iter().cycle();
    for (kind, name, words) in RIGHT_ROWS {
        for payload in [0, 1, 2, 4, 5, 0x00ff_ffff] {
            let rows = row(kind, payload, words).to_vec();
            let entry = *entries.next().expect("a cycle");
            to.push(over(
                format!("row {kind} of {payload}, {entry:?}"),
                entry,
                rows,
            ));
        }
        for j in 1..6 {
            for value in VALUES {
                let mut rows = row(kind, name, words);
                rows[j] = value;
                let entry = *entries.next().expect("a cycle");
                let label = format!("row {kind} {words:?} word {j} {value}, {entry:?}");
                to.push(over(label, entry, rows.to_vec()));
            }
        }
    }
    whole_numbers(to);
    for kind in [0, 127, 144, 255] {
        let rows = row(kind, 1, &[]).to_vec();
        to.push(over(format!("a row of kind {kind}"), Entry::TypedVar, rows));
    }
}

/// Whole numbers of 64 bits at their ends, and one past them.
fn whole_numbers(to: &mut Vec<Case>) {
    for kind in [24, 25] {
        for value in [
            -2_147_483_649i64,
            -2_147_483_648,
            -1,
            2_147_483_647,
            2_147_483_648,
            2_147_483_649,
            1 << 32,
        ] {
            let rows = row(132, 1, &[0, kind, value as u32, (value >> 32) as u32, 0]);
            let label = format!("constant {kind} {value}");
            to.push(over(label, Entry::ConstEval, rows.to_vec()));
        }
    }
}

// ---- R-ROW-15, R-ROW-16: the order of rows, zeros behind them, and no row against another

/// Words that are lent as rows, and what they are.
type Labelled = (&'static str, Vec<u32>);

/// The row that others come before or behind.
const ARRAY_ROW: Row = [133 << 24 | 1, 0, 1, 1, 0, 0];

/// Rows in each order, and zero rows among them.
fn orders() -> Vec<Labelled> {
    let a = ARRAY_ROW;
    let b = row(133, 1, &[2, 1, 1, 0, 0]);
    let c = row(134, 2, &[0, 40, 0, 0, 0]);
    let zero = [0; 6];
    vec![
        ("three rows", [a, b, c].concat()),
        ("falling", [a, c, b].concat()),
        ("falling at once", [b, a].concat()),
        ("the same twice", [a, a].concat()),
        ("one key twice", [a, row(133, 1, &[0, 2, 9, 1, 0])].concat()),
        ("a row after a zero row", [a, zero, c].concat()),
        ("a zero row first", [zero, a].concat()),
        ("zero rows behind", [a, zero, zero].concat()),
        (
            "a first word of 0, others not",
            [a, [0, 0, 0, 0, 0, 1]].concat(),
        ),
    ]
}

/// Rows that lack others beside them, and no row at all.
fn lone_rows() -> Vec<Labelled> {
    vec![
        (
            "a field without its TYPE",
            row(131, 1, &[0, 2, 0, 40, 0]).to_vec(),
        ),
        (
            "a parameter without its procedure",
            row(136, 1, &[0, 2, 0, 0, 0]).to_vec(),
        ),
        (
            "ordinals with gaps",
            laid(vec![
                row(135, 1, &[]),
                row(136, 1, &[2, 2, 0, 0, 0]),
                row(136, 1, &[7, 2, 0, 0, 0]),
            ]),
        ),
        (
            "a type that no row has",
            row(134, 1, &[0, 45, 3, 0, 0]).to_vec(),
        ),
        ("no words", vec![]),
    ]
}

/// Words that aren't a whole row, behind one and alone.
fn tails() -> Vec<Labelled> {
    let a = ARRAY_ROW;
    let mut tables: Vec<Labelled> = Vec::new();
    for more in 1..6 {
        for last in [0, 1] {
            let mut words = a.to_vec();
            words.extend(vec![0; more - 1]);
            words.push(last);
            let label = if last == 0 {
                "zeros too few for a row"
            } else {
                "a tail that isn't zero"
            };
            tables.push((label, words));
        }
        tables.push(("too few words for one row, zero", vec![0; more]));
        tables.push(("too few words for one row", a[..more].to_vec()));
    }
    tables
}

fn orders_and_tails(to: &mut Vec<Case>) {
    let tables = [orders(), lone_rows(), tails()].concat();
    for (label, words) in tables {
        for entry in OVER_ROWS {
            let label = format!("{label} ({} words), {entry:?}", words.len());
            to.push(over(label, entry, words.clone()));
        }
    }
}

// ---- R-REF-07: names, scopes and types that a lookup refuses

fn names_and_scopes(to: &mut Vec<Case>) {
    let numbers = [0, 1, 2, 3, 4, 5, 6, 16_777_216, u32::MAX];
    for entry in [
        Entry::Shares,
        Entry::IsStatic,
        Entry::TypedVar,
        Entry::TypedVarIn,
        Entry::LookupArray,
        Entry::DeclaredType,
        Entry::ResolveArgs,
    ] {
        for a in numbers {
            let mut case = over(format!("{entry:?} {a} and name 1"), entry, vec![]);
            case.numbers = [a, 1, 0];
            to.push(case);
            let mut case = over(format!("{entry:?} 1 or 2 and name {a}"), entry, vec![]);
            let lookup = matches!(entry, Entry::Shares | Entry::IsStatic);
            case.numbers = [if lookup { 1 } else { 2 }, a, 0];
            to.push(case);
        }
    }
    for a in numbers {
        for entry in [Entry::Builtin, Entry::SubscriptCount, Entry::ResolveExpr] {
            let mut case = over(format!("{entry:?} of {a}"), entry, vec![]);
            case.numbers = [a, 0, 0];
            to.push(case);
        }
    }
    for head in [0, 1, 39, 40, 41, 42, 43, 44, 45, 46, 255, u32::MAX] {
        for arg in [0, 1, 2, 4, 5, 65_536, 16_777_215, 16_777_216, u32::MAX] {
            let label = format!("type_words of {head} {arg}");
            let mut case = over(label, Entry::TypeWords, vec![]);
            case.numbers = [head, arg, 0];
            to.push(case);
        }
    }
}

// ---- R-LK-03 to R-LK-07, R-LK-11: own and module's entries, shared by each mark, DEF FN, STATIC

/// The names that are looked up.
const NAMED: [&str; 10] = [
    "ALL", "ARR", "BOTH", "SA", "SV", "VA", "VAR", "NONE", "MINE", "ONLY",
];

/// The rows among which they are.
fn visible_rows(raw: &Raw) -> Vec<u32> {
    let n = |s: &str| number(raw, s);
    let scope = |s: &str| n(s) + 1;
    let mut rows = vec![
        row(135, n("P"), &[0, 0, 1, 0, 0]),
        row(135, n("Q"), &[0, 0, 2, 0, 0]),
        row(135, n("FN"), &[0, 1, 3, 0, 0]),
        row(140, n("R"), &[]),
        row(141, n("FN"), &[]),
        // of the module's names all but MINE and ONLY: typed, and arrays
        row(134, n("MINE"), &[scope("P"), 41, 0]),
        row(133, n("MINE"), &[scope("P"), 2, 20, 1]),
        row(134, n("ONLY"), &[scope("Q"), 44, 8]),
        row(133, n("ONLY"), &[scope("Q"), 3, 30, 0]),
        // the procedure's own beside the module's
        row(134, n("BOTH"), &[scope("P"), 43, 0]),
        row(133, n("BOTH"), &[scope("P"), 9, 90, 1]),
        row(138, n("BOTH"), &[scope("P"), 3]),
        row(137, n("VAR"), &[0]),
        row(137, n("ARR"), &[1]),
        row(137, n("ALL"), &[0]),
        row(137, n("ALL"), &[1]),
        row(138, n("SV"), &[scope("P"), 1]),
        row(138, n("SA"), &[scope("P"), 2]),
        row(138, n("VA"), &[scope("P"), 3]),
        row(138, n("SV"), &[0, 3]),
        row(139, n("SV"), &[scope("P"), 1]),
        row(139, n("SA"), &[scope("P"), 2]),
        row(139, n("VA"), &[scope("P"), 3]),
        row(139, n("NONE"), &[0, 3]),
    ];
    for (i, name) in (1..).zip(NAMED) {
        rows.push(row(134, n(name), &[0, 45, n("R"), 0, 0]));
        rows.push(row(133, n(name), &[0, i, i, i % 2, 0]));
    }
    // those of one scope alone
    rows.retain(|r| !([n("MINE"), n("ONLY")].contains(&(r[0] & 0x00ff_ffff)) && r[1] == 0));
    laid(rows)
}

fn visible(to: &mut Vec<Case>) {
    let raw = table(&[
        "ALL", "ARR", "BOTH", "FN", "MINE", "ONLY", "P", "Q", "R", "SA", "SV", "VAR", "VA", "NONE",
    ]);
    let n = |s: &str| number(&raw, s);
    let scope = |s: &str| n(s) + 1;
    let rows = visible_rows(&raw);
    for proc in ["P", "Q", "R", "FN", "NONE"] {
        for name in NAMED {
            for array in [0, 1] {
                for entry in [Entry::Shares, Entry::IsStatic] {
                    let label = format!("{entry:?} {proc} {name} {array}");
                    let numbers = [n(proc), n(name), array];
                    let mut case = Case::new(label, entry, &numbers, &raw);
                    case.rows = rows.clone();
                    to.push(case);
                }
            }
        }
    }
    for within in ["", "P", "Q", "R", "FN"] {
        let a = if within.is_empty() { 0 } else { scope(within) };
        for name in NAMED.iter().chain(&["P"]) {
            for entry in [
                Entry::TypedVar,
                Entry::TypedVarIn,
                Entry::LookupArray,
                Entry::DeclaredType,
            ] {
                let label = format!("{entry:?} {name} in {within}");
                let mut case = Case::new(label, entry, &[a, n(name)], &raw);
                case.rows = rows.clone();
                to.push(case);
            }
        }
    }
}

// ---- R-LK-02, R-LK-08: sizes of types, and the type that a name holds by each suffix and each AS

fn types(to: &mut Vec<Case>) {
    let raw = table(&[
        "A", "A!", "A#", "A$", "A%", "A&", "BIG", "EMPTY", "P", "REC",
    ]);
    sizes_of_types(to, &raw);
    held_types(to, &raw);
}

/// The words that a value of each type takes.
fn sizes_of_types(to: &mut Vec<Case>, raw: &Raw) {
    let n = |s: &str| number(raw, s);
    let records = vec![
        row(130, n("BIG"), &[0, 65_535, 1]),
        row(130, n("EMPTY"), &[]),
        row(130, n("REC"), &[0, 7, 2]),
        // a field's row is no TYPE's
        row(131, n("P"), &[0, n("A"), 0, 40, 0]),
    ];
    for (head, arg) in [
        (40, 0),
        (41, 0),
        (42, 0),
        (43, 0),
        (44, 0),
        (44, 1),
        (44, 16_777_215),
        (45, n("BIG")),
        (45, n("EMPTY")),
        (45, n("REC")),
        (45, n("P")),
        (45, n("A$")),
    ] {
        let label = format!("type_words {head} {arg}");
        let mut case = Case::new(label, Entry::TypeWords, &[head, arg], raw);
        case.rows = laid(records.clone());
        to.push(case);
    }
}

/// The type that a name holds, by its suffix, by AS and where it is shared.
fn held_types(to: &mut Vec<Case>, raw: &Raw) {
    let n = |s: &str| number(raw, s);
    for name in ["A", "A!", "A#", "A$", "A%", "A&"] {
        let a = n(name);
        let mut case = Case::new(
            format!("suffix of {name}"),
            Entry::DeclaredType,
            &[0, a],
            raw,
        );
        to.push(case.clone());
        for (head, arg) in [
            (40, 0),
            (41, 0),
            (42, 0),
            (43, 0),
            (44, 0),
            (44, 8),
            (45, 9),
            (45, 0),
        ] {
            case.label = format!("{name} AS {head} {arg}");
            case.rows = row(134, a, &[0, head, arg]).to_vec();
            to.push(case.clone());
        }
        // sharing is asked as a variable, also for an array's name
        for mark in [1, 2, 3] {
            case.label = format!("{name} shared with mark {mark}");
            case.numbers = [n("P") + 1, a, 0];
            case.rows = laid(vec![
                row(133, a, &[0, 1, 1, 0, 0]),
                row(134, a, &[0, 41, 0]),
                row(138, a, &[n("P") + 1, mark]),
            ]);
            to.push(case.clone());
        }
    }
}

// ---- R-LK-09, R-LK-10: all 55 builtins and their near misses

fn builtins(to: &mut Vec<Case>) {
    for name in builtin_names() {
        let bare = name.trim_end_matches('$');
        let mut tries = vec![
            name.to_string(),
            format!("{bare}%"),
            format!("{bare}A"),
            format!("Z{name}"),
            bare[..bare.len() - 1].to_string(),
        ];
        tries.push(if bare == name {
            format!("{name}$")
        } else {
            bare.to_string()
        });
        let raw = table(&tries.iter().map(String::as_str).collect::<Vec<_>>());
        for i in 0..raw.ends.len() as u32 {
            let s = raw.strings().expect("a right table").all[i as usize].to_string();
            to.push(Case::new(
                format!("builtin {s}"),
                Entry::Builtin,
                &[i],
                &raw,
            ));
        }
    }
}

// ---- `const_eval` over lent constants

/// An expression's words, at place 3 of a CONST statement with a statement behind it.
fn constant(expr: &str) -> Raw {
    program(&format!(
        "(strings \"K\" \"L\" \"text\") (program (Const line=1 name=ZZ value={expr}) (End line=2))"
    ))
}

/// A binary operation, as text.
fn binary(op: &str, l: &str, r: &str) -> String {
    format!("(Binary op={op} left={l} right={r})")
}

/// A negation, as text.
fn negated(e: &str) -> String {
    format!("(Unary op=Neg operand={e})")
}

/// The expressions that are folded.
fn folded() -> Vec<String> {
    let mut exprs: Vec<String> = vec![
        "K".into(),
        "L".into(),
        "(Paren (Paren K))".into(),
        negated("K"),
        negated("L"),
        negated("\"text\""),
        "(Unary op=Not operand=(Binary op=Add left=30000 right=30000))".into(),
        "(FnCall name=K args=[1])".into(),
        "(ArrayAccess name=K indices=[1])".into(),
        "(Field base=K field=L)".into(),
        binary("Add", "30000", "2767"),
        binary("Add", "30000", "2768"),
        negated("-32768"),
        negated("-2147483648&"),
        binary("IntDiv", "7", "0.5"),
        binary("IntDiv", "7", "1.5"),
        binary("IntDiv", "2147483647.5", "1"),
        binary("IntDiv", "-2147483648.5", "1"),
        binary("IntDiv", "-2147483648&", "-1"),
        binary("Mod", "-2147483648&", "-1"),
        binary("Eq", "1", &binary("Add", "30000", "30000")),
        binary("Add", "16777217&", "1!"),
        binary("Add", "ZZ", &binary("Add", "30000", "30000")),
        binary("Add", &binary("Add", "30000", "30000"), "ZZ"),
        binary("Add", "\"text\"", &binary("Add", "30000", "30000")),
        binary("IntDiv", "3000000000.0", "0"),
    ];
    for op in [
        "Add", "Sub", "Mul", "Div", "IntDiv", "Mod", "Pow", "Lt", "And",
    ] {
        exprs.push(binary(op, "K", "1"));
        exprs.push(binary(op, "K", "L"));
        exprs.push(binary(op, "1.5", "K"));
    }
    exprs
}

fn folds(to: &mut Vec<Case>) {
    let float = |x: f64| [x.to_bits() as u32, (x.to_bits() >> 32) as u32];
    let values: [(u32, [u32; 2]); 7] = [
        (24, [0x8000_0000, 0]),
        (24, [0x8000_0000, u32::MAX]),
        (25, [0x7fff_ffff, 0]),
        (26, float(0.1)),
        (27, float(f64::MAX)),
        (27, float(-0.0)),
        (28, [0, 0]),
    ];
    for expr in &folded() {
        let raw = constant(expr);
        to.push(Case::new(
            format!("{expr} without rows"),
            Entry::ConstEval,
            &[3],
            &raw,
        ));
        if !expr.contains('K') {
            continue;
        }
        for (i, (kind, [low, high])) in values.iter().enumerate() {
            let (other, [l, h]) = values[(i + 1) % values.len()];
            let mut case = Case::new(
                format!("{expr}, K {kind} {low}"),
                Entry::ConstEval,
                &[3],
                &raw,
            );
            case.rows = laid(vec![
                row(132, number(&raw, "K"), &[0, *kind, *low, *high]),
                row(132, number(&raw, "L"), &[0, other, l, h]),
            ]);
            to.push(case);
        }
    }
}

// ---- `subscript_count` over a body

/// The bodies in which names are counted.
fn bodies() -> [String; 12] {
    let use_of = |name: &str, count: usize| {
        let args = vec!["1"; count].join(" ");
        format!("(FnCall name={name} args=[{args}])")
    };
    [
        String::new(),
        "(Let name=X value=A)".to_string(),
        format!("(Let name=X value={})", use_of("A", 2)),
        format!("(Let name=X value=(Paren (Paren {})))", use_of("A", 3)),
        format!("(Let name=A indices=[1 2] value={})", use_of("A", 3)),
        "(Let name=A indices=[] value=1)".to_string(),
        format!("(Let name=X value={})", use_of("A", 0)),
        format!(
            "(Let name=X value=(ArrayAccess name=B indices=[{}]))",
            use_of("A", 1)
        ),
        format!(
            "(Swap {{name=B indices=[1]}} {{name=A indices=[{}]}})",
            use_of("A", 3)
        ),
        format!(
            "(While condition={} body=[(Let name=A indices=[1] value=1)])",
            use_of("B", 2)
        ),
        format!("(Sub name=S body=[(Let name=X value={})])", use_of("A", 2)),
        format!("(Call name=A args=[{}])", use_of("B", 2)),
    ]
}

fn subscripts(to: &mut Vec<Case>) {
    for body in &bodies() {
        let raw = program(&format!(
            "(strings \"A\" \"B\" \"no name\") (program {body})"
        ));
        for name in ["A", "B", "no name"] {
            let n = number(&raw, name);
            to.push(Case::new(
                format!("{name} in {body}"),
                Entry::SubscriptCount,
                &[n],
                &raw,
            ));
        }
    }
}

// ---- `check_name_collisions` over lent rows, into diagnostics of each length

fn collisions(to: &mut Vec<Case>) {
    let raw = table(&["A", "F", "LEN", "S", "ZZ"]);
    let n = |s: &str| number(&raw, s);
    let rows = laid(vec![
        row(133, n("A"), &[0, 1, 1, 0]),
        row(133, n("F"), &[0, 1, 2, 0]),
        row(133, n("F"), &[n("S") + 1, 2, 3, 1]),
        row(133, n("LEN"), &[0, 1, 4, 0]),
        row(133, n("S"), &[0, 1, 5, 0]),
        row(135, n("F"), &[0, 1, 60]),
        row(135, n("S"), &[0, 0, 70]),
        row(135, n("ZZ"), &[0, 0, 80]),
    ]);
    for length in 0..32 {
        let mut case = Case::new(
            format!("collisions into {length} words"),
            Entry::CheckNameCollisions,
            &[],
            &raw,
        );
        case.rows = rows.clone();
        case.notes = vec![DIRT; length];
        to.push(case);
    }
    // a procedure named like a builtin gives 27
    let mut case = Case::new("LEN a procedure too", Entry::CheckNameCollisions, &[], &raw);
    case.rows = laid(vec![
        row(133, n("LEN"), &[0, 1, 4, 0]),
        row(135, n("LEN"), &[0, 1, 9]),
    ]);
    case.notes = vec![DIRT; 8];
    to.push(case);
}

// ---- R-ROW-13, R-REF-09 to R-REF-11: collecting into dirty buffers of every length about what is needed

const PROGRAMS: [&str; 6] = [
    "(program)",
    "(program (Label line=1 10) (LabelName line=2 L) (Label line=3 10))",
    "(erased E) (program
      (Dim line=1 decls=[{name=A dimensions=[5]} {name=LEN dimensions=[1 2]}] shared=yes)
      (Const line=2 name=K value=(Binary op=Add left=30000 right=2768))
      (Function line=3 name=A params=[{name=X} {name=Y array=yes} {name=Z ty=(FixedString 4)}] body=[
        (Shared line=4 [{name=A array=yes}])
        (Let line=5 name=X value=(FnCall name=Y args=[1 (Paren 2)]))])
      (Let line=6 name=X value=(Paren (Paren (FnCall name=LEN args=[(Paren 3)])))))",
    "(program
      (TypeDef line=1 name=T fields=[{name=X ty=Long} {name=Y ty=(FixedString 2)}])
      (TypeDef line=2 name=T fields=[{name=X ty=Long}])
      (OptionBase line=3 1)
      (Dim line=4 decls=[{name=V ty=(Record T)}]))",
    "(program
      (Sub line=1 name=P params=[{name=A array=yes} {name=B byval=yes} {name=C}])
      (Sub line=2 name=P params=[{name=A}])
      (Call line=3 name=P args=[(Paren (Paren A)) (Paren B)])
      (Let line=4 name=X value=(FnCall name=P args=[(Paren (Paren (Paren A))) (Paren B)])))",
    "(program (Shared line=1 [{name=A}]) (Static line=2 [{name=A}])
      (Dim line=3 decls=[{name=A% ty=Long} {name=B dimensions=[]}]))",
];

/// How many rows and diagnostics a program has.
fn needed(raw: &Raw) -> (usize, usize) {
    let lent = oracle::Lent {
        rows: 2048,
        diagnostics: 2048,
    };
    let input = oracle::input(raw).expect("a right program");
    let (rows, notes) = oracle::collected(&input, lent).expect("no limit is met");
    (rows.len(), notes.len())
}

fn collecting(to: &mut Vec<Case>) {
    for (i, text) in (1..).zip(PROGRAMS) {
        let raw = program(text);
        let (rows, notes) = needed(&raw);
        let mut lengths: Vec<(usize, usize)> = Vec::new();
        for more in 0..8 {
            lengths.push(((6 * rows + more).saturating_sub(1), 6 * notes + 2));
            lengths.push((6 * rows + 3, (6 * notes + more).saturating_sub(1)));
        }
        lengths.extend([(0, 0), (0, 600), (600, 0), (6 * rows + 60, 6 * notes + 61)]);
        for (r, d) in lengths {
            let label = format!("program {i} into {r} and {d} words");
            let mut case = Case::new(label, Entry::Collect, &[], &raw);
            case.rows = vec![DIRT; r.min(6 * rows + 60)];
            case.notes = vec![DIRT; d.min(6 * notes + 61)];
            to.push(case);
        }
    }
    // 9, alone and where a buffer is too short as well
    let doubled: Vec<String> = (1..=16)
        .map(|i| {
            let ty = if i == 1 {
                "Long".to_string()
            } else {
                format!("(Record T{})", i - 1)
            };
            format!("(TypeDef line={i} name=T{i} fields=[{{name=X ty={ty}}} {{name=Y ty={ty}}}])")
        })
        .collect();
    for (count, words) in [(15, 300), (16, 300), (16, 270), (16, 269), (16, 264)] {
        let raw = program(&format!("(program {})", doubled[..count].concat()));
        let label = format!("{count} TYPEs into {words} words");
        let mut case = Case::new(label, Entry::Collect, &[], &raw);
        case.rows = vec![DIRT; words];
        case.notes = vec![DIRT; 4];
        to.push(case);
    }
}

/// Where they stand in a program of a LET and a CALL, and how long they are: the value of the first, and the list of the second's arguments.
fn value_and_list(raw: &Raw) -> [(Entry, usize, usize); 2] {
    let strings = raw.strings().expect("a right table");
    let at = 4;
    let (_, end) = oracle::codec::expression_at(&raw.tree, at, &strings).expect("the value");
    let call = (end..raw.tree.len())
        .find(|at| oracle::codec::statement_at(&raw.tree, *at, &strings).is_ok())
        .expect("the CALL")
        + 2;
    let (_, past) = oracle::codec::expressions_at(&raw.tree, call, &strings).expect("its list");
    [
        (Entry::ResolveExpr, at, end - at),
        (Entry::ResolveArgs, call, past - call),
    ]
}

// ---- R-REF-08, R-RES-10: outputs of each length about the tree's, with many parentheses, dirty behind what is written

/// The value and the list of arguments, in each scope and under each name.
fn resolved_parts(to: &mut Vec<Case>, raw: &Raw, rows: &[Row]) {
    let n = |s: &str| number(raw, s);
    for (entry, at, size) in value_and_list(raw) {
        for scope in [0, n("S") + 1, n("F") + 1] {
            for name in [n("F"), n("A"), n("X")] {
                for length in size - 1..size + 3 {
                    let label = format!("{entry:?} {scope} {name} into {length} of {size}");
                    let numbers = [scope, name, at as u32];
                    let mut case = Case::new(label, entry, &numbers, raw);
                    case.rows = laid(rows.to_vec());
                    case.out = vec![DIRT; length];
                    to.push(case);
                }
            }
        }
    }
}

fn resolving(to: &mut Vec<Case>) {
    let raw = program(
        "(program
          (Let line=1 name=X value=(Paren (Paren (FnCall name=A args=[(Paren (Paren 2)) (Paren (FnCall name=F args=[(Paren (Paren X)) (Paren V) (Paren R) (Paren 4)]))]))))
          (Call line=2 name=F args=[(Paren (Paren (FnCall name=A args=[1]))) (Paren X)])
          (Sub line=3 name=S body=[(Let line=4 name=X value=(FnCall name=A args=[(Paren 1)]))]))",
    );
    let n = |s: &str| number(&raw, s);
    let mut rows = vec![
        row(133, n("A"), &[0, 2, 1, 0]),
        row(135, n("F"), &[0, 1, 9]),
        row(136, n("F"), &[0, n("X"), 0, 0, 0]),
        row(136, n("F"), &[1, n("V"), 1, 0, 0]),
        row(136, n("F"), &[2, n("R"), 0, 45, n("R")]),
    ];
    let size = raw.tree.len();
    for shared in [false, true] {
        if shared {
            rows.push(row(138, n("A"), &[n("S") + 1, 2]));
        }
        for length in (size - 3..size + 4).chain([0, 1, size / 2]) {
            let label = format!("the tree into {length} of {size} words, shared {shared}");
            let mut case = Case::new(label, Entry::ResolveArrayAccesses, &[], &raw);
            case.rows = laid(rows.clone());
            case.out = vec![DIRT; length];
            to.push(case);
        }
    }
    resolved_parts(to, &raw, &rows);
}

// ---- R-RES-02: the parameter is found by its ordinal, and only where the procedure has its row 135

/// The number of the procedure's name.
const F: u32 = 1;

/// A parameter of F under this ordinal, by reference but for its mark.
fn marked(ordinal: u32, mark: u32) -> Row {
    row(136, F, &[ordinal, F, mark])
}

/// A parameter of F under this ordinal, by reference.
fn param(ordinal: u32) -> Row {
    marked(ordinal, 0)
}

/// Parameters of F with gaps between their ordinals.
fn with_procedure() -> Vec<(&'static str, Vec<Row>)> {
    let procedure = row(135, F, &[0, 1, 9]);
    vec![
        ("0 and 2", vec![procedure, param(0), param(2)]),
        ("1 and 3", vec![procedure, param(1), param(3)]),
        ("2 alone", vec![procedure, param(2)]),
        ("0, 3 and 7", vec![procedure, param(0), param(3), param(7)]),
        ("4 alone", vec![procedure, param(4)]),
        (
            "0 and the last",
            vec![procedure, param(0), param(16_777_215)],
        ),
        ("0 BYVAL and 2", vec![procedure, marked(0, 1), param(2)]),
        (
            "0, 2 an array and 3",
            vec![procedure, param(0), marked(2, 2), param(3)],
        ),
        (
            "0 and 2, of the names beside it 1 and 3",
            vec![
                row(135, F - 1, &[0, 1, 9]),
                row(136, F - 1, &[3, F, 0]),
                procedure,
                param(0),
                param(2),
                row(135, F + 1, &[0, 1, 9]),
                row(136, F + 1, &[1, F, 0]),
            ],
        ),
    ]
}

/// Parameters of F where no row 135 tells of it.
fn without_procedure() -> Vec<(&'static str, Vec<Row>)> {
    let array = row(133, F, &[0, 4, 1, 0]);
    vec![
        ("0 and 2 without 135", vec![param(0), param(2)]),
        ("0 to 3 without 135", (0..4).map(param).collect()),
        (
            "0 and 2 without 135, beside it with",
            vec![
                row(135, F - 1, &[0, 1, 9]),
                param(0),
                param(2),
                row(135, F + 1, &[0, 1, 9]),
            ],
        ),
        (
            "0 and 2 without 135, an array",
            vec![array, param(0), param(2)],
        ),
    ]
}

fn gaps(to: &mut Vec<Case>) {
    let tables = [with_procedure(), without_procedure()].concat();
    for pairs in [1, 2] {
        let put = |name: &str| "(Paren ".repeat(pairs) + name + &")".repeat(pairs);
        let args = ["W", "X", "Y", "Z"].map(put).join(" ");
        let raw = program(&format!(
            "(strings \"E\" \"G\")
            (program (Let line=1 name=X value=(FnCall name=F args=[{args}])) (Call line=2 name=F args=[{args}]))"
        ));
        assert_eq!(number(&raw, "F"), F);
        let size = raw.tree.len();
        let places = value_and_list(&raw);
        let whole = [(Entry::ResolveArrayAccesses, 0, size)];
        for (label, rows) in &tables {
            for (entry, at, size) in places.iter().chain(&whole) {
                let label = format!("ordinals {label}, {pairs} pairs, {entry:?}");
                let mut case = Case::new(label, *entry, &[0, F, *at as u32], &raw);
                case.rows = laid(rows.clone());
                case.out = vec![DIRT; size + 1];
                to.push(case);
            }
        }
    }
}

// ---- `analyse`: 10 before 7 and 8, which leave the output; dirty tails

fn analysing(to: &mut Vec<Case>) {
    for (i, text) in (1..).zip(PROGRAMS) {
        let raw = program(text);
        let (rows, notes) = needed(&raw);
        let notes = notes + 2;
        let size = raw.tree.len();
        for (r, d, o) in [
            (6 * rows, 6 * notes, size),
            (6 * rows + 5, 6 * notes + 5, size + 3),
            (6 * rows + 13, 6 * notes + 7, size + 1),
            (6 * rows, 6 * notes, size - 1),
            ((6 * rows).saturating_sub(1), 6 * notes, size - 1),
            ((6 * rows).saturating_sub(1), 6 * notes, size + 2),
            (6 * rows, 5, size),
            (6 * rows, 11, size + 2),
            (6 * rows, 6 * notes - 7, size + 2),
            (0, 0, size),
        ] {
            let label = format!("analyse {i} into {r}, {d} and {o} words");
            let mut case = Case::new(label, Entry::Analyse, &[], &raw);
            case.rows = vec![DIRT; r];
            case.notes = vec![DIRT; d];
            case.out = vec![DIRT; o];
            to.push(case);
        }
    }
}
