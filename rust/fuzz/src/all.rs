//! Every small program, without chance: each space here is finite, stated in full, and gone through to its end.

use crate::program::{FLOATS, WHOLE};
use image::ast::*;
use image::codec::BINARY;
use image::raw::Raw;
use image::schema::{
    EXPR, FLAG, Field, Heads, INTEGER, LETTER, LIST, SIMPLE, STMT, STRING, Sort, Variant,
};

type Words = Vec<u32>;

/// What is done with each image of a space.
pub type Each<'a> = &'a mut dyn FnMut(&Raw);

/// A space of images: what it is, and a walk that hands out each of them once, up to a size.
pub struct Space {
    pub name: &'static str,
    pub size: usize,
    pub walk: fn(usize, Each<'_>),
}

/// How far each space goes.
#[derive(Debug, Clone, Copy)]
pub struct Sizes {
    /// Tree words of a right program.
    pub program: usize,
    /// Tree words after the first, right or wrong.
    pub words: usize,
    /// Statements out of the list.
    pub statements: usize,
    /// Operators of an expression.
    pub operators: usize,
}

/// What `fuzz all` goes through.
pub const LONG: Sizes = Sizes {
    program: 8,
    words: 3,
    statements: 3,
    operators: 2,
};

/// What the tests go through.
pub const SHORT: Sizes = Sizes {
    program: 6,
    words: 2,
    statements: 2,
    operators: 1,
};

pub fn spaces(sizes: Sizes) -> [Space; 4] {
    [
        Space {
            name: "right programs by the table of fields, tree words at most",
            size: sizes.program,
            walk: right,
        },
        Space {
            name: "a list of one and words after it, right or wrong, at most",
            size: sizes.words,
            walk: any_words,
        },
        Space {
            name: "statements out of statements.txt, at most",
            size: sizes.statements,
            walk: sequences,
        },
        Space {
            name: "CONSTs with operators, at most",
            size: sizes.operators,
            walk: folds,
        },
    ]
}

// Right programs, by the table of fields

/// The strings of these images: a plain name, one with a suffix, a built-in function's.
const NAMES: [&str; 3] = ["A", "A%", "LEN"];

/// Trees by their number of words. A leaf has few values: the three names, one text, 0 and 1, both flags, one letter, a whole
/// number that overflows when it is doubled, a half; enums without data have all of theirs.
#[derive(Default)]
struct Trees {
    exprs: Vec<Vec<Words>>,
    stmts: Vec<Vec<Words>>,
}

fn word(kind: u32, payload: usize) -> Words {
    vec![kind << 24 | payload as u32]
}

fn leaves(kind: u32, payloads: std::ops::Range<usize>) -> Vec<Words> {
    payloads.map(|p| word(kind, p)).collect()
}

impl Trees {
    /// Statements and expressions of less than so many words.
    fn below(words: usize) -> Trees {
        let mut trees = Trees::default();
        for n in 0..words {
            let exprs = trees.heads(&EXPR, n);
            trees.exprs.push(exprs);
            let stmts = trees.heads(&STMT, n);
            trees.stmts.push(stmts);
        }
        trees
    }

    /// What may stand at a place of this sort, in exactly so many words.
    fn of(&self, sort: &Sort, n: usize) -> Vec<Words> {
        match sort {
            Sort::Expr => self.exprs.get(n).cloned().unwrap_or_default(),
            Sort::Stmt => self.stmts.get(n).cloned().unwrap_or_default(),
            Sort::Heads(heads) => self.heads(heads, n),
            Sort::Struct(fields) => self.fields(fields, n),
            Sort::Option(inner) => {
                let absent = if n == 1 { vec![vec![0]] } else { vec![] };
                [absent, self.of(inner, n)].concat()
            }
            Sort::List(inner) => match n.checked_sub(1) {
                None => vec![],
                Some(n) => {
                    let items = self.items(inner, n).into_iter();
                    items
                        .map(|(count, words)| [word(LIST, count), words].concat())
                        .collect()
                }
            },
            Sort::Float if n == 2 => vec![vec![0, (0.5f64.to_bits() >> 32) as u32]],
            _ if n != 1 => vec![],
            Sort::Float => vec![],
            Sort::Name => leaves(STRING, 0..NAMES.len()),
            Sort::Text => leaves(STRING, 0..1),
            Sort::Integer => leaves(INTEGER, 0..2),
            Sort::Flag => leaves(FLAG, 0..2),
            Sort::Letter => leaves(LETTER, 65..66),
            Sort::Whole => vec![vec![30_000]],
            Sort::Simple(names) => leaves(SIMPLE, 0..names.len()),
        }
    }

    fn heads(&self, heads: &Heads, n: usize) -> Vec<Words> {
        let Some(rest) = n.checked_sub(1) else {
            return vec![];
        };
        let variants = heads.variants.iter().enumerate();
        let each = |(i, v): (usize, &Variant)| {
            let fields = self.fields(v.fields, rest).into_iter();
            fields.map(move |f| [word(heads.base + i as u32, 0), f].concat())
        };
        variants.flat_map(each).collect()
    }

    fn fields(&self, fields: &[Field], n: usize) -> Vec<Words> {
        let Some((first, rest)) = fields.split_first() else {
            return if n == 0 { vec![vec![]] } else { vec![] };
        };
        // Every field takes a word at least.
        let most = n.saturating_sub(rest.len());
        let mut all = Vec::new();
        for k in 1..=most {
            let firsts = self.of(&first.sort, k);
            if firsts.is_empty() {
                continue;
            }
            for rest in self.fields(rest, n - k) {
                all.extend(firsts.iter().map(|f| [&f[..], &rest].concat()));
            }
        }
        all
    }

    /// Lists without their count word: how many there are in them, and their words.
    fn items(&self, sort: &Sort, n: usize) -> Vec<(usize, Words)> {
        if n == 0 {
            return vec![(0, vec![])];
        }
        let mut all = Vec::new();
        for k in 1..=n {
            let firsts = self.of(sort, k);
            if firsts.is_empty() {
                continue;
            }
            for (count, rest) in self.items(sort, n - k) {
                all.extend(firsts.iter().map(|f| (count + 1, [&f[..], &rest].concat())));
            }
        }
        all
    }

    /// Each list of statements of exactly `left` words more.
    fn programs(&self, tree: &mut Words, left: usize, each: &mut dyn FnMut(&[u32])) {
        if left == 0 {
            return each(tree);
        }
        let end = tree.len();
        for k in 1..=left {
            for s in &self.stmts[k] {
                tree[0] += 1;
                tree.extend(s);
                self.programs(tree, left - k, each);
                tree.truncate(end);
                tree[0] -= 1;
            }
        }
    }
}

fn right(most: usize, each: Each<'_>) {
    let trees = Trees::below(most);
    let mut raw = Raw::default();
    raw.set_strings(&NAMES);
    for n in 0..most {
        trees.programs(&mut word(LIST, 0), n, &mut |tree| {
            raw.tree.clear();
            raw.tree.extend(tree);
            // A statement's line is its place, so that no two have the same.
            for (place, word) in raw.tree.iter_mut().enumerate() {
                if (64..118).contains(&(*word >> 24)) {
                    *word |= place as u32;
                }
            }
            each(&raw);
        });
    }
}

// Words, right or wrong

/// Every kind of word that document 01 has, with payloads that are right, just wrong, and 0.
fn alphabet() -> Words {
    let mut all = vec![0, 1];
    for (kind, payloads) in [
        (LIST, &[0, 1, 2][..]),
        (STRING, &[0, 2, 3]),
        (FLAG, &[0, 1, 2]),
        (INTEGER, &[0]),
        (LETTER, &[64, 65, 90, 91]),
        (SIMPLE, &[0, 1, 2, 4, 5, 17, 18]),
    ] {
        all.extend(payloads.iter().map(|p| kind << 24 | p));
    }
    let heads = [
        16..24,
        24..29,
        32..35,
        36..39,
        40..46,
        48..50,
        52..55,
        64..118,
    ];
    all.extend(heads.into_iter().flatten().map(|kind: u32| kind << 24));
    // A head that has no payload, and the kinds next to the heads.
    all.extend([17 << 24 | 1, 15 << 24, 63 << 24, 118 << 24, 255 << 24]);
    all
}

fn any_words(most: usize, each: Each<'_>) {
    let alphabet = alphabet();
    let mut raw = Raw::default();
    raw.set_strings(&["A", "B%", "a"]);
    raw.tree = word(LIST, 1);
    extended(&alphabet, most, &mut raw, each);
}

fn extended(alphabet: &[u32], left: usize, raw: &mut Raw, each: Each<'_>) {
    each(raw);
    if left == 0 {
        return;
    }
    for w in alphabet {
        raw.tree.push(*w);
        extended(alphabet, left - 1, raw, each);
        raw.tree.pop();
    }
}

// Statements in every order

const STATEMENTS: &str = include_str!("../statements.txt");

/// The statements of the list, each in a line of its own.
pub fn statements() -> Vec<StmtKind> {
    let lines = STATEMENTS.lines().filter(|l| l.starts_with('('));
    let read = |line: &str| {
        let text = format!("(program {line})");
        let file = image::text::parse(&text).unwrap_or_else(|f| panic!("{f}\n{line}"));
        let raw = Raw::from_bytes(&file).expect("a small program");
        let (mut program, _) = image::read(&raw).unwrap_or_else(|r| panic!("{r:?}\n{line}"));
        program.remove(0).kind
    };
    lines.map(read).collect()
}

/// Every sequence, with repetitions: in the module, in a procedure P, and the same with all names erased.
fn sequences(most: usize, each: Each<'_>) {
    let statements = statements();
    let mut chosen = Vec::new();
    all_of(&statements, most, &mut chosen, &mut |kinds| {
        let lines = 1u32..;
        let body: Vec<Stmt> = lines
            .zip(kinds)
            .map(|(line, kind)| Stmt {
                line,
                kind: (*kind).clone(),
            })
            .collect();
        each(&image::build(&body, &[], &[]));
        each(&image::build(&body, &["A".into(), "F".into()], &[]));
        let inside = StmtKind::Sub {
            name: "P".into(),
            params: vec![],
            body,
            is_static: false,
        };
        let sub = Stmt {
            line: 100,
            kind: inside,
        };
        each(&image::build(&[sub], &[], &[]));
    });
}

fn all_of<'a>(
    statements: &'a [StmtKind],
    left: usize,
    chosen: &mut Vec<&'a StmtKind>,
    each: &mut dyn FnMut(&[&StmtKind]),
) {
    if !chosen.is_empty() {
        each(chosen);
    }
    if left == 0 {
        return;
    }
    for s in statements {
        chosen.push(s);
        all_of(statements, left - 1, chosen, each);
        chosen.pop();
    }
}

// Folds

/// A CONST for every operator on every pair of constants, the edges of all four kinds of numbers and a string; with two
/// operators, also for every expression over the few of [`few`].
fn folds(operators: usize, each: Each<'_>) {
    let all = constants();
    combined(&all, &all, &mut |e| each(&constant(e)));
    negated(&all, &mut |e| each(&constant(e)));
    if operators < 2 {
        return;
    }
    let few = few();
    let mut ones = Vec::new();
    combined(&few, &few, &mut |e| ones.push(e));
    negated(&few, &mut |e| ones.push(e));
    combined(&ones, &few, &mut |e| each(&constant(e)));
    combined(&few, &ones, &mut |e| each(&constant(e)));
    negated(&ones, &mut |e| each(&constant(e)));
}

fn combined(lefts: &[Expr], rights: &[Expr], each: &mut dyn FnMut(Expr)) {
    for left in lefts {
        for right in rights {
            for op in BINARY {
                let (left, right) = (Box::new(left.clone()), Box::new(right.clone()));
                each(Expr::Binary { op, left, right });
            }
        }
    }
}

fn negated(operands: &[Expr], each: &mut dyn FnMut(Expr)) {
    for operand in operands {
        for op in [UnaryOp::Neg, UnaryOp::Not] {
            let operand = Box::new(operand.clone());
            each(Expr::Unary { op, operand });
        }
    }
}

/// One constant of each sort that matters to what comes first, and two that are none.
fn few() -> Vec<Expr> {
    let literals = [
        Literal::Integer(1),
        Literal::Integer(30_000),
        Literal::Long(i64::from(i32::MIN)),
        Literal::Single(0.5),
        Literal::Float(f64::MAX),
        Literal::String("A".into()),
    ];
    let unknown = Expr::Variable("X".into());
    let call = Expr::FnCall {
        name: "F".into(),
        args: vec![],
    };
    let literals = literals.into_iter().map(Expr::Literal);
    literals.chain([unknown, call]).collect()
}

fn constants() -> Vec<Expr> {
    let whole = WHOLE.iter().map(|w| i64::from(*w));
    let wholes = whole.flat_map(|w| [Literal::Integer(w), Literal::Long(w)]);
    let floats = FLOATS
        .iter()
        .flat_map(|f| [Literal::Single(*f), Literal::Float(*f)]);
    let text = Literal::String("A".into());
    wholes
        .chain(floats)
        .chain([text])
        .map(Expr::Literal)
        .collect()
}

fn constant(value: Expr) -> Raw {
    let name = "K".into();
    let kind = StmtKind::Const { name, value };
    image::build(&[Stmt { line: 1, kind }], &[], &[])
}
