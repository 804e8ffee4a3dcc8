//! Programs at the limits: sizes met and passed by one, the deepest tree, full buffers, the longest TYPE.

use crate::Case;
use crate::rng::Rng;
use image::ast::*;
use image::raw::{MAX_BYTES, MAX_ERASED, MAX_STRINGS, MAX_WORDS, Raw};

pub fn case(rng: &mut Rng) -> Case {
    let (raw, group) = match rng.below(12) {
        0 => (sizes(rng), "sizes"),
        1..4 => (deep(rng), "depth"),
        4 => (rows(rng), "rows"),
        5 => (diagnostics(rng), "diagnostics"),
        6..9 => (dense(rng), "rows and diagnostics"),
        _ => (long_type(rng), "long TYPE"),
    };
    Case {
        file: raw.to_bytes(),
        group,
    }
}

fn stmt(line: usize, kind: StmtKind) -> Stmt {
    Stmt {
        line: line as u32,
        kind,
    }
}

fn int(n: i64) -> Expr {
    Expr::Literal(Literal::Integer(n))
}

fn var(name: &str) -> Expr {
    Expr::Variable(name.to_string())
}

/// A name of its own for each number.
fn numbered(letter: char, n: usize) -> String {
    format!("{letter}{n:04}")
}

/// Each of the four sizes at its limit, one below or one above.
fn sizes(rng: &mut Rng) -> Raw {
    let mut near = |limit: usize| match rng.below(4) {
        0 => limit - 1,
        1 => limit + 1,
        _ => limit,
    };
    let (words, strings, bytes, erased) = (
        near(MAX_WORDS),
        near(MAX_STRINGS),
        near(MAX_BYTES),
        near(MAX_ERASED),
    );
    let texts = sharing(strings, bytes);
    let count = if rng.coin() {
        erased
    } else {
        rng.below(erased + 1)
    };
    let mut raw = Raw {
        erased: (0..count.min(strings) as u32).collect(),
        ..Raw::default()
    };
    // CLS is one word, GOTO 10 three.
    let mut program = Vec::new();
    while program.len() + 1 < words && program.len() < MAX_WORDS {
        program.push(stmt(1, StmtKind::Cls));
    }
    let numbers = image::codec::numbers(&[]);
    raw.tree = image::codec::encode(&program, &numbers);
    raw.tree.resize(words, 0x6b00_0000);
    raw.tree[0] = 0x0100_0000 | (words as u32 - 1);
    raw.set_strings(&texts);
    raw
}

/// So many strings that share the bytes out; a name has 5 to 40 of them.
fn sharing(strings: usize, bytes: usize) -> Vec<String> {
    let mut texts: Vec<String> = (0..strings).map(|n| numbered('A', n)).collect();
    let mut left = bytes - texts.iter().map(String::len).sum::<usize>();
    for t in &mut texts {
        let more = left.min(35);
        t.push_str(&"Z".repeat(more));
        left -= more;
    }
    texts.sort_unstable();
    texts
}

/// A chain of statements and expressions down to depth 99 to 102, with something at its end.
pub fn deep(rng: &mut Rng) -> Raw {
    let depth = rng.within(98, 102);
    let statements = match rng.below(4) {
        0 => 1,
        1 => depth - rng.within(0, 2),
        _ => rng.within(1, depth - 1),
    };
    let e = expr_chain(rng, depth - statements);
    let mut kind = match e {
        Some(e) => holder(rng, e),
        None => bare(rng),
    };
    for _ in 1..statements {
        kind = block(rng, vec![stmt(2, kind)]);
    }
    let mut program = vec![stmt(1, kind)];
    if rng.one_in(3) {
        program.insert(
            0,
            stmt(
                1,
                StmtKind::Dim {
                    decls: vec![array("A", 1)],
                    shared: true,
                },
            ),
        );
    }
    let mut raw = image::build(&program, &[], &["B".into(), "F".into()]);
    if rng.one_in(4) {
        wrong_near_end(rng, &mut raw.tree);
    }
    raw
}

/// A statement without an expression.
fn bare(rng: &mut Rng) -> StmtKind {
    rng.pick(&[
        StmtKind::Cls,
        StmtKind::Close(vec![]),
        StmtKind::Randomize(None),
    ])
    .clone()
}

/// Something wrong near the end, perhaps just where it is too deep.
fn wrong_near_end(rng: &mut Rng, tree: &mut [u32]) {
    let at = tree.len() - 1 - rng.below(tree.len().min(6));
    tree[at] = *rng.pick(&[
        0,
        0x1000_0001,
        0x1800_0000,
        0x0100_0000,
        0x1700_0000,
        0x7600_0000,
        0x7500_0000,
    ]);
}

/// An expression with so many levels.
fn expr_chain(rng: &mut Rng, levels: usize) -> Option<Expr> {
    if levels == 0 {
        return None;
    }
    let mut e = if rng.coin() { int(1) } else { var("B") };
    for _ in 1..levels {
        e = one_level(rng, e);
    }
    Some(e)
}

/// The expression inside another one.
fn one_level(rng: &mut Rng, e: Expr) -> Expr {
    match rng.below(8) {
        0 => Expr::Unary {
            op: UnaryOp::Neg,
            operand: Box::new(e),
        },
        1 => Expr::Binary {
            op: BinaryOp::Add,
            left: Box::new(int(1)),
            right: Box::new(e),
        },
        2 => Expr::Binary {
            op: BinaryOp::Mul,
            left: Box::new(e),
            right: Box::new(var("B")),
        },
        3 => Expr::FnCall {
            name: "F".into(),
            args: vec![e],
        },
        4 => Expr::ArrayAccess {
            name: "A".into(),
            indices: vec![e],
        },
        5 => Expr::Field {
            base: Box::new(e),
            field: "B".into(),
        },
        6 => Expr::FnCall {
            name: "A".into(),
            args: vec![int(2), e],
        },
        _ => Expr::Paren(Box::new(e)),
    }
}

fn holder(rng: &mut Rng, e: Expr) -> StmtKind {
    match rng.below(5) {
        0 => StmtKind::Const {
            name: "K".into(),
            value: e,
        },
        1 => StmtKind::Call {
            name: "F".into(),
            args: vec![e],
        },
        2 => StmtKind::Print {
            file_num: None,
            items: vec![PrintItem::Expr(e)],
            newline: true,
            using: None,
            write: false,
        },
        3 => StmtKind::Dim {
            decls: vec![Declarator {
                name: "A".into(),
                dimensions: Some(vec![e]),
                lowers: vec![None],
                ty: None,
            }],
            shared: false,
        },
        _ => StmtKind::Let {
            name: "B".into(),
            indices: None,
            value: e,
        },
    }
}

fn block(rng: &mut Rng, body: Vec<Stmt>) -> StmtKind {
    match rng.below(6) {
        0 => StmtKind::While {
            condition: int(1),
            body,
        },
        1 => StmtKind::If {
            condition: int(1),
            then_branch: vec![],
            else_branch: Some(body),
        },
        2 => StmtKind::SelectCase {
            expr: int(1),
            cases: vec![(None, body)],
        },
        3 => sub_of(body),
        4 => StmtKind::For {
            var: "B".into(),
            start: int(1),
            end: int(2),
            step: None,
            body,
        },
        _ => StmtKind::DoLoop {
            condition: None,
            cond_at_start: true,
            is_until: false,
            body,
        },
    }
}

/// SUB F (A()) with this body.
fn sub_of(body: Vec<Stmt>) -> StmtKind {
    StmtKind::Sub {
        name: "F".into(),
        params: vec![Param {
            name: "A".into(),
            byval: false,
            array: true,
            ty: None,
        }],
        body,
        is_static: false,
    }
}

fn array(name: &str, rank: usize) -> Declarator {
    Declarator {
        name: name.into(),
        dimensions: Some(vec![int(9); rank]),
        lowers: vec![],
        ty: None,
    }
}

/// The statements for rows of another kind, each made from a number.
const ROW_KINDS: [fn(usize) -> StmtKind; 6] = [
    |n| StmtKind::LabelName(numbered('L', n)),
    |n| StmtKind::Const {
        name: numbered('K', n),
        value: int(n as i64),
    },
    |n| StmtKind::Dim {
        decls: vec![array(&numbered('A', n), 1)],
        shared: false,
    },
    |n| StmtKind::OptionBase(n as i64),
    |n| StmtKind::TypeDef {
        name: "T".into(),
        fields: (0..n % 5)
            .map(|i| FieldDecl {
                name: numbered('F', i),
                ty: TypeRef::Long,
            })
            .collect(),
    },
    |n| {
        StmtKind::Static(vec![ScopeItem {
            name: numbered('S', n),
            array: false,
            ty: None,
        }])
    },
];

/// A parameter of a kind that follows from its number.
fn row_param(n: usize) -> Param {
    Param {
        name: numbered('P', n),
        byval: false,
        array: n % 3 == 1,
        ty: if n.is_multiple_of(2) {
            Some(TypeRef::Long)
        } else {
            None
        },
    }
}

/// 2,046 to 2,050 rows, most of them line numbers, then some of another kind; perhaps one entered again.
fn rows(rng: &mut Rng) -> Raw {
    let wanted = rng.within(2_046, 2_050);
    let last = rng.within(0, 6);
    let mut program: Vec<Stmt> = (0..wanted - last)
        .map(|n| stmt(n, StmtKind::Label(n as u32)))
        .collect();
    if rng.coin() {
        program.reverse();
    }
    for n in 0..last {
        let kind = match rng.below(9) {
            6 | 7 => StmtKind::Sub {
                name: "S".into(),
                params: (0..rng.below(5)).map(row_param).collect(),
                body: if rng.coin() {
                    vec![stmt(1, ROW_KINDS[5](n))]
                } else {
                    vec![]
                },
                is_static: rng.one_in(4),
            },
            k => ROW_KINDS[k % 6](n),
        };
        program.push(stmt(n, kind));
    }
    if rng.coin() {
        program.push(stmt(7, StmtKind::Label(wanted as u32 / 2)));
    }
    image::build(&program, &[], &[])
}

/// 2,047 to 2,049 diagnostics, perhaps the last of them collisions.
fn diagnostics(rng: &mut Rng) -> Raw {
    let wanted = rng.within(2_046, 2_049);
    let collisions = rng.below(3);
    let mut program = vec![stmt(1, StmtKind::Label(5))];
    for n in 0..wanted - collisions {
        program.push(stmt(n, StmtKind::Label(5)));
    }
    let names = ["LEN", "MID$", "VAL"];
    for name in &names[..collisions] {
        program.push(stmt(
            3,
            StmtKind::Dim {
                decls: vec![array(name, 1)],
                shared: false,
            },
        ));
    }
    if rng.one_in(3) {
        let fill = rng.within(0, 4);
        program.extend((0..fill).map(|n| {
            stmt(
                n,
                StmtKind::Const {
                    name: "K".into(),
                    value: int(1),
                },
            )
        }));
    }
    image::build(&program, &[], &[])
}

/// Many declarators and parameters, so that rows and diagnostics fill up side by side.
fn dense(rng: &mut Rng) -> Raw {
    let names: Vec<String> = (0..rng.within(50, 900)).map(|n| numbered('D', n)).collect();
    let mut program = Vec::new();
    let mut words = 1;
    let shape = rng.below(4);
    while words < 7_700 {
        let count = rng.within(1, 60);
        let kind = match if shape == 3 { rng.below(3) } else { shape } {
            0 => {
                words += 11 * count + 3;
                dense_dim(rng, &names, count)
            }
            1 => {
                words += 5 * count + 6;
                dense_sub(rng, &names, count)
            }
            _ => {
                words += 4 * count + 3;
                dense_type(rng, &names, count)
            }
        };
        program.push(stmt(program.len(), kind));
    }
    image::build(&program, &[], &[])
}

/// What follows AS in a dense program, if anything does.
fn dense_as(rng: &mut Rng) -> Option<TypeRef> {
    match rng.below(6) {
        0 => None,
        1 => Some(TypeRef::Record("U".into())),
        2 | 3 => Some(TypeRef::FixedString(4)),
        _ => Some(TypeRef::Integer),
    }
}

/// A DIM with so many declarators.
fn dense_dim(rng: &mut Rng, names: &[String], count: usize) -> StmtKind {
    StmtKind::Dim {
        decls: (0..count)
            .map(|_| {
                let dimensions = if rng.coin() {
                    Some(vec![int(1); rng.below(2)])
                } else {
                    None
                };
                Declarator {
                    name: rng.pick(names).clone(),
                    dimensions,
                    lowers: vec![],
                    ty: dense_as(rng),
                }
            })
            .collect(),
        shared: rng.coin(),
    }
}

/// A SUB with so many parameters.
fn dense_sub(rng: &mut Rng, names: &[String], count: usize) -> StmtKind {
    let params: Vec<Param> = (0..count)
        .map(|_| Param {
            name: rng.pick(names).clone(),
            byval: rng.coin(),
            array: rng.one_in(3),
            ty: dense_as(rng),
        })
        .collect();
    StmtKind::Sub {
        name: rng.pick(names).clone(),
        params,
        body: vec![],
        is_static: rng.coin(),
    }
}

/// A TYPE with so many fields.
fn dense_type(rng: &mut Rng, names: &[String], count: usize) -> StmtKind {
    StmtKind::TypeDef {
        name: if rng.coin() {
            rng.pick(names).clone()
        } else {
            "U".into()
        },
        fields: (0..count)
            .map(|_| FieldDecl {
                name: rng.pick(names).clone(),
                ty: dense_as(rng).unwrap_or(TypeRef::Long),
            })
            .collect(),
    }
}

/// A TYPE of 65,533 to 65,537 words, with rejected fields among the kept, perhaps redefined, perhaps used again.
fn long_type(rng: &mut Rng) -> Raw {
    let mut program = Vec::new();
    let mut fields = long_fields(rng, &mut program);
    if rng.coin() {
        insert_string(rng, &mut fields);
    }
    insert_rejected(rng, &mut fields);
    if rng.one_in(3) {
        // Too many rejected fields before the passing one makes 8, after it 9.
        let bad = rng.within(2_040, 2_052);
        let label = |_| stmt(3, StmtKind::Label(9));
        program.extend((0..bad).map(label));
    }
    program.push(stmt(4, define("T", fields)));
    match rng.below(4) {
        0 => program.push(stmt(5, define("T", vec![double(1)]))),
        1 => program.push(stmt(5, define("T3", vec![of(0, "T")]))),
        2 => program.push(stmt(5, define("T3", vec![of(0, "T"), of(1, "T1")]))),
        _ => {}
    }
    image::build(&program, &[], &[])
}

/// A field of one word.
fn double(n: usize) -> FieldDecl {
    FieldDecl {
        name: numbered('F', n),
        ty: TypeRef::Double,
    }
}

/// A field of a TYPE.
fn of(n: usize, t: &str) -> FieldDecl {
    FieldDecl {
        name: numbered('F', n),
        ty: TypeRef::Record(t.into()),
    }
}

/// A TYPE with these fields.
fn define(name: &str, fields: Vec<FieldDecl>) -> StmtKind {
    StmtKind::TypeDef {
        name: name.into(),
        fields,
    }
}

/// The fields of the long TYPE; the program gets the TYPEs they are of.
fn long_fields(rng: &mut Rng, program: &mut Vec<Stmt>) -> Vec<FieldDecl> {
    // 257 words, then 255 of those are 65,535.
    program.push(stmt(1, define("T1", (0..257).map(double).collect())));
    let mut fields: Vec<FieldDecl> = (0..254).map(|n| of(n, "T1")).collect();
    let rest = rng.within(255, 259);
    if rng.coin() {
        program.push(stmt(2, define("T2", (0..rest).map(double).collect())));
        fields.push(of(254, "T2"));
    } else {
        fields.extend((254..254 + rest).map(double));
    }
    fields
}

/// A string of fixed length near the end of the fields, perhaps in place of those before it.
fn insert_string(rng: &mut Rng, fields: &mut Vec<FieldDecl>) {
    let at = fields.len() - rng.below(3);
    fields.insert(
        at,
        FieldDecl {
            name: "S".into(),
            ty: TypeRef::FixedString(7),
        },
    );
    if rng.coin() {
        fields.drain(at.saturating_sub(2)..at);
    }
}

/// Up to three fields that bring a rejection, anywhere among the others.
fn insert_rejected(rng: &mut Rng, fields: &mut Vec<FieldDecl>) {
    for _ in 0..rng.below(4) {
        let bad = match rng.below(3) {
            0 => double(0),
            1 => of(900, "T"),
            _ => of(901, "NONE"),
        };
        let at = rng.below(fields.len() + 1);
        fields.insert(at, bad);
    }
}
