//! The words of a tree, both ways, from document 01 "Strings and tree words".
//!
//! The tree's types are whatever `crate::ast` names: the mirror of `parser.rs` here, the original's own types in the
//! oracle, which compiles this same file.

use crate::ast::*;
use crate::raw::{MAX_DEPTH, Refusal, Strings};
use std::collections::HashMap;

const LIST: u32 = 1;
const STRING: u32 = 2;
const FLAG: u32 = 3;
const INTEGER: u32 = 4;
const LETTER: u32 = 7;
const SIMPLE: u32 = 9;
const EXPR: u32 = 16;
const LITERAL: u32 = 24;
const PRINT_ITEM: u32 = 32;
const CASE_CLAUSE: u32 = 36;
const TYPE_REF: u32 = 40;
const GOTO: u32 = 48;
const RESUME: u32 = 52;
const STMT: u32 = 64;
const STMT_KINDS: u32 = 54;

const UNARY: [UnaryOp; 2] = [UnaryOp::Neg, UnaryOp::Not];
/// The binary operators in the order of their numbers.
pub const BINARY: [BinaryOp; 18] = [
    BinaryOp::Add,
    BinaryOp::Sub,
    BinaryOp::Mul,
    BinaryOp::Div,
    BinaryOp::IntDiv,
    BinaryOp::Mod,
    BinaryOp::Pow,
    BinaryOp::Eq,
    BinaryOp::Ne,
    BinaryOp::Lt,
    BinaryOp::Gt,
    BinaryOp::Le,
    BinaryOp::Ge,
    BinaryOp::And,
    BinaryOp::Or,
    BinaryOp::Xor,
    BinaryOp::Eqv,
    BinaryOp::Imp,
];
const DATA_TYPES: [DataType; 5] = [
    DataType::Integer,
    DataType::Long,
    DataType::Single,
    DataType::Double,
    DataType::String,
];
const FILE_MODES: [FileMode; 4] = [
    FileMode::Input,
    FileMode::Output,
    FileMode::Append,
    FileMode::Random,
];

fn kind(word: u32) -> u32 {
    word >> 24
}

fn payload(word: u32) -> u32 {
    word & 0x00ff_ffff
}

type Read<T> = Result<T, Refusal>;

/// The program whose words these are, or number 2 or 3 and the place.
pub fn decode(words: &[u32], strings: &Strings<'_>) -> Read<Vec<Stmt>> {
    let mut reader = Reader {
        words,
        at: 0,
        strings,
    };
    let program = reader.body(1)?;
    if reader.at < words.len() {
        return reader.wrong();
    }
    Ok(program)
}

/// What stands at a place, at depth 1, and the place past it. Words after it are allowed.
fn at_place<T>(
    words: &[u32],
    at: usize,
    strings: &Strings<'_>,
    read: impl FnOnce(&mut Reader<'_>) -> Read<T>,
) -> Read<(T, usize)> {
    let mut reader = Reader { words, at, strings };
    let node = read(&mut reader)?;
    Ok((node, reader.at))
}

/// One statement at a place.
pub fn statement_at(words: &[u32], at: usize, strings: &Strings<'_>) -> Read<(Stmt, usize)> {
    at_place(words, at, strings, |r| r.stmt(1))
}

/// One expression at a place.
pub fn expression_at(words: &[u32], at: usize, strings: &Strings<'_>) -> Read<(Expr, usize)> {
    at_place(words, at, strings, |r| r.expr(1))
}

/// A list of expressions at a place.
pub fn expressions_at(words: &[u32], at: usize, strings: &Strings<'_>) -> Read<(Vec<Expr>, usize)> {
    at_place(words, at, strings, |r| r.exprs(1))
}

struct Reader<'a> {
    words: &'a [u32],
    at: usize,
    strings: &'a Strings<'a>,
}

impl Reader<'_> {
    /// The word at the reading place is not what stands there.
    fn wrong<T>(&self) -> Read<T> {
        Err(Refusal::new(2, self.at))
    }

    fn peek(&self) -> Read<u32> {
        match self.words.get(self.at) {
            Some(w) => Ok(*w),
            None => Err(Refusal::new(2, self.words.len())),
        }
    }

    fn any(&mut self) -> Read<u32> {
        let w = self.peek()?;
        self.at += 1;
        Ok(w)
    }

    /// The payload of a word of this kind that passes the test.
    fn leaf(&mut self, k: u32, test: impl FnOnce(u32) -> bool) -> Read<u32> {
        let w = self.peek()?;
        if kind(w) != k || !test(payload(w)) {
            return self.wrong();
        }
        self.at += 1;
        Ok(payload(w))
    }

    fn text(&mut self) -> Read<String> {
        let strings = self.strings;
        let n = self.leaf(STRING, |n| (n as usize) < strings.all.len())?;
        Ok(strings.all[n as usize].to_string())
    }

    fn name(&mut self) -> Read<String> {
        let strings = self.strings;
        let is_name = |n| strings.is_name.get(n as usize).copied().unwrap_or(false);
        let n = self.leaf(STRING, is_name)?;
        Ok(strings.all[n as usize].to_string())
    }

    fn flag(&mut self) -> Read<bool> {
        Ok(self.leaf(FLAG, |n| n <= 1)? == 1)
    }

    fn integer(&mut self) -> Read<u32> {
        self.leaf(INTEGER, |_| true)
    }

    fn letter(&mut self) -> Read<char> {
        let c = self.leaf(LETTER, |n| (65..=90).contains(&n))?;
        Ok(c as u8 as char)
    }

    /// A value of an enum without data.
    fn simple<T: Copy>(&mut self, values: &[T]) -> Read<T> {
        let n = self.leaf(SIMPLE, |n| (n as usize) < values.len())?;
        Ok(values[n as usize])
    }

    /// The position of a variant whose heads start at `base`.
    fn head(&mut self, base: u32, count: u32) -> Read<u32> {
        let w = self.peek()?;
        if !(base..base + count).contains(&kind(w)) || payload(w) != 0 {
            return self.wrong();
        }
        self.at += 1;
        Ok(kind(w) - base)
    }

    fn option<T>(&mut self, read: impl FnOnce(&mut Self) -> Read<T>) -> Read<Option<T>> {
        if self.peek()? == 0 {
            self.at += 1;
            return Ok(None);
        }
        read(self).map(Some)
    }

    fn list<T>(&mut self, mut read: impl FnMut(&mut Self) -> Read<T>) -> Read<Vec<T>> {
        let count = self.leaf(LIST, |_| true)? as usize;
        let mut items = Vec::with_capacity(count.min(self.words.len() - self.at));
        for _ in 0..count {
            items.push(read(self)?);
        }
        Ok(items)
    }

    fn body(&mut self, depth: u32) -> Read<Vec<Stmt>> {
        self.list(|r| r.stmt(depth))
    }

    fn exprs(&mut self, depth: u32) -> Read<Vec<Expr>> {
        self.list(|r| r.expr(depth))
    }

    fn maybe(&mut self, depth: u32) -> Read<Option<Expr>> {
        self.option(|r| r.expr(depth))
    }

    fn boxed(&mut self, depth: u32) -> Read<Box<Expr>> {
        self.expr(depth).map(Box::new)
    }

    fn expr(&mut self, depth: u32) -> Read<Expr> {
        let start = self.at;
        let variant = self.head(EXPR, 8)?;
        if depth > MAX_DEPTH {
            return Err(Refusal::new(3, start));
        }
        let d = depth + 1;
        Ok(match variant {
            0 => Expr::Literal(self.literal()?),
            1 => Expr::Variable(self.name()?),
            2 => Expr::ArrayAccess {
                name: self.name()?,
                indices: self.exprs(d)?,
            },
            3 => Expr::Unary {
                op: self.simple(&UNARY)?,
                operand: self.boxed(d)?,
            },
            4 => Expr::Binary {
                op: self.simple(&BINARY)?,
                left: self.boxed(d)?,
                right: self.boxed(d)?,
            },
            5 => Expr::FnCall {
                name: self.name()?,
                args: self.exprs(d)?,
            },
            6 => Expr::Field {
                base: self.boxed(d)?,
                field: self.name()?,
            },
            _ => Expr::Paren(self.boxed(d)?),
        })
    }

    fn literal(&mut self) -> Read<Literal> {
        Ok(match self.head(LITERAL, 5)? {
            0 => Literal::Integer(i64::from(self.any()? as i32)),
            1 => Literal::Long(i64::from(self.any()? as i32)),
            2 => Literal::Single(self.float()?),
            3 => Literal::Float(self.float()?),
            _ => Literal::String(self.text()?),
        })
    }

    fn float(&mut self) -> Read<f64> {
        let low = self.any()?;
        let high = self.peek()?;
        let value = f64::from_bits(u64::from(high) << 32 | u64::from(low));
        if !value.is_finite() {
            return self.wrong();
        }
        self.at += 1;
        Ok(value)
    }

    fn type_ref(&mut self) -> Read<TypeRef> {
        Ok(match self.head(TYPE_REF, 6)? {
            0 => TypeRef::Integer,
            1 => TypeRef::Long,
            2 => TypeRef::Single,
            3 => TypeRef::Double,
            4 => TypeRef::FixedString(self.integer()? as usize),
            _ => TypeRef::Record(self.name()?),
        })
    }

    fn target(&mut self) -> Read<GotoTarget> {
        Ok(match self.head(GOTO, 2)? {
            0 => GotoTarget::Line(self.integer()?),
            _ => GotoTarget::Label(self.name()?),
        })
    }

    fn resume(&mut self) -> Read<ResumeTarget> {
        Ok(match self.head(RESUME, 3)? {
            0 => ResumeTarget::Same,
            1 => ResumeTarget::Next,
            _ => ResumeTarget::At(self.target()?),
        })
    }

    fn print_item(&mut self, depth: u32) -> Read<PrintItem> {
        Ok(match self.head(PRINT_ITEM, 3)? {
            0 => PrintItem::Expr(self.expr(depth)?),
            1 => PrintItem::Tab,
            _ => PrintItem::Empty,
        })
    }

    fn clause(&mut self, depth: u32) -> Read<CaseClause> {
        Ok(match self.head(CASE_CLAUSE, 3)? {
            0 => CaseClause::Value(self.expr(depth)?),
            1 => CaseClause::Range(self.expr(depth)?, self.expr(depth)?),
            _ => CaseClause::Compare(self.simple(&BINARY)?, self.expr(depth)?),
        })
    }

    fn lvalue(&mut self, depth: u32) -> Read<LValue> {
        Ok(LValue {
            name: self.name()?,
            indices: self.option(|r| r.exprs(depth))?,
            fields: self.list(Self::name)?,
        })
    }

    fn lvalues(&mut self, depth: u32) -> Read<Vec<LValue>> {
        self.list(|r| r.lvalue(depth))
    }

    fn declarators(&mut self, depth: u32) -> Read<Vec<Declarator>> {
        self.list(|r| {
            Ok(Declarator {
                name: r.name()?,
                dimensions: r.option(|r| r.exprs(depth))?,
                lowers: r.list(|r| r.maybe(depth))?,
                ty: r.option(Self::type_ref)?,
            })
        })
    }

    fn params(&mut self) -> Read<Vec<Param>> {
        self.list(|r| {
            Ok(Param {
                name: r.name()?,
                byval: r.flag()?,
                array: r.flag()?,
                ty: r.option(Self::type_ref)?,
            })
        })
    }

    fn scope_items(&mut self) -> Read<Vec<ScopeItem>> {
        self.list(|r| {
            Ok(ScopeItem {
                name: r.name()?,
                array: r.flag()?,
                ty: r.option(Self::type_ref)?,
            })
        })
    }

    fn stmt(&mut self, depth: u32) -> Read<Stmt> {
        let start = self.at;
        let w = self.peek()?;
        if !(STMT..STMT + STMT_KINDS).contains(&kind(w)) {
            return self.wrong();
        }
        if depth > MAX_DEPTH {
            return Err(Refusal::new(3, start));
        }
        self.at += 1;
        Ok(Stmt {
            line: payload(w),
            kind: self.stmt_kind(kind(w) - STMT, depth + 1)?,
        })
    }

    /// The fields of a statement; `d` is the depth of what stands in it.
    fn stmt_kind(&mut self, variant: u32, d: u32) -> Read<StmtKind> {
        Ok(match variant {
            0 => StmtKind::Label(self.integer()?),
            1 => StmtKind::LabelName(self.name()?),
            2 => StmtKind::Let {
                name: self.name()?,
                indices: self.option(|r| r.exprs(d))?,
                value: self.expr(d)?,
            },
            3 => StmtKind::Print {
                file_num: self.maybe(d)?,
                items: self.list(|r| r.print_item(d))?,
                newline: self.flag()?,
                using: self.maybe(d)?,
                write: self.flag()?,
            },
            4 => StmtKind::Input {
                prompt: self.option(Self::text)?,
                query: self.flag()?,
                vars: self.lvalues(d)?,
                file_num: self.maybe(d)?,
            },
            5 => StmtKind::LineInput {
                prompt: self.option(Self::text)?,
                var: self.lvalue(d)?,
                file_num: self.maybe(d)?,
            },
            _ => return self.kind_from_if(variant, d),
        })
    }

    /// The fields of the statements from IF on.
    #[inline(always)]
    fn kind_from_if(&mut self, variant: u32, d: u32) -> Read<StmtKind> {
        Ok(match variant {
            6 => StmtKind::If {
                condition: self.expr(d)?,
                then_branch: self.body(d)?,
                else_branch: self.option(|r| r.body(d))?,
            },
            7 => StmtKind::For {
                var: self.name()?,
                start: self.expr(d)?,
                end: self.expr(d)?,
                step: self.maybe(d)?,
                body: self.body(d)?,
            },
            8 => StmtKind::While {
                condition: self.expr(d)?,
                body: self.body(d)?,
            },
            9 => StmtKind::DoLoop {
                condition: self.maybe(d)?,
                cond_at_start: self.flag()?,
                is_until: self.flag()?,
                body: self.body(d)?,
            },
            10 => StmtKind::Goto(self.target()?),
            11 => StmtKind::Gosub(self.target()?),
            12 => StmtKind::Return(self.option(Self::target)?),
            13 => StmtKind::OnGoto {
                expr: self.expr(d)?,
                targets: self.list(Self::target)?,
            },
            14 => StmtKind::OnGosub {
                expr: self.expr(d)?,
                targets: self.list(Self::target)?,
            },
            _ => return self.kind_from_dim(variant, d),
        })
    }

    /// The fields of the statements from DIM on.
    #[inline(always)]
    fn kind_from_dim(&mut self, variant: u32, d: u32) -> Read<StmtKind> {
        Ok(match variant {
            15 => StmtKind::Dim {
                decls: self.declarators(d)?,
                shared: self.flag()?,
            },
            16 => StmtKind::Declare {
                name: self.name()?,
                is_function: self.flag()?,
                params: self.params()?,
                ret_ty: self.option(Self::type_ref)?,
            },
            17 => StmtKind::Shared(self.scope_items()?),
            18 => StmtKind::Static(self.scope_items()?),
            19 => StmtKind::Redim {
                decls: self.declarators(d)?,
                preserve: self.flag()?,
            },
            20 => StmtKind::Sub {
                name: self.name()?,
                params: self.params()?,
                body: self.body(d)?,
                is_static: self.flag()?,
            },
            21 => StmtKind::Function {
                name: self.name()?,
                params: self.params()?,
                ret_ty: self.option(Self::type_ref)?,
                body: self.body(d)?,
                is_static: self.flag()?,
                def_fn: self.flag()?,
            },
            _ => return self.kind_from_call(variant, d),
        })
    }

    /// The fields of the statements from CALL on.
    #[inline(always)]
    fn kind_from_call(&mut self, variant: u32, d: u32) -> Read<StmtKind> {
        Ok(match variant {
            22 => StmtKind::Call {
                name: self.name()?,
                args: self.exprs(d)?,
            },
            23 => StmtKind::MidAssign {
                target: self.lvalue(d)?,
                start: self.expr(d)?,
                len: self.maybe(d)?,
                value: self.expr(d)?,
            },
            24 => StmtKind::Swap(self.lvalue(d)?, self.lvalue(d)?),
            25 => StmtKind::Const {
                name: self.name()?,
                value: self.expr(d)?,
            },
            26 => StmtKind::ExitLoop {
                is_for: self.flag()?,
            },
            27 => StmtKind::ExitProc,
            28 => StmtKind::OptionBase(i64::from(self.integer()?)),
            29 => StmtKind::TypeDef {
                name: self.name()?,
                fields: self.list(|r| {
                    Ok(FieldDecl {
                        name: r.name()?,
                        ty: r.type_ref()?,
                    })
                })?,
            },
            30 => StmtKind::FieldAssign {
                target: self.lvalue(d)?,
                value: self.expr(d)?,
            },
            _ => return self.kind_from_data(variant, d),
        })
    }

    /// The fields of the statements from DATA on.
    #[inline(always)]
    fn kind_from_data(&mut self, variant: u32, d: u32) -> Read<StmtKind> {
        Ok(match variant {
            31 => StmtKind::Data(self.list(|r| {
                Ok(DataItem {
                    text: r.text()?,
                    quoted: r.flag()?,
                })
            })?),
            32 => StmtKind::Read(self.lvalues(d)?),
            33 => StmtKind::DefType {
                ty: self.simple(&DATA_TYPES)?,
                ranges: self.list(|r| Ok((r.letter()?, r.letter()?)))?,
            },
            34 => StmtKind::Beep,
            35 => StmtKind::Erase(self.list(Self::name)?),
            36 => StmtKind::RaiseError(self.expr(d)?),
            37 => StmtKind::OnError(self.option(Self::target)?),
            38 => StmtKind::Resume(self.resume()?),
            39 => StmtKind::Locate {
                row: self.maybe(d)?,
                col: self.maybe(d)?,
            },
            40 => StmtKind::Color {
                fg: self.maybe(d)?,
                bg: self.maybe(d)?,
            },
            41 => StmtKind::Randomize(self.maybe(d)?),
            42 => StmtKind::Restore(self.option(Self::target)?),
            43 => StmtKind::Cls,
            44 => StmtKind::SelectCase {
                expr: self.expr(d)?,
                cases: self.cases(d)?,
            },
            45 => StmtKind::End,
            46 => StmtKind::Stop,
            _ => return self.kind_from_open(variant, d),
        })
    }

    /// The fields of the statements from OPEN on.
    #[inline(always)]
    fn kind_from_open(&mut self, variant: u32, d: u32) -> Read<StmtKind> {
        Ok(match variant {
            47 => StmtKind::Open {
                filename: self.expr(d)?,
                mode: self.simple(&FILE_MODES)?,
                file_num: self.expr(d)?,
                reclen: self.maybe(d)?,
            },
            48 => StmtKind::Close(self.exprs(d)?),
            49 => StmtKind::Width {
                file_num: self.maybe(d)?,
                width: self.expr(d)?,
            },
            50 => StmtKind::Field {
                file_num: self.expr(d)?,
                fields: self.field_slices(d)?,
            },
            51 => StmtKind::SetField {
                target: self.lvalue(d)?,
                value: self.expr(d)?,
                right: self.flag()?,
            },
            52 => StmtKind::GetPut {
                file_num: self.expr(d)?,
                record: self.maybe(d)?,
                is_put: self.flag()?,
            },
            _ => StmtKind::Lock {
                file_num: self.expr(d)?,
                range: self.option(|r| Ok((r.expr(d)?, r.maybe(d)?)))?,
                is_unlock: self.flag()?,
            },
        })
    }

    /// The clauses and the body of each CASE.
    #[inline]
    fn cases(&mut self, d: u32) -> Read<Vec<(Option<Vec<CaseClause>>, Vec<Stmt>)>> {
        self.list(|r| {
            let clauses = r.option(|r| r.list(|r| r.clause(d)))?;
            Ok((clauses, r.body(d)?))
        })
    }

    /// The widths and the targets of a FIELD.
    #[inline]
    fn field_slices(&mut self, d: u32) -> Read<Vec<FieldSlice>> {
        self.list(|r| {
            Ok(FieldSlice {
                width: r.expr(d)?,
                target: r.lvalue(d)?,
            })
        })
    }
}

/// The number of each string, by its text.
pub fn numbers<'a>(strings: &[&'a str]) -> HashMap<&'a str, u32> {
    strings.iter().zip(0..).map(|(s, n)| (*s, n)).collect()
}

/// Every string that a program mentions, in tree order.
pub fn strings_of(program: &[Stmt]) -> Vec<&str> {
    let mut found = Vec::new();
    let mut writer = Writer {
        words: Vec::new(),
        number: |s| {
            found.push(s);
            0
        },
    };
    writer.body(program);
    found
}

/// The words of a program. Panics where a string has no number, or a number doesn't fit its word.
pub fn encode(program: &[Stmt], numbers: &HashMap<&str, u32>) -> Vec<u32> {
    let mut writer = Writer {
        words: Vec::new(),
        number: |s| numbers[s],
    };
    writer.body(program);
    writer.words
}

/// The words of a list of expressions.
pub fn encode_exprs(exprs: &[Expr], numbers: &HashMap<&str, u32>) -> Vec<u32> {
    let mut writer = Writer {
        words: Vec::new(),
        number: |s| numbers[s],
    };
    writer.exprs(exprs);
    writer.words
}

struct Writer<F> {
    words: Vec<u32>,
    number: F,
}

impl<'a, F: FnMut(&'a str) -> u32> Writer<F> {
    fn put(&mut self, kind: u32, payload: u32) {
        assert!(payload < 1 << 24, "payload {payload} is over 24 bits");
        self.words.push(kind << 24 | payload);
    }

    fn string(&mut self, s: &'a str) {
        let n = (self.number)(s);
        self.put(STRING, n);
    }

    fn flag(&mut self, f: bool) {
        self.put(FLAG, u32::from(f));
    }

    fn integer(&mut self, n: impl TryInto<u32>) {
        let n = n.try_into().unwrap_or(u32::MAX);
        self.put(INTEGER, n);
    }

    fn letter(&mut self, c: char) {
        self.put(LETTER, c as u32);
    }

    fn simple<T: PartialEq>(&mut self, values: &[T], value: &T) {
        let n = values.iter().position(|v| v == value).expect("a value");
        self.put(SIMPLE, n as u32);
    }

    fn option<T>(&mut self, o: &'a Option<T>, write: impl FnOnce(&mut Self, &'a T)) {
        match o {
            Some(t) => write(self, t),
            None => self.put(0, 0),
        }
    }

    fn list<T>(&mut self, items: &'a [T], mut write: impl FnMut(&mut Self, &'a T)) {
        self.put(LIST, items.len() as u32);
        for item in items {
            write(self, item);
        }
    }

    fn body(&mut self, stmts: &'a [Stmt]) {
        self.list(stmts, Self::stmt);
    }

    fn exprs(&mut self, exprs: &'a [Expr]) {
        self.list(exprs, Self::expr);
    }

    fn maybe(&mut self, e: &'a Option<Expr>) {
        self.option(e, Self::expr);
    }

    fn names(&mut self, names: &'a [String]) {
        self.list(names, |w, n| w.string(n));
    }

    fn expr(&mut self, e: &'a Expr) {
        match e {
            Expr::Literal(l) => {
                self.put(EXPR, 0);
                self.literal(l);
            }
            Expr::Variable(name) => {
                self.put(EXPR + 1, 0);
                self.string(name);
            }
            Expr::ArrayAccess { name, indices } => self.applied(2, name, indices),
            Expr::Unary { op, operand } => {
                self.put(EXPR + 3, 0);
                self.simple(&UNARY, op);
                self.expr(operand);
            }
            Expr::Binary { op, left, right } => {
                self.put(EXPR + 4, 0);
                self.simple(&BINARY, op);
                self.expr(left);
                self.expr(right);
            }
            Expr::FnCall { name, args } => self.applied(5, name, args),
            Expr::Field { base, field } => {
                self.put(EXPR + 6, 0);
                self.expr(base);
                self.string(field);
            }
            Expr::Paren(inner) => {
                self.put(EXPR + 7, 0);
                self.expr(inner);
            }
        }
    }

    /// A name with expressions in parentheses.
    #[inline]
    fn applied(&mut self, variant: u32, name: &'a str, exprs: &'a [Expr]) {
        self.put(EXPR + variant, 0);
        self.string(name);
        self.exprs(exprs);
    }

    fn literal(&mut self, l: &'a Literal) {
        match l {
            Literal::Integer(n) => self.whole(0, *n),
            Literal::Long(n) => self.whole(1, *n),
            Literal::Single(f) => self.float(2, *f),
            Literal::Float(f) => self.float(3, *f),
            Literal::String(s) => {
                self.put(LITERAL + 4, 0);
                self.string(s);
            }
        }
    }

    fn whole(&mut self, variant: u32, n: i64) {
        self.put(LITERAL + variant, 0);
        self.words.push(i32::try_from(n).expect("32 bits") as u32);
    }

    fn float(&mut self, variant: u32, f: f64) {
        self.put(LITERAL + variant, 0);
        self.words.push(f.to_bits() as u32);
        self.words.push((f.to_bits() >> 32) as u32);
    }

    fn type_ref(&mut self, ty: &'a TypeRef) {
        match ty {
            TypeRef::Integer => self.put(TYPE_REF, 0),
            TypeRef::Long => self.put(TYPE_REF + 1, 0),
            TypeRef::Single => self.put(TYPE_REF + 2, 0),
            TypeRef::Double => self.put(TYPE_REF + 3, 0),
            TypeRef::FixedString(n) => {
                self.put(TYPE_REF + 4, 0);
                self.integer(*n);
            }
            TypeRef::Record(name) => {
                self.put(TYPE_REF + 5, 0);
                self.string(name);
            }
        }
    }

    fn target(&mut self, t: &'a GotoTarget) {
        match t {
            GotoTarget::Line(n) => {
                self.put(GOTO, 0);
                self.integer(*n);
            }
            GotoTarget::Label(name) => {
                self.put(GOTO + 1, 0);
                self.string(name);
            }
        }
    }

    fn resume(&mut self, t: &'a ResumeTarget) {
        match t {
            ResumeTarget::Same => self.put(RESUME, 0),
            ResumeTarget::Next => self.put(RESUME + 1, 0),
            ResumeTarget::At(t) => {
                self.put(RESUME + 2, 0);
                self.target(t);
            }
        }
    }

    fn print_item(&mut self, item: &'a PrintItem) {
        match item {
            PrintItem::Expr(e) => {
                self.put(PRINT_ITEM, 0);
                self.expr(e);
            }
            PrintItem::Tab => self.put(PRINT_ITEM + 1, 0),
            PrintItem::Empty => self.put(PRINT_ITEM + 2, 0),
        }
    }

    fn clause(&mut self, clause: &'a CaseClause) {
        match clause {
            CaseClause::Value(e) => {
                self.put(CASE_CLAUSE, 0);
                self.expr(e);
            }
            CaseClause::Range(low, high) => {
                self.put(CASE_CLAUSE + 1, 0);
                self.expr(low);
                self.expr(high);
            }
            CaseClause::Compare(op, e) => {
                self.put(CASE_CLAUSE + 2, 0);
                self.simple(&BINARY, op);
                self.expr(e);
            }
        }
    }

    fn lvalue(&mut self, v: &'a LValue) {
        self.string(&v.name);
        self.option(&v.indices, |w, ix| w.exprs(ix));
        self.names(&v.fields);
    }

    fn declarators(&mut self, decls: &'a [Declarator]) {
        self.list(decls, |w, d| {
            w.string(&d.name);
            w.option(&d.dimensions, |w, dims| w.exprs(dims));
            w.list(&d.lowers, Self::maybe);
            w.option(&d.ty, Self::type_ref);
        });
    }

    fn params(&mut self, params: &'a [Param]) {
        self.list(params, |w, p| {
            w.string(&p.name);
            w.flag(p.byval);
            w.flag(p.array);
            w.option(&p.ty, Self::type_ref);
        });
    }

    fn scope_items(&mut self, items: &'a [ScopeItem]) {
        self.list(items, |w, i| {
            w.string(&i.name);
            w.flag(i.array);
            w.option(&i.ty, Self::type_ref);
        });
    }

    /// The word that a statement begins with.
    #[inline]
    fn head(&mut self, stmt: &Stmt, variant: u32) {
        self.put(STMT + variant, stmt.line);
    }

    fn stmt(&mut self, stmt: &'a Stmt) {
        match &stmt.kind {
            StmtKind::Label(n) => {
                self.head(stmt, 0);
                self.integer(*n);
            }
            StmtKind::LabelName(name) => {
                self.head(stmt, 1);
                self.string(name);
            }
            StmtKind::Let {
                name,
                indices,
                value,
            } => {
                self.head(stmt, 2);
                self.string(name);
                self.option(indices, |w, ix| w.exprs(ix));
                self.expr(value);
            }
            StmtKind::Print {
                file_num,
                items,
                newline,
                using,
                write,
            } => {
                self.head(stmt, 3);
                self.maybe(file_num);
                self.list(items, Self::print_item);
                self.flag(*newline);
                self.maybe(using);
                self.flag(*write);
            }
            _ => self.from_input(stmt),
        }
    }

    /// The statements from INPUT on.
    #[inline(always)]
    fn from_input(&mut self, stmt: &'a Stmt) {
        match &stmt.kind {
            StmtKind::Input {
                prompt,
                query,
                vars,
                file_num,
            } => {
                self.head(stmt, 4);
                self.option(prompt, |w, s| w.string(s));
                self.flag(*query);
                self.list(vars, Self::lvalue);
                self.maybe(file_num);
            }
            StmtKind::LineInput {
                prompt,
                var,
                file_num,
            } => {
                self.head(stmt, 5);
                self.option(prompt, |w, s| w.string(s));
                self.lvalue(var);
                self.maybe(file_num);
            }
            StmtKind::If {
                condition,
                then_branch,
                else_branch,
            } => {
                self.head(stmt, 6);
                self.expr(condition);
                self.body(then_branch);
                self.option(else_branch, |w, b| w.body(b));
            }
            _ => self.from_for(stmt),
        }
    }

    /// The statements from FOR on.
    #[inline(always)]
    fn from_for(&mut self, stmt: &'a Stmt) {
        match &stmt.kind {
            StmtKind::For {
                var,
                start,
                end,
                step,
                body,
            } => {
                self.head(stmt, 7);
                self.string(var);
                self.expr(start);
                self.expr(end);
                self.maybe(step);
                self.body(body);
            }
            StmtKind::While { condition, body } => {
                self.head(stmt, 8);
                self.expr(condition);
                self.body(body);
            }
            StmtKind::DoLoop {
                condition,
                cond_at_start,
                is_until,
                body,
            } => {
                self.head(stmt, 9);
                self.maybe(condition);
                self.flag(*cond_at_start);
                self.flag(*is_until);
                self.body(body);
            }
            _ => self.from_goto(stmt),
        }
    }

    /// The statements from GOTO on.
    #[inline(always)]
    fn from_goto(&mut self, stmt: &'a Stmt) {
        match &stmt.kind {
            StmtKind::Goto(t) => {
                self.head(stmt, 10);
                self.target(t);
            }
            StmtKind::Gosub(t) => {
                self.head(stmt, 11);
                self.target(t);
            }
            StmtKind::Return(t) => {
                self.head(stmt, 12);
                self.option(t, Self::target);
            }
            StmtKind::OnGoto { expr, targets } => {
                self.head(stmt, 13);
                self.expr(expr);
                self.list(targets, Self::target);
            }
            StmtKind::OnGosub { expr, targets } => {
                self.head(stmt, 14);
                self.expr(expr);
                self.list(targets, Self::target);
            }
            StmtKind::Dim { decls, shared } => {
                self.head(stmt, 15);
                self.declarators(decls);
                self.flag(*shared);
            }
            _ => self.from_declare(stmt),
        }
    }

    /// The statements from DECLARE on.
    #[inline(always)]
    fn from_declare(&mut self, stmt: &'a Stmt) {
        match &stmt.kind {
            StmtKind::Declare {
                name,
                is_function,
                params,
                ret_ty,
            } => {
                self.head(stmt, 16);
                self.string(name);
                self.flag(*is_function);
                self.params(params);
                self.option(ret_ty, Self::type_ref);
            }
            StmtKind::Shared(items) => {
                self.head(stmt, 17);
                self.scope_items(items);
            }
            StmtKind::Static(items) => {
                self.head(stmt, 18);
                self.scope_items(items);
            }
            StmtKind::Redim { decls, preserve } => {
                self.head(stmt, 19);
                self.declarators(decls);
                self.flag(*preserve);
            }
            _ => self.from_sub(stmt),
        }
    }

    /// The statements from SUB on.
    #[inline(always)]
    fn from_sub(&mut self, stmt: &'a Stmt) {
        match &stmt.kind {
            StmtKind::Sub {
                name,
                params,
                body,
                is_static,
            } => {
                self.head(stmt, 20);
                self.string(name);
                self.params(params);
                self.body(body);
                self.flag(*is_static);
            }
            StmtKind::Function {
                name,
                params,
                ret_ty,
                body,
                is_static,
                def_fn,
            } => {
                self.head(stmt, 21);
                self.string(name);
                self.params(params);
                self.option(ret_ty, Self::type_ref);
                self.body(body);
                self.flag(*is_static);
                self.flag(*def_fn);
            }
            StmtKind::Call { name, args } => {
                self.head(stmt, 22);
                self.string(name);
                self.exprs(args);
            }
            _ => self.from_mid(stmt),
        }
    }

    /// The statements from MID$ on.
    #[inline(always)]
    fn from_mid(&mut self, stmt: &'a Stmt) {
        match &stmt.kind {
            StmtKind::MidAssign {
                target,
                start,
                len,
                value,
            } => {
                self.head(stmt, 23);
                self.lvalue(target);
                self.expr(start);
                self.maybe(len);
                self.expr(value);
            }
            StmtKind::Swap(a, b) => {
                self.head(stmt, 24);
                self.lvalue(a);
                self.lvalue(b);
            }
            StmtKind::Const { name, value } => {
                self.head(stmt, 25);
                self.string(name);
                self.expr(value);
            }
            StmtKind::ExitLoop { is_for } => {
                self.head(stmt, 26);
                self.flag(*is_for);
            }
            StmtKind::ExitProc => self.head(stmt, 27),
            StmtKind::OptionBase(n) => {
                self.head(stmt, 28);
                self.integer(*n);
            }
            _ => self.from_type(stmt),
        }
    }

    /// The statements from TYPE on.
    #[inline(always)]
    fn from_type(&mut self, stmt: &'a Stmt) {
        match &stmt.kind {
            StmtKind::TypeDef { name, fields } => {
                self.head(stmt, 29);
                self.string(name);
                self.list(fields, |w, f| {
                    w.string(&f.name);
                    w.type_ref(&f.ty);
                });
            }
            StmtKind::FieldAssign { target, value } => {
                self.head(stmt, 30);
                self.lvalue(target);
                self.expr(value);
            }
            StmtKind::Data(items) => {
                self.head(stmt, 31);
                self.list(items, |w, i| {
                    w.string(&i.text);
                    w.flag(i.quoted);
                });
            }
            StmtKind::Read(vars) => {
                self.head(stmt, 32);
                self.list(vars, Self::lvalue);
            }
            StmtKind::DefType { ty, ranges } => {
                self.head(stmt, 33);
                self.simple(&DATA_TYPES, ty);
                self.list(ranges, |w, (first, last)| {
                    w.letter(*first);
                    w.letter(*last);
                });
            }
            StmtKind::Beep => self.head(stmt, 34),
            _ => self.from_erase(stmt),
        }
    }

    /// The statements from ERASE on.
    #[inline(always)]
    fn from_erase(&mut self, stmt: &'a Stmt) {
        match &stmt.kind {
            StmtKind::Erase(names) => {
                self.head(stmt, 35);
                self.names(names);
            }
            StmtKind::RaiseError(e) => {
                self.head(stmt, 36);
                self.expr(e);
            }
            StmtKind::OnError(t) => {
                self.head(stmt, 37);
                self.option(t, Self::target);
            }
            StmtKind::Resume(t) => {
                self.head(stmt, 38);
                self.resume(t);
            }
            StmtKind::Locate { row, col } => {
                self.head(stmt, 39);
                self.maybe(row);
                self.maybe(col);
            }
            StmtKind::Color { fg, bg } => {
                self.head(stmt, 40);
                self.maybe(fg);
                self.maybe(bg);
            }
            StmtKind::Randomize(seed) => {
                self.head(stmt, 41);
                self.maybe(seed);
            }
            StmtKind::Restore(t) => {
                self.head(stmt, 42);
                self.option(t, Self::target);
            }
            StmtKind::Cls => self.head(stmt, 43),
            _ => self.from_select(stmt),
        }
    }

    /// The statements from SELECT CASE on.
    #[inline(always)]
    fn from_select(&mut self, stmt: &'a Stmt) {
        match &stmt.kind {
            StmtKind::SelectCase { expr, cases } => {
                self.head(stmt, 44);
                self.expr(expr);
                self.list(cases, |w, (clauses, body)| {
                    w.option(clauses, |w, cs| w.list(cs, Self::clause));
                    w.body(body);
                });
            }
            StmtKind::End => self.head(stmt, 45),
            StmtKind::Stop => self.head(stmt, 46),
            StmtKind::Open {
                filename,
                mode,
                file_num,
                reclen,
            } => {
                self.head(stmt, 47);
                self.expr(filename);
                self.simple(&FILE_MODES, mode);
                self.expr(file_num);
                self.maybe(reclen);
            }
            StmtKind::Close(file_nums) => {
                self.head(stmt, 48);
                self.exprs(file_nums);
            }
            StmtKind::Width { file_num, width } => {
                self.head(stmt, 49);
                self.maybe(file_num);
                self.expr(width);
            }
            _ => self.from_field(stmt),
        }
    }

    /// The statements from FIELD on.
    #[inline(always)]
    fn from_field(&mut self, stmt: &'a Stmt) {
        match &stmt.kind {
            StmtKind::Field { file_num, fields } => {
                self.head(stmt, 50);
                self.expr(file_num);
                self.list(fields, |w, f| {
                    w.expr(&f.width);
                    w.lvalue(&f.target);
                });
            }
            StmtKind::SetField {
                target,
                value,
                right,
            } => {
                self.head(stmt, 51);
                self.lvalue(target);
                self.expr(value);
                self.flag(*right);
            }
            StmtKind::GetPut {
                file_num,
                record,
                is_put,
            } => {
                self.head(stmt, 52);
                self.expr(file_num);
                self.maybe(record);
                self.flag(*is_put);
            }
            _ => self.from_lock(stmt),
        }
    }

    /// LOCK, the last statement. Those before it, written by now, are named so that the compiler finds a forgotten one.
    #[inline(always)]
    fn from_lock(&mut self, stmt: &'a Stmt) {
        match &stmt.kind {
            StmtKind::Lock {
                file_num,
                range,
                is_unlock,
            } => {
                self.head(stmt, 53);
                self.expr(file_num);
                self.option(range, |w, (start, end)| {
                    w.expr(start);
                    w.maybe(end);
                });
                self.flag(*is_unlock);
            }
            StmtKind::Label(..) | StmtKind::LabelName(..) | StmtKind::Let { .. } => {}
            StmtKind::Print { .. } | StmtKind::Input { .. } | StmtKind::LineInput { .. } => {}
            StmtKind::If { .. } | StmtKind::For { .. } | StmtKind::While { .. } => {}
            StmtKind::DoLoop { .. } | StmtKind::Goto(..) | StmtKind::Gosub(..) => {}
            StmtKind::Return(..) | StmtKind::OnGoto { .. } | StmtKind::OnGosub { .. } => {}
            StmtKind::Dim { .. } | StmtKind::Declare { .. } | StmtKind::Shared(..) => {}
            StmtKind::Static(..) | StmtKind::Redim { .. } | StmtKind::Sub { .. } => {}
            StmtKind::Function { .. } | StmtKind::Call { .. } => {}
            StmtKind::MidAssign { .. } | StmtKind::Swap(..) | StmtKind::Const { .. } => {}
            StmtKind::ExitLoop { .. } | StmtKind::ExitProc | StmtKind::OptionBase(..) => {}
            StmtKind::TypeDef { .. } | StmtKind::FieldAssign { .. } | StmtKind::Data(..) => {}
            StmtKind::Read(..) | StmtKind::DefType { .. } | StmtKind::Beep => {}
            StmtKind::Erase(..) | StmtKind::RaiseError(..) | StmtKind::OnError(..) => {}
            StmtKind::Resume(..) | StmtKind::Locate { .. } | StmtKind::Color { .. } => {}
            StmtKind::Randomize(..) | StmtKind::Restore(..) | StmtKind::Cls => {}
            StmtKind::SelectCase { .. } | StmtKind::End | StmtKind::Stop => {}
            StmtKind::Open { .. } | StmtKind::Close(..) | StmtKind::Width { .. } => {}
            StmtKind::Field { .. } | StmtKind::SetField { .. } | StmtKind::GetPut { .. } => {}
        }
    }
}
