//! The syntax tree: the types of xbasic64's `parser.rs` that an image can hold, variant for variant and field for field.
//!
//! `codec.rs` compiles over these and, in the oracle, over the original's own, so a field that differs doesn't build.

// Copyright (c) 2025-2026 Jeff Garzik
// SPDX-License-Identifier: MIT

#[derive(Debug, Clone, PartialEq)]
pub struct Stmt {
    pub line: u32,
    pub kind: StmtKind,
}

#[derive(Debug, Clone, PartialEq)]
pub enum StmtKind {
    Label(u32),
    LabelName(String),
    Let {
        name: String,
        indices: Option<Vec<Expr>>,
        value: Expr,
    },
    Print {
        file_num: Option<Expr>,
        items: Vec<PrintItem>,
        newline: bool,
        using: Option<Expr>,
        write: bool,
    },
    Input {
        prompt: Option<String>,
        query: bool,
        vars: Vec<LValue>,
        file_num: Option<Expr>,
    },
    LineInput {
        prompt: Option<String>,
        var: LValue,
        file_num: Option<Expr>,
    },
    If {
        condition: Expr,
        then_branch: Vec<Stmt>,
        else_branch: Option<Vec<Stmt>>,
    },
    For {
        var: String,
        start: Expr,
        end: Expr,
        step: Option<Expr>,
        body: Vec<Stmt>,
    },
    While {
        condition: Expr,
        body: Vec<Stmt>,
    },
    DoLoop {
        condition: Option<Expr>,
        cond_at_start: bool,
        is_until: bool,
        body: Vec<Stmt>,
    },
    Goto(GotoTarget),
    Gosub(GotoTarget),
    Return(Option<GotoTarget>),
    OnGoto {
        expr: Expr,
        targets: Vec<GotoTarget>,
    },
    OnGosub {
        expr: Expr,
        targets: Vec<GotoTarget>,
    },
    Dim {
        decls: Vec<Declarator>,
        shared: bool,
    },
    Declare {
        name: String,
        is_function: bool,
        params: Vec<Param>,
        ret_ty: Option<TypeRef>,
    },
    Shared(Vec<ScopeItem>),
    Static(Vec<ScopeItem>),
    Redim {
        decls: Vec<Declarator>,
        preserve: bool,
    },
    Sub {
        name: String,
        params: Vec<Param>,
        body: Vec<Stmt>,
        is_static: bool,
    },
    Function {
        name: String,
        params: Vec<Param>,
        ret_ty: Option<TypeRef>,
        body: Vec<Stmt>,
        is_static: bool,
        def_fn: bool,
    },
    Call {
        name: String,
        args: Vec<Expr>,
    },
    MidAssign {
        target: LValue,
        start: Expr,
        len: Option<Expr>,
        value: Expr,
    },
    Swap(LValue, LValue),
    Const {
        name: String,
        value: Expr,
    },
    ExitLoop {
        is_for: bool,
    },
    ExitProc,
    OptionBase(i64),
    TypeDef {
        name: String,
        fields: Vec<FieldDecl>,
    },
    FieldAssign {
        target: LValue,
        value: Expr,
    },
    Data(Vec<DataItem>),
    Read(Vec<LValue>),
    DefType {
        ty: DataType,
        ranges: Vec<(char, char)>,
    },
    Beep,
    Erase(Vec<String>),
    RaiseError(Expr),
    OnError(Option<GotoTarget>),
    Resume(ResumeTarget),
    Locate {
        row: Option<Expr>,
        col: Option<Expr>,
    },
    Color {
        fg: Option<Expr>,
        bg: Option<Expr>,
    },
    Randomize(Option<Expr>),
    Restore(Option<GotoTarget>),
    Cls,
    SelectCase {
        expr: Expr,
        cases: Vec<(Option<Vec<CaseClause>>, Vec<Stmt>)>,
    },
    End,
    Stop,
    Open {
        filename: Expr,
        mode: FileMode,
        file_num: Expr,
        reclen: Option<Expr>,
    },
    Close(Vec<Expr>),
    Width {
        file_num: Option<Expr>,
        width: Expr,
    },
    Field {
        file_num: Expr,
        fields: Vec<FieldSlice>,
    },
    SetField {
        target: LValue,
        value: Expr,
        right: bool,
    },
    GetPut {
        file_num: Expr,
        record: Option<Expr>,
        is_put: bool,
    },
    Lock {
        file_num: Expr,
        range: Option<(Expr, Option<Expr>)>,
        is_unlock: bool,
    },
}

#[derive(Debug, Clone, PartialEq)]
pub struct FieldSlice {
    pub width: Expr,
    pub target: LValue,
}

#[derive(Debug, Clone, Copy, PartialEq, Eq)]
pub enum FileMode {
    Input,
    Output,
    Append,
    Random,
}

#[derive(Debug, Clone, PartialEq)]
pub enum PrintItem {
    Expr(Expr),
    Tab,
    Empty,
}

#[derive(Debug, Clone, PartialEq)]
pub enum TypeRef {
    Integer,
    Long,
    Single,
    Double,
    FixedString(usize),
    Record(String),
}

#[derive(Debug, Clone, PartialEq)]
pub enum CaseClause {
    Value(Expr),
    Range(Expr, Expr),
    Compare(BinaryOp, Expr),
}

#[derive(Debug, Clone, PartialEq)]
pub struct Declarator {
    pub name: String,
    pub dimensions: Option<Vec<Expr>>,
    pub lowers: Vec<Option<Expr>>,
    pub ty: Option<TypeRef>,
}

#[derive(Debug, Clone, PartialEq)]
pub struct ScopeItem {
    pub name: String,
    pub array: bool,
    pub ty: Option<TypeRef>,
}

#[derive(Debug, Clone, PartialEq)]
pub struct Param {
    pub name: String,
    pub byval: bool,
    pub array: bool,
    pub ty: Option<TypeRef>,
}

#[derive(Debug, Clone, PartialEq)]
pub struct FieldDecl {
    pub name: String,
    pub ty: TypeRef,
}

#[derive(Debug, Clone, PartialEq)]
pub struct LValue {
    pub name: String,
    pub indices: Option<Vec<Expr>>,
    pub fields: Vec<String>,
}

#[derive(Debug, Clone, PartialEq)]
pub enum ResumeTarget {
    Same,
    Next,
    At(GotoTarget),
}

#[derive(Debug, Clone, PartialEq)]
pub enum GotoTarget {
    Line(u32),
    Label(String),
}

#[derive(Debug, Clone, PartialEq)]
pub enum Expr {
    Literal(Literal),
    Variable(String),
    ArrayAccess {
        name: String,
        indices: Vec<Expr>,
    },
    Unary {
        op: UnaryOp,
        operand: Box<Expr>,
    },
    Binary {
        op: BinaryOp,
        left: Box<Expr>,
        right: Box<Expr>,
    },
    FnCall {
        name: String,
        args: Vec<Expr>,
    },
    Field {
        base: Box<Expr>,
        field: String,
    },
    Paren(Box<Expr>),
}

#[derive(Debug, Clone, PartialEq)]
pub enum Literal {
    Integer(i64),
    Long(i64),
    Single(f64),
    Float(f64),
    String(String),
}

#[derive(Debug, Clone, Copy, PartialEq, Eq)]
pub enum UnaryOp {
    Neg,
    Not,
}

#[derive(Debug, Clone, Copy, PartialEq, Eq)]
pub enum BinaryOp {
    Add,
    Sub,
    Mul,
    Div,
    IntDiv,
    Mod,
    Pow,
    Eq,
    Ne,
    Lt,
    Gt,
    Le,
    Ge,
    And,
    Or,
    Xor,
    Eqv,
    Imp,
}

#[derive(Debug, Clone, Copy, PartialEq, Eq)]
pub enum DataType {
    Integer,
    Long,
    Single,
    Double,
    String,
}

#[derive(Debug, Clone, PartialEq)]
pub struct DataItem {
    pub text: String,
    pub quoted: bool,
}
