//! What stands in an image, as data: the fields of each struct and variant of `parser.rs`, in order, with their names.
//!
//! The text form is read and printed by this table alone; the codec is written out by hand over the types. A test holds
//! them against each other.

/// What may stand at a place.
#[derive(Debug)]
pub enum Sort {
    Name,
    Text,
    Integer,
    Flag,
    Letter,
    /// One word of two's complement.
    Whole,
    /// Two words, the low first.
    Float,
    Expr,
    Stmt,
    /// An enum without data.
    Simple(&'static [&'static str]),
    /// An enum whose variants have head words.
    Heads(&'static Heads),
    Option(&'static Sort),
    List(&'static Sort),
    /// A struct or tuple, without a head.
    Struct(&'static [Field]),
}

#[derive(Debug)]
pub struct Field {
    /// Empty where the field has none in the Rust.
    pub name: &'static str,
    pub sort: Sort,
}

#[derive(Debug)]
pub struct Heads {
    pub base: u32,
    pub variants: &'static [Variant],
}

#[derive(Debug)]
pub struct Variant {
    pub name: &'static str,
    pub fields: &'static [Field],
}

use Sort::{
    Expr, Flag, Float, Integer, Letter, List, Name, Option, Simple, Stmt, Struct, Text, Whole,
};

const fn f(name: &'static str, sort: Sort) -> Field {
    Field { name, sort }
}

const fn v(name: &'static str, fields: &'static [Field]) -> Variant {
    Variant { name, fields }
}

/// Kinds of words that are no heads.
pub const LIST: u32 = 1;
pub const STRING: u32 = 2;
pub const FLAG: u32 = 3;
pub const INTEGER: u32 = 4;
pub const LETTER: u32 = 7;
pub const SIMPLE: u32 = 9;

// The two letters of a DEFtype range; `cases` and `range` of their statements. The Rust has tuples there.
const LETTERS: &[Field] = &[f("first", Letter), f("last", Letter)];
const CASE: &[Field] = &[
    f("clauses", Option(&List(&Sort::Heads(&CASE_CLAUSE)))),
    f("body", List(&Stmt)),
];
const RANGE: &[Field] = &[f("start", Expr), f("end", Option(&Expr))];

const FILE_MODE: [&str; 4] = ["Input", "Output", "Append", "Random"];
const UNARY_OP: [&str; 2] = ["Neg", "Not"];
const BINARY_OP: [&str; 18] = [
    "Add", "Sub", "Mul", "Div", "IntDiv", "Mod", "Pow", "Eq", "Ne", "Lt", "Gt", "Le", "Ge", "And",
    "Or", "Xor", "Eqv", "Imp",
];
const DATA_TYPE: [&str; 5] = ["Integer", "Long", "Single", "Double", "String"];
const DECLARATOR: &[Field] = &[
    f("name", Name),
    f("dimensions", Option(&List(&Expr))),
    f("lowers", List(&Option(&Expr))),
    f("ty", Option(&Sort::Heads(&TYPE_REF))),
];
const SCOPE_ITEM: &[Field] = &[
    f("name", Name),
    f("array", Flag),
    f("ty", Option(&Sort::Heads(&TYPE_REF))),
];
const PARAM: &[Field] = &[
    f("name", Name),
    f("byval", Flag),
    f("array", Flag),
    f("ty", Option(&Sort::Heads(&TYPE_REF))),
];
const FIELD_DECL: &[Field] = &[f("name", Name), f("ty", Sort::Heads(&TYPE_REF))];
const L_VALUE: &[Field] = &[
    f("name", Name),
    f("indices", Option(&List(&Expr))),
    f("fields", List(&Name)),
];
const FIELD_SLICE: &[Field] = &[f("width", Expr), f("target", Struct(L_VALUE))];
const DATA_ITEM: &[Field] = &[f("text", Text), f("quoted", Flag)];
const LITERAL: self::Heads = self::Heads {
    base: 24,
    variants: &[
        v("Integer", &[f("", Whole)]),
        v("Long", &[f("", Whole)]),
        v("Single", &[f("", Float)]),
        v("Float", &[f("", Float)]),
        v("String", &[f("", Text)]),
    ],
};
const PRINT_ITEM: self::Heads = self::Heads {
    base: 32,
    variants: &[v("Expr", &[f("", Expr)]), v("Tab", &[]), v("Empty", &[])],
};
const CASE_CLAUSE: self::Heads = self::Heads {
    base: 36,
    variants: &[
        v("Value", &[f("", Expr)]),
        v("Range", &[f("", Expr), f("", Expr)]),
        v("Compare", &[f("", Simple(&BINARY_OP)), f("", Expr)]),
    ],
};
const TYPE_REF: self::Heads = self::Heads {
    base: 40,
    variants: &[
        v("Integer", &[]),
        v("Long", &[]),
        v("Single", &[]),
        v("Double", &[]),
        v("FixedString", &[f("", Integer)]),
        v("Record", &[f("", Name)]),
    ],
};
const GOTO_TARGET: self::Heads = self::Heads {
    base: 48,
    variants: &[v("Line", &[f("", Integer)]), v("Label", &[f("", Name)])],
};
const RESUME_TARGET: self::Heads = self::Heads {
    base: 52,
    variants: &[
        v("Same", &[]),
        v("Next", &[]),
        v("At", &[f("", Sort::Heads(&GOTO_TARGET))]),
    ],
};
pub static EXPR: self::Heads = self::Heads {
    base: 16,
    variants: &[
        v("Literal", &[f("", Sort::Heads(&LITERAL))]),
        v("Variable", &[f("", Name)]),
        v("ArrayAccess", &[f("name", Name), f("indices", List(&Expr))]),
        v("Unary", &[f("op", Simple(&UNARY_OP)), f("operand", Expr)]),
        v(
            "Binary",
            &[
                f("op", Simple(&BINARY_OP)),
                f("left", Expr),
                f("right", Expr),
            ],
        ),
        v("FnCall", &[f("name", Name), f("args", List(&Expr))]),
        v("Field", &[f("base", Expr), f("field", Name)]),
        v("Paren", &[f("", Expr)]),
    ],
};
pub static STMT: self::Heads = self::Heads {
    base: 64,
    variants: &[
        v("Label", &[f("", Integer)]),
        v("LabelName", &[f("", Name)]),
        v(
            "Let",
            &[
                f("name", Name),
                f("indices", Option(&List(&Expr))),
                f("value", Expr),
            ],
        ),
        v(
            "Print",
            &[
                f("file_num", Option(&Expr)),
                f("items", List(&Sort::Heads(&PRINT_ITEM))),
                f("newline", Flag),
                f("using", Option(&Expr)),
                f("write", Flag),
            ],
        ),
        v(
            "Input",
            &[
                f("prompt", Option(&Text)),
                f("query", Flag),
                f("vars", List(&Struct(L_VALUE))),
                f("file_num", Option(&Expr)),
            ],
        ),
        v(
            "LineInput",
            &[
                f("prompt", Option(&Text)),
                f("var", Struct(L_VALUE)),
                f("file_num", Option(&Expr)),
            ],
        ),
        v(
            "If",
            &[
                f("condition", Expr),
                f("then_branch", List(&Stmt)),
                f("else_branch", Option(&List(&Stmt))),
            ],
        ),
        v(
            "For",
            &[
                f("var", Name),
                f("start", Expr),
                f("end", Expr),
                f("step", Option(&Expr)),
                f("body", List(&Stmt)),
            ],
        ),
        v("While", &[f("condition", Expr), f("body", List(&Stmt))]),
        v(
            "DoLoop",
            &[
                f("condition", Option(&Expr)),
                f("cond_at_start", Flag),
                f("is_until", Flag),
                f("body", List(&Stmt)),
            ],
        ),
        v("Goto", &[f("", Sort::Heads(&GOTO_TARGET))]),
        v("Gosub", &[f("", Sort::Heads(&GOTO_TARGET))]),
        v("Return", &[f("", Option(&Sort::Heads(&GOTO_TARGET)))]),
        v(
            "OnGoto",
            &[
                f("expr", Expr),
                f("targets", List(&Sort::Heads(&GOTO_TARGET))),
            ],
        ),
        v(
            "OnGosub",
            &[
                f("expr", Expr),
                f("targets", List(&Sort::Heads(&GOTO_TARGET))),
            ],
        ),
        v(
            "Dim",
            &[f("decls", List(&Struct(DECLARATOR))), f("shared", Flag)],
        ),
        v(
            "Declare",
            &[
                f("name", Name),
                f("is_function", Flag),
                f("params", List(&Struct(PARAM))),
                f("ret_ty", Option(&Sort::Heads(&TYPE_REF))),
            ],
        ),
        v("Shared", &[f("", List(&Struct(SCOPE_ITEM)))]),
        v("Static", &[f("", List(&Struct(SCOPE_ITEM)))]),
        v(
            "Redim",
            &[f("decls", List(&Struct(DECLARATOR))), f("preserve", Flag)],
        ),
        v(
            "Sub",
            &[
                f("name", Name),
                f("params", List(&Struct(PARAM))),
                f("body", List(&Stmt)),
                f("is_static", Flag),
            ],
        ),
        v(
            "Function",
            &[
                f("name", Name),
                f("params", List(&Struct(PARAM))),
                f("ret_ty", Option(&Sort::Heads(&TYPE_REF))),
                f("body", List(&Stmt)),
                f("is_static", Flag),
                f("def_fn", Flag),
            ],
        ),
        v("Call", &[f("name", Name), f("args", List(&Expr))]),
        v(
            "MidAssign",
            &[
                f("target", Struct(L_VALUE)),
                f("start", Expr),
                f("len", Option(&Expr)),
                f("value", Expr),
            ],
        ),
        v("Swap", &[f("", Struct(L_VALUE)), f("", Struct(L_VALUE))]),
        v("Const", &[f("name", Name), f("value", Expr)]),
        v("ExitLoop", &[f("is_for", Flag)]),
        v("ExitProc", &[]),
        v("OptionBase", &[f("", Integer)]),
        v(
            "TypeDef",
            &[f("name", Name), f("fields", List(&Struct(FIELD_DECL)))],
        ),
        v(
            "FieldAssign",
            &[f("target", Struct(L_VALUE)), f("value", Expr)],
        ),
        v("Data", &[f("", List(&Struct(DATA_ITEM)))]),
        v("Read", &[f("", List(&Struct(L_VALUE)))]),
        v(
            "DefType",
            &[
                f("ty", Simple(&DATA_TYPE)),
                f("ranges", List(&Struct(LETTERS))),
            ],
        ),
        v("Beep", &[]),
        v("Erase", &[f("", List(&Name))]),
        v("RaiseError", &[f("", Expr)]),
        v("OnError", &[f("", Option(&Sort::Heads(&GOTO_TARGET)))]),
        v("Resume", &[f("", Sort::Heads(&RESUME_TARGET))]),
        v(
            "Locate",
            &[f("row", Option(&Expr)), f("col", Option(&Expr))],
        ),
        v("Color", &[f("fg", Option(&Expr)), f("bg", Option(&Expr))]),
        v("Randomize", &[f("", Option(&Expr))]),
        v("Restore", &[f("", Option(&Sort::Heads(&GOTO_TARGET)))]),
        v("Cls", &[]),
        v(
            "SelectCase",
            &[f("expr", Expr), f("cases", List(&Struct(CASE)))],
        ),
        v("End", &[]),
        v("Stop", &[]),
        v(
            "Open",
            &[
                f("filename", Expr),
                f("mode", Simple(&FILE_MODE)),
                f("file_num", Expr),
                f("reclen", Option(&Expr)),
            ],
        ),
        v("Close", &[f("", List(&Expr))]),
        v("Width", &[f("file_num", Option(&Expr)), f("width", Expr)]),
        v(
            "Field",
            &[f("file_num", Expr), f("fields", List(&Struct(FIELD_SLICE)))],
        ),
        v(
            "SetField",
            &[
                f("target", Struct(L_VALUE)),
                f("value", Expr),
                f("right", Flag),
            ],
        ),
        v(
            "GetPut",
            &[
                f("file_num", Expr),
                f("record", Option(&Expr)),
                f("is_put", Flag),
            ],
        ),
        v(
            "Lock",
            &[
                f("file_num", Expr),
                f("range", Option(&Struct(RANGE))),
                f("is_unlock", Flag),
            ],
        ),
    ],
};
