//! Stands in for the original's lexer, which isn't among the published files: the tokens that `parser.rs` names (nothing
//! makes one here), and `normalized`, which folds case and so is identity on an image's names.
#![allow(dead_code)]

pub fn normalized(name: &str) -> &str {
    name
}

#[derive(Debug, Clone, Copy, PartialEq)]
#[rustfmt::skip]
pub enum DataTypeWord { Integer, Long, Single, Double, String }

#[derive(Debug, Clone, PartialEq)]
#[rustfmt::skip]
pub enum Token {
    Ident(String), Integer(i64), Long(i64), Single(f64), Float(f64), String(String), LineNumber(u32), DataText(String),
    DefType(DataTypeWord),
    And, Append, As, Backslash, Base, Beep, Caret, Case, Close, Cls, Colon, Color, Comma, Const, Def, Dim, Do, Dot, Else,
    ElseIf, End, EndFunction, EndIf, EndSelect, EndSub, EndType, Eof, Eq, Eqv, Exit, For, Function, Ge, Gosub, Goto, Gt,
    Hash, If, Imp, Input, LParen, Le, Let, Line, Locate, Loop, Lt, Minus, Mod, Ne, Newline, Next, Not, On, Open, Option,
    Or, Output, Plus, Preserve, Print, RParen, Randomize, Read, Redim, Restore, Resume, Return, Select, Semicolon, Slash,
    Star, Step, Stop, Sub, Swap, System, Then, To, Type, Until, Using, Wend, While, Write, Xor,
}
