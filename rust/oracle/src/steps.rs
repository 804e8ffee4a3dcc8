//! Demand 3's two steps, on the original's own tree and tables: a pair of parentheses put or taken, and a name with its list
//! written as a call or as an element.

use crate::ast::*;
use crate::sema::{Scope, Symbols, for_each_expr_mut};

#[derive(Debug, Clone, Copy, PartialEq, Eq)]
pub enum Action {
    Put,
    Take,
    Rewrite,
}

/// What a step is under a program's tables.
#[derive(Debug, Clone, Copy, PartialEq, Eq)]
pub enum Verdict {
    Allowed,
    /// Neither allowed nor the same as an allowed one.
    Forbidden,
    /// Not done: there is nothing there to take or rewrite, or the outcome is also that of an allowed step.
    Nothing,
}

/// How many expressions a program has, at any depth.
pub fn expressions(program: &mut [Stmt], symbols: &Symbols) -> usize {
    let mut count = 0;
    walk(program, &Scope::Module, symbols, &mut |_, _, _| count += 1);
    count
}

/// Do a step at the expression of that number, if it is allowed or forbidden.
pub fn step(program: &mut [Stmt], symbols: &Symbols, at: usize, action: Action) -> Verdict {
    let mut number = 0;
    let mut verdict = Verdict::Nothing;
    walk(program, &Scope::Module, symbols, &mut |e, whole, scope| {
        if number == at {
            verdict = change(e, whole, scope, symbols, action);
        }
        number += 1;
    });
    verdict
}

/// `whole`: `e` is the whole argument of a known procedure's by-reference parameter that is neither array nor record.
fn change(e: &mut Expr, whole: bool, scope: &Scope, symbols: &Symbols, action: Action) -> Verdict {
    let judge = |forbidden| match forbidden {
        true => Verdict::Forbidden,
        false => Verdict::Allowed,
    };
    match (action, &mut *e) {
        // A second pair around a whole argument, put or taken, might as well be the one inside.
        (Action::Put, Expr::Paren(_)) if whole => Verdict::Nothing,
        (Action::Take, Expr::Paren(inner)) if whole && matches!(**inner, Expr::Paren(_)) => {
            Verdict::Nothing
        }
        (Action::Put, _) => {
            let inner = std::mem::replace(e, Expr::Literal(Literal::Integer(0)));
            *e = Expr::Paren(Box::new(inner));
            judge(whole)
        }
        (Action::Take, Expr::Paren(inner)) => {
            *e = std::mem::replace(&mut **inner, Expr::Literal(Literal::Integer(0)));
            judge(whole)
        }
        (Action::Rewrite, Expr::FnCall { name, args }) => {
            let forbidden = !is_visible_array(name, scope, symbols);
            *e = Expr::ArrayAccess {
                name: std::mem::take(name),
                indices: std::mem::take(args),
            };
            judge(forbidden)
        }
        (Action::Rewrite, Expr::ArrayAccess { name, indices }) => {
            let forbidden = !is_visible_array(name, scope, symbols);
            *e = Expr::FnCall {
                name: std::mem::take(name),
                args: std::mem::take(indices),
            };
            judge(forbidden)
        }
        _ => Verdict::Nothing,
    }
}

fn is_visible_array(name: &str, scope: &Scope, symbols: &Symbols) -> bool {
    !symbols.procs.contains_key(name) && symbols.lookup_array(scope, name).is_some()
}

/// Whether pairs count around argument `i` of a call to `name`.
fn by_reference(symbols: &Symbols, name: &str, i: usize) -> bool {
    let param = symbols.procs.get(name).and_then(|p| p.params.get(i));
    param.is_some_and(|p| !p.byval && !p.array && !matches!(p.ty, Some(TypeRef::Record(_))))
}

type Visit<'f> = &'f mut dyn FnMut(&mut Expr, bool, &Scope);

fn walk(stmts: &mut [Stmt], scope: &Scope, symbols: &Symbols, f: Visit<'_>) {
    for stmt in stmts {
        if let StmtKind::Call { name, args } = &mut stmt.kind {
            for (i, a) in args.iter_mut().enumerate() {
                within(a, by_reference(symbols, name, i), scope, symbols, f);
            }
        } else {
            for_each_expr_mut(stmt, &mut |e| within(e, false, scope, symbols, f));
        }
        match &mut stmt.kind {
            StmtKind::Sub { name, body, .. } | StmtKind::Function { name, body, .. } => {
                walk(body, &Scope::Proc(name.clone()), symbols, f);
            }
            StmtKind::If {
                then_branch,
                else_branch,
                ..
            } => {
                walk(then_branch, scope, symbols, f);
                if let Some(body) = else_branch {
                    walk(body, scope, symbols, f);
                }
            }
            StmtKind::SelectCase { cases, .. } => {
                for (_, body) in cases {
                    walk(body, scope, symbols, f);
                }
            }
            StmtKind::For { body, .. }
            | StmtKind::While { body, .. }
            | StmtKind::DoLoop { body, .. } => walk(body, scope, symbols, f),
            _ => {}
        }
    }
}

/// An expression, after those in it, so that a change isn't walked.
fn within(e: &mut Expr, whole: bool, scope: &Scope, symbols: &Symbols, f: Visit<'_>) {
    match e {
        Expr::Literal(_) | Expr::Variable(_) => {}
        Expr::Unary { operand: inner, .. }
        | Expr::Field { base: inner, .. }
        | Expr::Paren(inner) => {
            within(inner, false, scope, symbols, f);
        }
        Expr::Binary { left, right, .. } => {
            within(left, false, scope, symbols, f);
            within(right, false, scope, symbols, f);
        }
        Expr::ArrayAccess { indices, .. } => {
            for i in indices {
                within(i, false, scope, symbols, f);
            }
        }
        Expr::FnCall { name, args } => {
            for (i, a) in args.iter_mut().enumerate() {
                within(a, by_reference(symbols, name, i), scope, symbols, f);
            }
        }
    }
    f(e, whole, scope);
}
