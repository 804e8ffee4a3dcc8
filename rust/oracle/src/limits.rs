//! Numbers 7, 8 and 9, which the original doesn't have: the original's `collect` taken a step at a time.
//!
//! A step is the smallest piece that `collect` can be given: a statement without its bodies, a declarator, a procedure's head.
//! After each step the rows and diagnostics are counted; where a limit is passed, the events within the step are put
//! in the original's order to say which limit it met first.

use crate::ast::*;
use crate::raw::{MAX_TYPE_WORDS, Refusal};
use crate::sema::{Original, Scope, for_each_expr_mut};
use crate::table::row_count;
use std::collections::HashSet;

/// How many rows and diagnostics are lent.
#[derive(Debug, Clone, Copy)]
pub struct Lent {
    pub rows: usize,
    pub diagnostics: usize,
}

/// Whether a program could meet a limit at all, by a generous count.
pub fn may_stop(program: &[Stmt], lent: Lent) -> bool {
    let mut bound = Bound::default();
    bound.body(program);
    bound.rows > lent.rows || bound.diagnostics > lent.diagnostics || bound.largest > MAX_TYPE_WORDS
}

#[derive(Default)]
struct Bound {
    rows: usize,
    diagnostics: usize,
    /// The most words that a TYPE so far can have.
    largest: i64,
}

impl Bound {
    fn add(&mut self, rows: usize, diagnostics: usize) {
        self.rows += rows;
        self.diagnostics += diagnostics;
    }

    fn body(&mut self, stmts: &[Stmt]) {
        for stmt in stmts {
            match &stmt.kind {
                StmtKind::TypeDef { fields, .. } => {
                    self.add(1 + fields.len(), 2 + fields.len());
                    self.type_def(fields);
                }
                StmtKind::Label(_)
                | StmtKind::LabelName(_)
                | StmtKind::OptionBase(_)
                | StmtKind::Const { .. } => self.add(1, 2),
                StmtKind::Shared(items) | StmtKind::Static(items) => self.add(2 * items.len(), 1),
                StmtKind::Dim { decls, .. } | StmtKind::Redim { decls, .. } => {
                    self.add(3 * decls.len(), 1 + 6 * decls.len());
                }
                StmtKind::Sub { params, .. } | StmtKind::Function { params, .. } => {
                    self.add(3 + 3 * params.len(), 4 + 3 * params.len());
                }
                _ => {}
            }
            child_bodies(stmt).into_iter().for_each(|b| self.body(b));
        }
    }

    fn type_def(&mut self, fields: &[FieldDecl]) {
        let words = fields.iter().map(|f| match f.ty {
            TypeRef::Record(_) => self.largest,
            _ => 2,
        });
        let words = words.fold(0, i64::saturating_add);
        self.largest = self.largest.max(words);
    }
}

/// What a step does, in the original's order.
enum Event {
    Diagnostic,
    /// Rows entered at once, less those that go first.
    Rows(isize),
    /// A TYPE passes its words.
    Words,
}

/// The original, stopped where a limit is met.
pub struct Stepper {
    pub original: Original,
    lent: Lent,
    rows: usize,
    diagnostics: usize,
}

type Stop = Result<(), Refusal>;

impl Stepper {
    pub fn new(erased: HashSet<String>, lent: Lent) -> Stepper {
        Stepper {
            original: Original::new(erased),
            lent,
            rows: 0,
            diagnostics: 0,
        }
    }

    /// `collect`, with the limits.
    pub fn collect(&mut self, stmts: &[Stmt], scope: &Scope) -> Stop {
        for stmt in stmts {
            self.statement(stmt, scope)?;
        }
        Ok(())
    }

    /// `collect` of one statement.
    #[inline]
    fn statement(&mut self, stmt: &Stmt, scope: &Scope) -> Stop {
        match &stmt.kind {
            StmtKind::TypeDef { name, fields } => {
                self.whole(stmt, scope);
                let events = self.type_events(name, fields);
                self.happen(events)
            }
            StmtKind::Dim { decls, shared } => self.dim(stmt, decls, *shared, scope),
            StmtKind::Redim { decls, preserve } => self.redim(stmt, decls, *preserve, scope),
            StmtKind::Sub {
                name, params, body, ..
            }
            | StmtKind::Function {
                name, params, body, ..
            } => {
                self.head(stmt, name, params, scope)?;
                self.collect(body, &Scope::Proc(name.clone()))
            }
            _ if child_bodies(stmt).is_empty() => {
                self.whole(stmt, scope);
                // Every other statement pushes its diagnostics before it enters a new row.
                let events = self.diagnostics_then_rows();
                self.happen(events)
            }
            _ => {
                for body in child_bodies(stmt) {
                    self.collect(body, scope)?;
                }
                Ok(())
            }
        }
    }

    /// DIM: what SHARED does, then the declarators one at a time.
    #[inline]
    fn dim(&mut self, stmt: &Stmt, decls: &[Declarator], shared: bool, scope: &Scope) -> Stop {
        if shared {
            self.dim_shared(stmt, decls, scope)?;
        }
        for d in decls {
            let decls = vec![d.clone()];
            let shared = false;
            self.declarator(stmt, StmtKind::Dim { decls, shared }, scope)?;
        }
        Ok(())
    }

    /// REDIM: the declarators one at a time.
    #[inline]
    fn redim(&mut self, stmt: &Stmt, decls: &[Declarator], preserve: bool, scope: &Scope) -> Stop {
        for d in decls {
            let decls = vec![d.clone()];
            self.declarator(stmt, StmtKind::Redim { decls, preserve }, scope)?;
        }
        Ok(())
    }

    /// `check_name_collisions`, with the limit.
    pub fn check_name_collisions(&mut self) -> Stop {
        self.original.check_name_collisions();
        let events = self.diagnostics_then_rows();
        self.happen(events)
    }

    fn whole(&mut self, stmt: &Stmt, scope: &Scope) {
        self.original.collect(std::slice::from_ref(stmt), scope);
    }

    /// Go through a step's events; the counts afterwards must be the original's.
    fn happen(&mut self, events: Vec<Event>) -> Stop {
        for event in events {
            match event {
                Event::Diagnostic => self.diagnostics += 1,
                Event::Rows(change) => self.rows = self.rows.strict_add_signed(change),
                Event::Words => return Err(Refusal::new(9, 0)),
            }
            if self.rows > self.lent.rows {
                return Err(Refusal::new(7, 0));
            }
            if self.diagnostics > self.lent.diagnostics {
                return Err(Refusal::new(8, 0));
            }
        }
        assert_eq!(self.rows, row_count(&self.original));
        assert_eq!(self.diagnostics, self.original.diagnostics().len());
        Ok(())
    }

    fn new_rows(&self) -> isize {
        row_count(&self.original) as isize - self.rows as isize
    }

    fn new_diagnostics(&self) -> impl Iterator<Item = &str> {
        let all = &self.original.diagnostics()[self.diagnostics..];
        all.iter().map(|d| d.message.as_str())
    }

    fn diagnostics_then_rows(&self) -> Vec<Event> {
        let mut events: Vec<Event> = self.new_diagnostics().map(|_| Event::Diagnostic).collect();
        // One at a time, which a redefinition is not, but no redefinition comes here.
        events.extend((0..self.new_rows()).map(|_| Event::Rows(1)));
        events
    }

    /// 3 and 4, then the fields in order, each kept or rejected with a diagnostic, then the rows.
    fn type_events(&self, name: &str, fields: &[FieldDecl]) -> Vec<Event> {
        let symbols = self.original.symbols();
        let record = &symbols.records[name];
        let mut kept = record.fields.iter().peekable();
        let mut rejected = 0;
        let mut in_fields = Vec::new();
        for f in fields {
            // A kept name comes once, and a field rejected for its type is rejected whenever it comes.
            if kept
                .next_if(|(n, k)| *n == f.name && k.ty == f.ty)
                .is_some()
            {
                let end = kept.peek().map_or(record.words, |(_, next)| next.word);
                if i64::from(end) > MAX_TYPE_WORDS {
                    in_fields.push(Event::Words);
                }
            } else {
                rejected += 1;
                in_fields.push(Event::Diagnostic);
            }
        }
        let before = self.new_diagnostics().count() - rejected;
        let mut events: Vec<Event> = (0..before).map(|_| Event::Diagnostic).collect();
        events.extend(in_fields);
        events.push(Event::Rows(self.new_rows()));
        events
    }

    /// Code 14, or all the 137 rows.
    fn dim_shared(&mut self, stmt: &Stmt, decls: &[Declarator], scope: &Scope) -> Stop {
        if *scope == Scope::Module {
            self.original.share_all(decls);
        } else {
            let kind = StmtKind::Dim {
                decls: vec![],
                shared: true,
            };
            self.whole(
                &Stmt {
                    line: stmt.line,
                    kind,
                },
                scope,
            );
        }
        let events = self.diagnostics_then_rows();
        self.happen(events)
    }

    /// One declarator: 15, 16, 17, row 134, then 18 and one of 19, 20, 21, row 133.
    fn declarator(&mut self, stmt: &Stmt, kind: StmtKind, scope: &Scope) -> Stop {
        let typed = self.original.symbols().typed_vars.len();
        let line = stmt.line;
        self.whole(&Stmt { line, kind }, scope);
        let typed = self.original.symbols().typed_vars.len() - typed;
        let of_array = |m: &&str| m.starts_with("array '") || m.starts_with("REDIM ");
        let late = self.new_diagnostics().filter(of_array).count();
        let early = self.new_diagnostics().count() - late;
        let mut events: Vec<Event> = (0..early).map(|_| Event::Diagnostic).collect();
        events.push(Event::Rows(typed as isize));
        events.extend((0..late).map(|_| Event::Diagnostic));
        events.push(Event::Rows(self.new_rows() - typed as isize));
        self.happen(events)
    }

    /// A procedure without its body: 15, 22, 23, 24, 25, rows 135 and 136 at once, 140, 141, 133 and 142 of each array
    /// parameter, then 26 and row 134 of each typed one.
    fn head(&mut self, stmt: &Stmt, name: &str, params: &[Param], scope: &Scope) -> Stop {
        let symbols = self.original.symbols();
        let inner = Scope::Proc(name.to_string());
        let old = symbols.procs.get(name).map_or(0, |p| 1 + p.params.len());
        let mut entered = HashSet::new();
        let mut typed = Vec::new();
        for p in params.iter().filter(|p| !p.array) {
            let Some(ty) = &p.ty else { continue };
            if matches!(ty, TypeRef::Record(r) if !symbols.records.contains_key(r)) {
                typed.push(Event::Diagnostic);
            }
            let key = (inner.clone(), p.name.clone());
            if !symbols.typed_vars.contains_key(&key) && entered.insert(&p.name) {
                typed.push(Event::Rows(1));
            }
        }
        let undefined = typed
            .iter()
            .filter(|e| matches!(e, Event::Diagnostic))
            .count();
        let typed_rows = typed.len() - undefined;

        let mut alone = stmt.clone();
        if let StmtKind::Sub { body, .. } | StmtKind::Function { body, .. } = &mut alone.kind {
            body.iter_mut().for_each(neutral);
        }
        self.whole(&alone, scope);

        let early = self.new_diagnostics().count() - undefined;
        let entry = 1 + params.len() as isize - old as isize;
        let mut events: Vec<Event> = (0..early).map(|_| Event::Diagnostic).collect();
        events.push(Event::Rows(entry));
        let between = self.new_rows() - entry - typed_rows as isize;
        events.extend((0..between).map(|_| Event::Rows(1)));
        events.extend(typed);
        self.happen(events)
    }
}

/// Make a statement one that `collect` passes over and `subscript_count` can't tell from it: the same expressions in the
/// same order, the same bodies, and no declaration.
fn neutral(stmt: &mut Stmt) {
    if declares(&stmt.kind) {
        let mut exprs = Vec::new();
        for_each_expr_mut(stmt, &mut |e| exprs.push(e.clone()));
        stmt.kind = StmtKind::Close(exprs);
    }
    if let StmtKind::Sub { body, .. } | StmtKind::Function { body, .. } = &mut stmt.kind {
        let body = std::mem::take(body);
        stmt.kind = StmtKind::DoLoop {
            condition: None,
            cond_at_start: false,
            is_until: false,
            body,
        };
    }
    neutral_bodies(&mut stmt.kind);
}

/// Whether a statement without bodies is a declaration.
#[inline]
fn declares(kind: &StmtKind) -> bool {
    matches!(
        kind,
        StmtKind::Label(_)
            | StmtKind::LabelName(_)
            | StmtKind::TypeDef { .. }
            | StmtKind::OptionBase(_)
            | StmtKind::Const { .. }
            | StmtKind::Shared(_)
            | StmtKind::Static(_)
            | StmtKind::Dim { .. }
            | StmtKind::Redim { .. }
    )
}

/// `neutral` of each statement in the bodies.
#[inline]
fn neutral_bodies(kind: &mut StmtKind) {
    match kind {
        StmtKind::If {
            then_branch,
            else_branch,
            ..
        } => {
            then_branch.iter_mut().for_each(neutral);
            else_branch.iter_mut().flatten().for_each(neutral);
        }
        StmtKind::SelectCase { cases, .. } => {
            cases.iter_mut().flat_map(|(_, b)| b).for_each(neutral);
        }
        StmtKind::For { body, .. }
        | StmtKind::While { body, .. }
        | StmtKind::DoLoop { body, .. } => {
            body.iter_mut().for_each(neutral);
        }
        _ => {}
    }
}
