
// Appended at build time: a way to the private `Analyzer`. Each function is one call or one field of it.

/// The original's analyser.
pub struct Original(Analyzer);

impl Original {
    pub fn new(erased: HashSet<String>) -> Original {
        Original(Analyzer {
            checks: true,
            erased,
            ..Default::default()
        })
    }

    pub fn collect(&mut self, stmts: &[Stmt], scope: &Scope) {
        self.0.collect(stmts, scope);
    }

    pub fn check_name_collisions(&mut self) {
        self.0.check_name_collisions();
    }

    pub fn resolve_array_accesses(&mut self, stmts: &mut [Stmt], scope: &Scope) {
        self.0.resolve_array_accesses(stmts, scope);
    }

    pub fn symbols(&self) -> &Symbols {
        &self.0.symbols
    }

    pub fn diagnostics(&self) -> &[Diagnostic] {
        &self.0.diagnostics
    }

    pub fn diagnostics_mut(&mut self) -> &mut Vec<Diagnostic> {
        &mut self.0.diagnostics
    }

    pub fn seen_option_base(&self) -> bool {
        self.0.seen_option_base
    }

    pub fn unranked_array_params(&self) -> &HashSet<(String, String)> {
        &self.0.unranked_array_params
    }

    /// DIM SHARED's first loop alone, at module level.
    pub fn share_all(&mut self, decls: &[Declarator]) {
        for decl in decls {
            self.0
                .symbols
                .shared_all
                .insert(&decl.name, decl.dimensions.is_some());
        }
    }

    /// The analyser over tables that are given.
    pub fn over(symbols: Symbols) -> Original {
        Original(Analyzer {
            symbols,
            checks: true,
            ..Default::default()
        })
    }

    /// The value of an expression, or document 01's code: 11 overflow, 12 not constant.
    pub fn const_eval(&self, e: &Expr) -> Result<Literal, u32> {
        self.0.fold_overflowed.set(false);
        let value = self.0.const_eval(e);
        value.ok_or(if self.0.fold_overflowed.get() { 11 } else { 12 })
    }

    pub fn declared_type(&self, name: &str, scope: &Scope) -> Option<DataType> {
        self.0.declared_type(name, scope)
    }

    pub fn resolve_args(&self, name: &str, args: &mut [Expr], scope: &Scope) {
        Analyzer::resolve_args(&self.0.symbols, name, args, scope);
    }

    pub fn resolve_expr(&self, expr: &mut Expr, scope: &Scope) {
        Analyzer::resolve_expr(&self.0.symbols, expr, scope);
    }
}

/// The least and the most arguments of a builtin.
pub fn builtin_takes(name: &str) -> Option<(usize, usize)> {
    builtin(name).map(|(_, least, most)| (*least, *most))
}

/// The names of the builtins, in the original's order.
pub fn builtin_names() -> Vec<&'static str> {
    BUILTINS.iter().map(|(name, _, _)| *name).collect()
}

pub fn subscripts(body: &[Stmt], name: &str) -> Option<usize> {
    subscript_count(body, name)
}
