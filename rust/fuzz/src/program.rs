//! Programs. Names come from a small pool, so that declarations clash, scopes shadow and calls meet arrays.

use crate::rng::Rng;
use image::ast::*;
use image::raw::Raw;

/// What a program has most of.
#[derive(Debug, Clone, Copy, PartialEq)]
enum Flavour {
    Mixed,
    Constants,
    Folds,
    Types,
    Arrays,
    Procedures,
    Calls,
    Uses,
}

/// A program in any flavour, small to large.
pub fn any(rng: &mut Rng) -> (Raw, &'static str) {
    let (flavour, group) = *rng.pick(&[
        (Flavour::Mixed, "mixed"),
        (Flavour::Mixed, "mixed"),
        (Flavour::Constants, "constants"),
        (Flavour::Folds, "folds"),
        (Flavour::Folds, "folds"),
        (Flavour::Types, "types"),
        (Flavour::Arrays, "arrays"),
        (Flavour::Procedures, "procedures"),
        (Flavour::Calls, "calls"),
        (Flavour::Calls, "calls"),
        (Flavour::Uses, "uses"),
        (Flavour::Uses, "uses"),
    ]);
    let statements = match rng.below(20) {
        // A fold is small, and one program has space for many.
        _ if flavour == Flavour::Folds => rng.within(5, 60),
        0..8 => rng.within(1, 6),
        8..15 => rng.within(4, 20),
        15..19 => rng.within(10, 60),
        _ => rng.within(50, 250),
    };
    (Maker::new(rng, flavour).image(statements), group)
}

/// A few statements, most of them declarations.
pub fn small(rng: &mut Rng) -> Raw {
    let flavour = *rng.pick(&[
        Flavour::Mixed,
        Flavour::Types,
        Flavour::Arrays,
        Flavour::Procedures,
        Flavour::Constants,
        Flavour::Folds,
    ]);
    let statements = rng.within(1, 6);
    let depth = rng.within(2, 4);
    let mut maker = Maker::new(rng, flavour);
    maker.depth = depth;
    maker.image(statements)
}

/// One constant.
pub fn fold(rng: &mut Rng) -> Raw {
    Maker::new(rng, Flavour::Folds).image(1)
}

/// Names that a pool is drawn from: every suffix, built-in functions, dots, the longest.
const NAMES: &[&str] = &[
    "A",
    "A$",
    "A%",
    "A&",
    "A!",
    "A#",
    "B",
    "B$",
    "B%",
    "C",
    "D#",
    "E!",
    "F",
    "F%",
    "F$",
    "G",
    "G#",
    "H.X",
    "H.X$",
    "I",
    "K",
    "K%",
    "N",
    "P",
    "Q",
    "R",
    "REC",
    "REC2",
    "S$",
    "T",
    "X",
    "X1",
    "Y",
    "Z.9.Q%",
    "LEN",
    "MID$",
    "TAB",
    "TIMER",
    "ERR",
    "UBOUND",
    "VAL",
    "INSTR",
    "RND",
    "LOGSCAN",
    "ABCDEFGHIJKLMNOPQRSTUVWXYZ0123456789.AB#",
    "ABCDEFGHIJKLMNOPQRSTUVWXYZ0123456789.ABC",
];

const TEXTS: &[&str] = &[
    "",
    " ",
    "HELLO, WORLD",
    "a lower one",
    "~",
    "A",
    "N",
    "\"Q\"",
    "100% OF $5",
];

/// Whole numbers at the edges of their ranges.
pub(crate) const WHOLE: &[i32] = &[
    0,
    1,
    -1,
    2,
    3,
    7,
    -7,
    100,
    181,
    182,
    255,
    300,
    2767,
    2768,
    30000,
    32766,
    32767,
    32768,
    -32767,
    -32768,
    -32769,
    46340,
    46341,
    65535,
    65536,
    16_777_215,
    16_777_216,
    16_777_217,
    1_073_741_824,
    2_147_483_646,
    i32::MAX,
    -2_147_483_647,
    i32::MIN,
];

/// Floats at the edges: halves, the LONG range, where 32 bits end, the smallest and the largest.
pub(crate) const FLOATS: &[f64] = &[
    0.0,
    -0.0,
    0.5,
    -0.5,
    1.0,
    1.5,
    2.5,
    -1.5,
    -2.5,
    0.1,
    0.25,
    0.49999999999999994,
    0.5000000000000001,
    3.0,
    10.0,
    32767.5,
    32768.5,
    2147483646.5,
    2147483647.0,
    2147483647.4999998,
    2147483647.5,
    2147483648.0,
    -2147483648.0,
    -2147483648.5,
    -2147483648.5000005,
    -2147483649.0,
    16777216.0,
    16777217.0,
    16777218.0,
    16777219.0,
    3.4028234663852886e38,
    3.4028235677973362e38,
    3.4028235677973366e38,
    3.5e38,
    1e39,
    -3.4028235677973366e38,
    1.1754943508222875e-38,
    1.1754942807573643e-38,
    1.401298464324817e-45,
    7.006492321624085e-46,
    7.006492321624086e-46,
    2.1019476964872256e-45,
    1e-300,
    1e300,
    5e-324,
    2.2250738585072014e-308,
    1.7976931348623157e308,
    -1.7976931348623157e308,
    8.98846567431158e307,
    4503599627370495.5,
    9007199254740993.0,
    1.0000000596046448,
    // The same once more: without it every seed would have another case.
    1.0000000596046448,
    1.0000001788139343,
];

struct Maker<'a> {
    rng: &'a mut Rng,
    flavour: Flavour,
    names: Vec<String>,
    /// Levels of statements and expressions still allowed.
    depth: usize,
    /// Names that calls and elements have for the most part.
    called: Vec<String>,
    /// Statements still to come, bodies included.
    left: usize,
    in_procedure: bool,
}

impl<'a> Maker<'a> {
    fn new(rng: &'a mut Rng, flavour: Flavour) -> Maker<'a> {
        let size = match rng.below(10) {
            0..3 => 3,
            3..7 => 6,
            7..9 => 12,
            _ => NAMES.len(),
        };
        let names = (0..size).map(|_| rng.pick(NAMES).to_string()).collect();
        let depth = match flavour {
            Flavour::Folds => rng.within(1, 4),
            _ => rng.within(3, 12),
        };
        Maker {
            rng,
            flavour,
            names,
            depth,
            called: vec![],
            left: 0,
            in_procedure: false,
        }
    }

    fn image(mut self, statements: usize) -> Raw {
        self.left = statements;
        let planned = if self.flavour == Flavour::Calls {
            self.planned()
        } else {
            vec![]
        };
        let mut program = Vec::new();
        while self.left > 0 {
            program.push(self.stmt());
        }
        let at = if self.coin() { 0 } else { program.len() };
        program.splice(at..at, planned);
        let erased = if self.rng.one_in(3) {
            self.some(3, Self::name)
        } else {
            vec![]
        };
        let extra = if self.rng.one_in(4) {
            self.some(3, Self::text)
        } else {
            vec![]
        };
        image::build(&program, &erased, &extra)
    }

    /// Two procedures and two arrays, so that most calls are of something.
    fn planned(&mut self) -> Vec<Stmt> {
        let mut planned = Vec::new();
        for kind in [20, 20, 15, 15] {
            let name = self.name();
            self.called.push(name.clone());
            let kind = if kind == 20 {
                StmtKind::Function {
                    name,
                    params: self.some(3, |m| Param {
                        byval: m.rng.one_in(5),
                        array: m.rng.one_in(5),
                        ..m.param()
                    }),
                    ret_ty: None,
                    body: vec![],
                    is_static: false,
                    def_fn: false,
                }
            } else {
                let dimensions = Some(vec![self.leaf()]);
                StmtKind::Dim {
                    decls: vec![Declarator {
                        name,
                        dimensions,
                        lowers: vec![],
                        ty: None,
                    }],
                    shared: self.coin(),
                }
            };
            planned.push(Stmt {
                line: self.line(),
                kind,
            });
        }
        planned
    }

    // Pieces

    /// The name of a call or an element.
    fn called(&mut self) -> String {
        if self.called.is_empty() || self.rng.one_in(6) {
            return self.name();
        }
        self.rng.pick(&self.called).clone()
    }

    fn coin(&mut self) -> bool {
        self.rng.coin()
    }

    fn some<T>(&mut self, most: usize, mut one: impl FnMut(&mut Self) -> T) -> Vec<T> {
        let count = self.rng.within(0, most);
        (0..count).map(|_| one(self)).collect()
    }

    fn maybe<T>(&mut self, one: impl FnOnce(&mut Self) -> T) -> Option<T> {
        if self.coin() { Some(one(self)) } else { None }
    }

    fn name(&mut self) -> String {
        if self.rng.one_in(25) {
            return self.rng.pick(NAMES).to_string();
        }
        self.rng.pick(&self.names).clone()
    }

    fn text(&mut self) -> String {
        if self.rng.one_in(4) {
            return self.name();
        }
        self.rng.pick(TEXTS).to_string()
    }

    fn line(&mut self) -> u32 {
        match self.rng.below(20) {
            0 => 0,
            1 => 0x00ff_ffff,
            _ => self.rng.below(30) as u32,
        }
    }

    fn number(&mut self) -> u32 {
        match self.rng.below(12) {
            0 => 0,
            1 => 0x00ff_ffff,
            2 => self.rng.below(1 << 24) as u32,
            _ => 10 * self.rng.below(8) as u32,
        }
    }

    fn type_ref(&mut self) -> TypeRef {
        match self.rng.below(9) {
            0 => TypeRef::Integer,
            1 => TypeRef::Long,
            2 => TypeRef::Single,
            3 => TypeRef::Double,
            4 => TypeRef::FixedString(0),
            5 => TypeRef::FixedString(*self.rng.pick(&[1, 2, 8, 255, 32767, 0x00ff_ffff])),
            _ => TypeRef::Record(self.name()),
        }
    }

    fn target(&mut self) -> GotoTarget {
        if self.coin() {
            GotoTarget::Line(self.number())
        } else {
            GotoTarget::Label(self.name())
        }
    }

    fn literal(&mut self) -> Literal {
        match self.rng.below(12) {
            0..5 => Literal::Integer(self.whole()),
            5..7 => Literal::Long(self.whole()),
            7 => Literal::Single(f64::from(self.float() as f32)),
            8 => Literal::Single(self.float()),
            9..11 => Literal::Float(self.float()),
            _ => Literal::String(self.text()),
        }
        .finite()
    }

    fn whole(&mut self) -> i64 {
        match self.rng.below(8) {
            0 => i64::from(self.rng.bits() as i32),
            1 => i64::from(self.rng.bits() as i16),
            2..4 => self.rng.below(10) as i64,
            _ => i64::from(*self.rng.pick(WHOLE)),
        }
    }

    fn float(&mut self) -> f64 {
        let f = match self.rng.below(10) {
            8 => self.half_way(),
            9 => {
                // Between two whole numbers, or next to there.
                let half = f64::from(self.rng.bits() as i32 >> self.rng.below(31)) + 0.5;
                f64::from_bits(
                    half.to_bits()
                        .wrapping_add(self.rng.below(3) as u64)
                        .wrapping_sub(1),
                )
            }
            0 => f64::from_bits(self.rng.bits()),
            1 => f64::from(f32::from_bits(self.rng.bits() as u32)),
            2 => self.rng.bits() as i32 as f64 / 2.0,
            3 => {
                // A neighbour of an edge.
                let bits = self.rng.pick(FLOATS).to_bits();
                let step = self.rng.below(5) as u64;
                f64::from_bits(bits.wrapping_add(step).wrapping_sub(2))
            }
            _ => *self.rng.pick(FLOATS),
        };
        if f.is_finite() { f } else { 1.0 }
    }

    /// Between two neighbours of 32 bits, or next to there, where narrowing has to choose.
    fn half_way(&mut self) -> f64 {
        let narrow = f64::from(f32::from_bits(self.rng.bits() as u32)).to_bits();
        let step = self.rng.below(3) as u64;
        f64::from_bits((narrow | 1 << 28).wrapping_add(step).wrapping_sub(1))
    }

    // Expressions

    fn expr(&mut self) -> Expr {
        if self.depth == 0 {
            return if self.flavour == Flavour::Folds {
                self.operand()
            } else {
                self.leaf()
            };
        }
        self.depth -= 1;
        let e = match self.flavour {
            Flavour::Folds => self.sum(),
            Flavour::Constants => self.constant(),
            Flavour::Calls | Flavour::Uses => self.call_like(),
            _ if self.rng.one_in(3) => self.call_like(),
            _ => self.plain(),
        };
        self.depth += 1;
        e
    }

    fn boxed(&mut self) -> Box<Expr> {
        Box::new(self.expr())
    }

    fn leaf(&mut self) -> Expr {
        if self.coin() {
            Expr::Variable(self.name())
        } else {
            Expr::Literal(self.literal())
        }
    }

    fn plain(&mut self) -> Expr {
        match self.rng.below(14) {
            0..7 => self.leaf(),
            7 => self.unary(),
            8 => self.binary(),
            9 => Expr::Paren(self.boxed()),
            10 => self.field(),
            11 => self.element(),
            _ => self.call(),
        }
    }

    /// A number, or a constant that may be there by now.
    fn operand(&mut self) -> Expr {
        if self.rng.one_in(4) {
            return Expr::Variable(self.name());
        }
        match self.literal() {
            Literal::String(_) if !self.rng.one_in(4) => Expr::Literal(Literal::Integer(2)),
            l => Expr::Literal(l),
        }
    }

    /// Arithmetic on numbers.
    fn sum(&mut self) -> Expr {
        match self.rng.below(12) {
            0..5 => self.operand(),
            5 => Expr::Unary {
                op: UnaryOp::Neg,
                operand: self.boxed(),
            },
            6 => self.unary(),
            7 => Expr::Paren(self.boxed()),
            8 => self.binary(),
            _ => {
                use BinaryOp::*;
                Expr::Binary {
                    op: *self.rng.pick(&[Add, Sub, Mul, Div, IntDiv, Mod]),
                    left: Box::new(self.operand()),
                    right: Box::new(self.operand()),
                }
            }
        }
    }

    /// What folds, or nearly.
    fn constant(&mut self) -> Expr {
        match self.rng.below(20) {
            0..6 => Expr::Literal(self.literal()),
            6..9 => Expr::Variable(self.name()),
            9..12 => self.unary(),
            12..18 => self.binary(),
            18 => Expr::Paren(self.boxed()),
            _ => self.plain(),
        }
    }

    fn call_like(&mut self) -> Expr {
        match self.rng.below(12) {
            0..2 => self.leaf(),
            2..6 => self.call(),
            6..8 => self.element(),
            8..11 => Expr::Paren(self.boxed()),
            _ => self.plain(),
        }
    }

    fn unary(&mut self) -> Expr {
        let op = if self.rng.one_in(4) {
            UnaryOp::Not
        } else {
            UnaryOp::Neg
        };
        Expr::Unary {
            op,
            operand: self.boxed(),
        }
    }

    fn operator(&mut self) -> BinaryOp {
        use BinaryOp::*;
        if self.rng.one_in(6) {
            return *self
                .rng
                .pick(&[Pow, Eq, Ne, Lt, Gt, Le, Ge, And, Or, Xor, Eqv, Imp]);
        }
        *self.rng.pick(&[Add, Sub, Mul, Div, IntDiv, Mod])
    }

    fn binary(&mut self) -> Expr {
        Expr::Binary {
            op: self.operator(),
            left: self.boxed(),
            right: self.boxed(),
        }
    }

    fn args(&mut self) -> Vec<Expr> {
        self.some(3, Self::expr)
    }

    fn call(&mut self) -> Expr {
        Expr::FnCall {
            name: self.called(),
            args: self.args(),
        }
    }

    fn element(&mut self) -> Expr {
        Expr::ArrayAccess {
            name: self.called(),
            indices: self.args(),
        }
    }

    fn field(&mut self) -> Expr {
        Expr::Field {
            base: self.boxed(),
            field: self.name(),
        }
    }

    fn lvalue(&mut self) -> LValue {
        LValue {
            name: self.called(),
            indices: self.maybe(Self::args),
            fields: if self.rng.one_in(4) {
                self.some(2, Self::name)
            } else {
                vec![]
            },
        }
    }

    // Declarations

    fn declarator(&mut self) -> Declarator {
        let dimensions = if self.rng.one_in(3) {
            None
        } else {
            Some(self.some(3, Self::expr))
        };
        let dims = dimensions.as_ref().map_or(0, Vec::len);
        let lowers = match self.rng.below(8) {
            0 => self.some(3, |m| m.maybe(Self::expr)),
            1..3 => (0..dims).map(|_| self.maybe(Self::expr)).collect(),
            _ => vec![],
        };
        Declarator {
            name: self.name(),
            dimensions,
            lowers,
            ty: self.maybe(Self::type_ref),
        }
    }

    fn param(&mut self) -> Param {
        Param {
            name: self.name(),
            byval: self.rng.one_in(3),
            array: self.rng.one_in(3),
            ty: self.maybe(Self::type_ref),
        }
    }

    fn scope_item(&mut self) -> ScopeItem {
        ScopeItem {
            name: self.name(),
            array: self.coin(),
            ty: self.maybe(Self::type_ref),
        }
    }

    fn field_decl(&mut self) -> FieldDecl {
        FieldDecl {
            name: self.name(),
            ty: self.type_ref(),
        }
    }

    fn body(&mut self) -> Vec<Stmt> {
        if self.depth == 0 || self.left == 0 {
            return vec![];
        }
        self.depth -= 1;
        let count = self.rng.within(0, 5).min(self.left);
        let body = (0..count).map(|_| self.stmt()).collect();
        self.depth += 1;
        body
    }

    fn procedure(&mut self) -> StmtKind {
        let name = self.name();
        let params = self.some(4, Self::param);
        let outer = std::mem::replace(&mut self.in_procedure, true);
        let called = self.called.len();
        if self.flavour == Flavour::Uses {
            // The body subscripts the array parameters, in many ranks and places.
            let arrays = params.iter().filter(|p| p.array);
            self.called.extend(arrays.map(|p| p.name.clone()));
        }
        let body = self.body();
        self.called.truncate(called);
        self.in_procedure = outer;
        let is_static = self.rng.one_in(4);
        if self.coin() {
            return StmtKind::Sub {
                name,
                params,
                body,
                is_static,
            };
        }
        StmtKind::Function {
            name,
            params,
            ret_ty: self.maybe(Self::type_ref),
            body,
            is_static,
            def_fn: self.rng.one_in(3),
        }
    }

    fn stmt(&mut self) -> Stmt {
        self.left = self.left.saturating_sub(1);
        let kind = if self.flavour != Flavour::Folds && self.rng.one_in(3) {
            let any = self.rng.below(54);
            self.kind(any)
        } else {
            self.favoured()
        };
        Stmt {
            line: self.line(),
            kind,
        }
    }

    /// A statement that the flavour is about.
    fn favoured(&mut self) -> StmtKind {
        if self.in_procedure && self.rng.one_in(5) {
            let scoped = *self.rng.pick(&[17, 18, 15]);
            return self.kind(scoped);
        }
        let kinds: &[usize] = match self.flavour {
            Flavour::Mixed => &[0, 1, 15, 17, 18, 19, 20, 21, 22, 25, 28, 29, 2, 6, 44],
            Flavour::Constants => &[25, 25, 25, 25, 28, 21],
            Flavour::Folds => &[25],
            Flavour::Types => &[29, 29, 29, 15, 20, 21, 18],
            Flavour::Arrays => &[15, 15, 15, 19, 19, 28, 20, 21, 29, 2],
            Flavour::Procedures => &[20, 21, 20, 21, 15, 22, 29, 17, 18],
            Flavour::Calls => &[22, 22, 2, 3, 15, 20, 21, 6, 7, 44],
            Flavour::Uses if !self.in_procedure => &[20, 21],
            Flavour::Uses => &[2, 4, 5, 32, 24, 24, 3, 3, 44, 23, 51, 50, 20],
        };
        let kind = *self.rng.pick(kinds);
        self.kind(kind)
    }

    /// The statement at a position of `StmtKind`.
    fn kind(&mut self, position: usize) -> StmtKind {
        match position {
            0 => StmtKind::Label(self.number()),
            1 => StmtKind::LabelName(self.name()),
            2 => StmtKind::Let {
                name: self.called(),
                indices: self.maybe(Self::args),
                value: self.expr(),
            },
            3 => StmtKind::Print {
                file_num: self.maybe(Self::expr),
                items: self.some(3, |m| match m.rng.below(4) {
                    0 => PrintItem::Tab,
                    1 => PrintItem::Empty,
                    _ => PrintItem::Expr(m.expr()),
                }),
                newline: self.coin(),
                using: self.maybe(Self::expr),
                write: self.coin(),
            },
            4 => StmtKind::Input {
                prompt: self.maybe(Self::text),
                query: self.coin(),
                vars: self.some(3, Self::lvalue),
                file_num: self.maybe(Self::expr),
            },
            5 => StmtKind::LineInput {
                prompt: self.maybe(Self::text),
                var: self.lvalue(),
                file_num: self.maybe(Self::expr),
            },
            _ => self.flow_kind(position),
        }
    }

    /// Positions 6 to 14: blocks and jumps.
    fn flow_kind(&mut self, position: usize) -> StmtKind {
        match position {
            6 => StmtKind::If {
                condition: self.expr(),
                then_branch: self.body(),
                else_branch: self.maybe(Self::body),
            },
            7 => StmtKind::For {
                var: self.name(),
                start: self.expr(),
                end: self.expr(),
                step: self.maybe(Self::expr),
                body: self.body(),
            },
            8 => StmtKind::While {
                condition: self.expr(),
                body: self.body(),
            },
            9 => StmtKind::DoLoop {
                condition: self.maybe(Self::expr),
                cond_at_start: self.coin(),
                is_until: self.coin(),
                body: self.body(),
            },
            10 => StmtKind::Goto(self.target()),
            11 => StmtKind::Gosub(self.target()),
            12 => StmtKind::Return(self.maybe(Self::target)),
            13 => StmtKind::OnGoto {
                expr: self.expr(),
                targets: self.some(3, Self::target),
            },
            14 => StmtKind::OnGosub {
                expr: self.expr(),
                targets: self.some(3, Self::target),
            },
            _ => self.declared_kind(position),
        }
    }

    /// Positions 15 to 22: declarations, procedures and calls.
    fn declared_kind(&mut self, position: usize) -> StmtKind {
        match position {
            15 => StmtKind::Dim {
                decls: self.some(3, Self::declarator),
                shared: self.rng.one_in(3),
            },
            16 => StmtKind::Declare {
                name: self.name(),
                is_function: self.coin(),
                params: self.some(3, Self::param),
                ret_ty: self.maybe(Self::type_ref),
            },
            17 => StmtKind::Shared(self.some(3, Self::scope_item)),
            18 => StmtKind::Static(self.some(3, Self::scope_item)),
            19 => StmtKind::Redim {
                decls: self.some(3, Self::declarator),
                preserve: self.coin(),
            },
            20 | 21 => self.procedure(),
            22 => StmtKind::Call {
                name: self.called(),
                args: self.some(4, Self::expr),
            },
            _ => self.value_kind(position),
        }
    }

    /// Positions 23 to 30: other assignments, constants, exits and types.
    fn value_kind(&mut self, position: usize) -> StmtKind {
        match position {
            23 => StmtKind::MidAssign {
                target: self.lvalue(),
                start: self.expr(),
                len: self.maybe(Self::expr),
                value: self.expr(),
            },
            24 => StmtKind::Swap(self.lvalue(), self.lvalue()),
            25 => StmtKind::Const {
                name: self.name(),
                value: self.expr(),
            },
            26 => StmtKind::ExitLoop {
                is_for: self.coin(),
            },
            27 => StmtKind::ExitProc,
            28 => StmtKind::OptionBase(match self.rng.below(4) {
                0 => i64::from(self.number()),
                n => n as i64 % 2,
            }),
            29 => StmtKind::TypeDef {
                name: self.name(),
                fields: self.some(5, Self::field_decl),
            },
            30 => StmtKind::FieldAssign {
                target: self.lvalue(),
                value: self.expr(),
            },
            _ => self.data_kind(position),
        }
    }

    /// Positions 31 to 38: data, default types and errors.
    fn data_kind(&mut self, position: usize) -> StmtKind {
        match position {
            31 => StmtKind::Data(self.some(3, |m| DataItem {
                text: m.text(),
                quoted: m.coin(),
            })),
            32 => StmtKind::Read(self.some(3, Self::lvalue)),
            33 => StmtKind::DefType {
                ty: *self.rng.pick(&[
                    DataType::Integer,
                    DataType::Long,
                    DataType::Single,
                    DataType::Double,
                    DataType::String,
                ]),
                ranges: self.some(2, |m| {
                    let mut letter = || char::from(b'A' + m.rng.below(26) as u8);
                    (letter(), letter())
                }),
            },
            34 => StmtKind::Beep,
            35 => StmtKind::Erase(self.some(3, Self::name)),
            36 => StmtKind::RaiseError(self.expr()),
            37 => StmtKind::OnError(self.maybe(Self::target)),
            38 => StmtKind::Resume(match self.rng.below(3) {
                0 => ResumeTarget::Same,
                1 => ResumeTarget::Next,
                _ => ResumeTarget::At(self.target()),
            }),
            _ => self.screen_kind(position),
        }
    }

    /// Positions 39 to 46: the screen, SELECT CASE and ends.
    fn screen_kind(&mut self, position: usize) -> StmtKind {
        match position {
            39 => StmtKind::Locate {
                row: self.maybe(Self::expr),
                col: self.maybe(Self::expr),
            },
            40 => StmtKind::Color {
                fg: self.maybe(Self::expr),
                bg: self.maybe(Self::expr),
            },
            41 => StmtKind::Randomize(self.maybe(Self::expr)),
            42 => StmtKind::Restore(self.maybe(Self::target)),
            43 => StmtKind::Cls,
            44 => StmtKind::SelectCase {
                expr: self.expr(),
                cases: self.some(3, |m| (m.maybe(|m| m.some(3, Self::clause)), m.body())),
            },
            45 => StmtKind::End,
            46 => StmtKind::Stop,
            _ => self.file_kind(position),
        }
    }

    /// Positions 47 to 49: files.
    fn file_kind(&mut self, position: usize) -> StmtKind {
        match position {
            47 => StmtKind::Open {
                filename: self.expr(),
                mode: *self.rng.pick(&[
                    FileMode::Input,
                    FileMode::Output,
                    FileMode::Append,
                    FileMode::Random,
                ]),
                file_num: self.expr(),
                reclen: self.maybe(Self::expr),
            },
            48 => StmtKind::Close(self.some(3, Self::expr)),
            49 => StmtKind::Width {
                file_num: self.maybe(Self::expr),
                width: self.expr(),
            },
            _ => self.record_kind(position),
        }
    }

    /// Positions from 50: fields and records of files.
    fn record_kind(&mut self, position: usize) -> StmtKind {
        match position {
            50 => StmtKind::Field {
                file_num: self.expr(),
                fields: self.some(3, |m| FieldSlice {
                    width: m.expr(),
                    target: m.lvalue(),
                }),
            },
            51 => StmtKind::SetField {
                target: self.lvalue(),
                value: self.expr(),
                right: self.coin(),
            },
            52 => StmtKind::GetPut {
                file_num: self.expr(),
                record: self.maybe(Self::expr),
                is_put: self.coin(),
            },
            _ => StmtKind::Lock {
                file_num: self.expr(),
                range: self.maybe(|m| (m.expr(), m.maybe(Self::expr))),
                is_unlock: self.coin(),
            },
        }
    }

    fn clause(&mut self) -> CaseClause {
        match self.rng.below(3) {
            0 => CaseClause::Value(self.expr()),
            1 => CaseClause::Range(self.expr(), self.expr()),
            _ => CaseClause::Compare(self.operator(), self.expr()),
        }
    }
}

trait Finite {
    fn finite(self) -> Self;
}

impl Finite for Literal {
    /// Narrowing may have left the finite numbers.
    fn finite(self) -> Literal {
        match self {
            Literal::Single(f) if !f.is_finite() => Literal::Single(f64::from(f32::MAX)),
            l => l,
        }
    }
}
