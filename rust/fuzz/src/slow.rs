//! A search for programs on which the proved side is slow against the original. A shape of a program is changed at random, and a change stays where the ratio of the
//! times falls: programs at random are seldom slow, those that were driven there are.

use crate::bench::{Side, sides, time};
use crate::rng::Rng;
use image::ast::*;
use std::time::{Duration, Instant};

/// Statements of one kind, one after another.
#[derive(Debug, Clone)]
struct Block {
    kind: usize,
    count: usize,
    /// How many members the lists of a statement have.
    size: usize,
    /// How many names there are, and in which order they come.
    names: usize,
    order: usize,
    /// Which of its forms a member has.
    form: usize,
    /// How many statements a body has.
    inside: usize,
    line: usize,
}

/// Blocks, some of them in the first body of the block before; and names that no statement has.
#[derive(Debug, Clone)]
struct Shape {
    blocks: Vec<Block>,
    nested: usize,
    erased: usize,
    strings: usize,
}

/// How many kinds of blocks there are.
const KINDS: usize = 40;

impl Block {
    fn new(rng: &mut Rng) -> Block {
        Block {
            kind: rng.below(KINDS),
            count: 1 << rng.below(11),
            size: *rng.pick(&[0, 1, 2, 3, 8, 30, 200, 1_000]),
            names: *rng.pick(&[1, 2, 30, 64, 500, 1_000]),
            order: rng.below(5),
            form: rng.below(64),
            inside: *rng.pick(&[0, 0, 0, 1, 2, 5]),
            line: rng.below(3),
        }
    }

    /// The same with another value in one place.
    fn change(&mut self, rng: &mut Rng) {
        let other = Block::new(rng);
        let scale = |n: usize, rng: &mut Rng| n * rng.within(30, 130) / 60;
        match rng.below(10) {
            0 => self.kind = other.kind,
            1 => self.count = other.count,
            2 => self.size = other.size,
            3 => self.names = other.names,
            4 => self.order = other.order,
            5 => self.form = other.form,
            6 => self.inside = other.inside,
            7 => self.line = other.line,
            8 => self.count = 1 + scale(self.count, rng),
            _ => self.size = scale(self.size, rng),
        }
    }

    fn number(&self, i: usize) -> usize {
        match self.order {
            0 => i % self.names,
            1 => self.names - 1 - i % self.names,
            2 => i * 1_031 % 8_192 % self.names,
            3 => 0,
            _ => self.names - 1,
        }
    }

    fn name(&self, i: usize) -> String {
        let suffix = ["", "%", "$", ""][self.form / 8 % 4];
        format!("A{:04}{suffix}", self.number(i))
    }

    fn value(&self, i: usize) -> Expr {
        let name = self.name(i);
        let call = |args| Expr::FnCall {
            name: self.name(i),
            args,
        };
        match self.form % 8 {
            0 => one(),
            1 => Expr::Variable(name),
            2 => call(vec![one()]),
            3 => call(vec![Expr::Variable(self.name(i + 1)); 3]),
            4 => Expr::Paren(Box::new(Expr::Variable(name))),
            5 => plus(Expr::Variable(name)),
            6 => Expr::Literal(Literal::Float(1.5)),
            _ => call(vec![]),
        }
    }

    fn target(&self, i: usize) -> LValue {
        let indices = || vec![one(); self.form % 3];
        LValue {
            name: self.name(i),
            indices: (self.form & 1 != 0).then(indices),
            fields: vec!["F".into(); self.form / 2 % 2],
        }
    }

    fn ty(&self, i: usize) -> Option<TypeRef> {
        match self.form % 5 {
            0 => None,
            1 => Some(TypeRef::Integer),
            2 => Some(TypeRef::FixedString(5)),
            3 => Some(TypeRef::Record(self.name(i))),
            _ => Some(TypeRef::Double),
        }
    }

    fn param(&self, i: usize) -> Param {
        Param {
            name: self.name(i),
            byval: self.form & 4 != 0,
            array: self.form & 2 != 0,
            ty: self.ty(i),
        }
    }

    fn declarator(&self, i: usize) -> Declarator {
        let rank = (self.form & 1) * (1 + self.form % 3);
        Declarator {
            name: self.name(i),
            dimensions: (rank != 0).then(|| vec![one(); rank]),
            lowers: vec![None; rank],
            ty: self.ty(i),
        }
    }

    fn item(&self, i: usize) -> ScopeItem {
        ScopeItem {
            name: self.name(i),
            array: self.form & 2 != 0,
            ty: self.ty(i),
        }
    }

    fn goto(&self, i: usize) -> GotoTarget {
        if self.form & 1 == 0 {
            GotoTarget::Line(self.number(i) as u32)
        } else {
            GotoTarget::Label(self.name(i))
        }
    }

    fn field(&self, i: usize) -> FieldDecl {
        FieldDecl {
            name: format!("A{i:04}"),
            ty: self.ty(i).unwrap_or(TypeRef::Integer),
        }
    }

    /// So many members, of the i-th statement.
    fn list<T>(&self, i: usize, member: impl Fn(&Block, usize) -> T) -> Vec<T> {
        let first = i * self.size;
        (first..first + self.size)
            .map(|j| member(self, j))
            .collect()
    }

    /// A statement without lists and bodies.
    fn plain(&self, i: usize) -> StmtKind {
        match self.kind {
            0 => StmtKind::Cls,
            1 => StmtKind::Label(self.number(i) as u32),
            2 => StmtKind::LabelName(self.name(i)),
            3 => StmtKind::Swap(self.target(i), self.target(i + 1)),
            4 => StmtKind::Goto(self.goto(i)),
            5 => StmtKind::OptionBase((self.form & 1) as i64),
            6 => StmtKind::Beep,
            7 => StmtKind::Restore(None),
            8 => StmtKind::Return(None),
            9 => StmtKind::LineInput {
                prompt: None,
                var: self.target(i),
                file_num: None,
            },
            _ => StmtKind::FieldAssign {
                target: self.target(i),
                value: self.value(i),
            },
        }
    }

    /// The items of a PRINT: the values, empty ones, or one in as many parentheses.
    fn items(&self, i: usize, values: Vec<Expr>) -> Vec<PrintItem> {
        match self.kind {
            11 => values.into_iter().map(PrintItem::Expr).collect(),
            12 => vec![PrintItem::Empty; self.size],
            _ => vec![PrintItem::Expr(
                values.iter().fold(self.value(i), |e, _| paren(e)),
            )],
        }
    }

    /// A statement with a list of values or targets.
    fn listed(&self, i: usize) -> StmtKind {
        let values = self.list(i, Block::value);
        match self.kind {
            11..=13 => printed(self.items(i, values)),
            14 => StmtKind::Let {
                name: self.name(i),
                indices: Some(values),
                value: self.value(i),
            },
            15 => StmtKind::Let {
                name: self.name(i),
                indices: None,
                value: Expr::FnCall {
                    name: self.name(i + 1),
                    args: values,
                },
            },
            16 => StmtKind::Read(self.list(i, Block::target)),
            17 => StmtKind::Input {
                prompt: None,
                query: false,
                vars: self.list(i, Block::target),
                file_num: None,
            },
            18 => StmtKind::OnGoto {
                expr: self.value(i),
                targets: self.list(i, Block::goto),
            },
            19 => StmtKind::Call {
                name: self.name(i),
                args: values,
            },
            20 => StmtKind::Const {
                name: self.name(i),
                value: values.iter().fold(self.value(i), |e, _| plus(e)),
            },
            _ => StmtKind::Close(values),
        }
    }

    /// A statement that declares, or has a list of names, letters or words.
    fn declaring(&self, i: usize) -> StmtKind {
        let fields = || self.list(0, Block::field);
        let kept = |some: bool| if some { fields() } else { vec![] };
        match self.kind {
            22 => StmtKind::Dim {
                decls: self.list(i, Block::declarator),
                shared: self.form & 4 != 0,
            },
            23 => StmtKind::Redim {
                decls: self.list(i, Block::declarator),
                preserve: false,
            },
            24 => StmtKind::Shared(self.list(i, Block::item)),
            25 => StmtKind::Static(self.list(i, Block::item)),
            26 => StmtKind::Declare {
                name: self.name(i),
                is_function: self.form & 1 != 0,
                params: self.list(i, Block::param),
                ret_ty: None,
            },
            27 => StmtKind::TypeDef {
                name: self.name(i),
                fields: fields(),
            },
            28 => StmtKind::TypeDef {
                name: self.name(i),
                fields: kept(i % 2 == 0),
            },
            29 => StmtKind::Data(self.list(i, |_, _| DataItem {
                text: "1".into(),
                quoted: false,
            })),
            30 => StmtKind::DefType {
                ty: DataType::Integer,
                ranges: vec![('A', 'Z'); self.size],
            },
            _ => StmtKind::Erase(self.list(i, Block::name)),
        }
    }

    /// A statement with a body.
    fn around(&self, i: usize, body: Vec<Stmt>) -> StmtKind {
        let clause = |_: &Block, _| (Some(vec![CaseClause::Value(one())]), vec![]);
        match self.kind {
            32 => StmtKind::If {
                condition: self.value(i),
                then_branch: body,
                else_branch: None,
            },
            33 => StmtKind::For {
                var: self.name(i),
                start: self.value(i),
                end: self.value(i),
                step: None,
                body,
            },
            34 => StmtKind::While {
                condition: self.value(i),
                body,
            },
            35 => StmtKind::SelectCase {
                expr: self.value(i),
                cases: [(None, body)]
                    .into_iter()
                    .chain(self.list(i, clause))
                    .collect(),
            },
            _ => self.procedure(i, body),
        }
    }

    /// A SUB or a FUNCTION.
    fn procedure(&self, i: usize, body: Vec<Stmt>) -> StmtKind {
        let is_static = self.form & 16 != 0;
        match self.kind {
            36 | 37 => StmtKind::Sub {
                name: self.name(i),
                params: self.list(i, Block::param),
                body,
                is_static,
            },
            _ => StmtKind::Function {
                name: self.name(i),
                params: self.list(i, Block::param),
                ret_ty: self.ty(i),
                body,
                is_static,
                def_fn: self.form & 32 != 0,
            },
        }
    }

    /// Its statements; `inner` stands in the first body.
    fn statements(&self, inner: &[Stmt]) -> Vec<Stmt> {
        let line = |i: usize| [1, i, 16_000_000 + i][self.line] as u32;
        let cls = |i| Stmt {
            line: line(i),
            kind: StmtKind::Cls,
        };
        let body = |i: usize| {
            let given = if i == 0 { inner } else { &[] };
            let own = vec![cls(i); self.inside];
            own.into_iter().chain(given.iter().cloned()).collect()
        };
        let kind = |i| match self.kind {
            0..=10 => self.plain(i),
            11..=21 => self.listed(i),
            22..=31 => self.declaring(i),
            _ => self.around(i, body(i)),
        };
        let stmt = |i| Stmt {
            line: line(i),
            kind: kind(i),
        };
        (0..self.count).map(stmt).collect()
    }
}

fn one() -> Expr {
    Expr::Literal(Literal::Integer(1))
}

fn plus(e: Expr) -> Expr {
    Expr::Binary {
        op: BinaryOp::Add,
        left: Box::new(e),
        right: Box::new(one()),
    }
}

fn paren(e: Expr) -> Expr {
    Expr::Paren(Box::new(e))
}

fn printed(items: Vec<PrintItem>) -> StmtKind {
    StmtKind::Print {
        file_num: None,
        items,
        newline: true,
        using: None,
        write: false,
    }
}

impl Shape {
    fn new(rng: &mut Rng) -> Shape {
        Shape {
            blocks: (0..rng.within(1, 2)).map(|_| Block::new(rng)).collect(),
            nested: 0,
            erased: 0,
            strings: 0,
        }
    }

    /// The same with one to three changes.
    fn changed(&self, rng: &mut Rng) -> Shape {
        let mut shape = self.clone();
        for _ in 0..rng.within(1, 3) {
            let n = shape.blocks.len();
            match rng.below(12) {
                0 if n < 4 => shape.blocks.push(Block::new(rng)),
                1 if n > 1 => drop(shape.blocks.remove(rng.below(n))),
                2 => shape.erased = *rng.pick(&[0, 1, 64, 65, 500, 1_000]),
                3 => shape.strings = *rng.pick(&[0, 1, 33, 65, 500, 1_000]),
                4 => shape.nested = rng.below(16),
                5 => shape.blocks.swap(rng.below(n), rng.below(n)),
                _ => shape.blocks[rng.below(n)].change(rng),
            }
        }
        shape
    }

    fn program(&self) -> Vec<Stmt> {
        let mut inner = Vec::new();
        let mut after = Vec::new();
        for (i, block) in self.blocks.iter().enumerate().rev() {
            let mut made = block.statements(&inner);
            if i > 0 && self.nested >> i & 1 == 1 {
                inner = made;
            } else {
                made.append(&mut after);
                after = made;
                inner.clear();
            }
        }
        after
    }

    /// How many statements and members it has, more or less.
    fn size(&self) -> usize {
        let block = |b: &Block| b.count * (1 + b.size + b.inside);
        self.blocks.iter().map(block).sum()
    }

    /// Its image, where neither it nor its answer is refused.
    fn image(&self, sides: &[Side], out: &mut [u8]) -> Option<Vec<u8>> {
        if self.size() > 20_000 {
            return None;
        }
        let names = |n: usize| (0..n).map(|i| format!("A{i:04}")).collect::<Vec<String>>();
        let raw = image::build(&self.program(), &names(self.erased), &names(self.strings));
        let file = raw.to_bytes();
        let made = (sides[1].run)(&file, out);
        let refused = made.listing(out).starts_with(b"E ");
        (!refused).then_some(file)
    }
}

/// A shape, how many times as fast as the original the other side is on it, and the times of both.
struct Found {
    ratio: f64,
    times: [Duration; 2],
    shape: Shape,
}

fn timed(sides: &[Side], shape: Shape, file: &[u8], out: &mut [u8], runs: usize) -> Found {
    let times = [0, 1].map(|i| time(&sides[i], file, out, runs));
    Found {
        ratio: times[0].div_duration_f64(times[1]),
        times,
        shape,
    }
}

/// How many changes in a row may do nothing.
const PATIENCE: usize = 60;

/// A shape from which no change leads to a slower one, or one near it when the time is up. An original that takes too long is far behind, so that it isn't timed.
fn climb(sides: &[Side], rng: &mut Rng, out: &mut [u8], end: Instant) -> Option<Found> {
    let mut best: Option<Found> = None;
    let mut vain = 0;
    while vain < PATIENCE && Instant::now() < end {
        vain += 1;
        let shape = match &best {
            None => Shape::new(rng),
            Some(found) => found.shape.changed(rng),
        };
        let Some(file) = shape.image(sides, out) else {
            continue;
        };
        let start = Instant::now();
        drop((sides[0].run)(&file, out));
        if start.elapsed() > Duration::from_millis(40) {
            continue;
        }
        let worse = |found: &Found| best.as_ref().is_none_or(|b| found.ratio < 0.98 * b.ratio);
        let quick = timed(sides, shape, &file, out, 9);
        if !worse(&quick) {
            continue;
        }
        let sure = timed(sides, quick.shape, &file, out, 41);
        if worse(&sure) {
            best = Some(sure);
            vain = 0;
        }
    }
    best
}

/// Searches for so long, and prints the shapes on which the other side is slowest against the original, timed once more.
pub fn search(seconds: u64, seed: u64) {
    let sides = sides();
    let mut rng = Rng::new(seed);
    let mut out = vec![0; analyser::ENOUGH];
    let end = Instant::now() + Duration::from_secs(seconds);
    let mut all = Vec::new();
    while Instant::now() < end {
        all.extend(climb(&sides, &mut rng, &mut out, end));
    }
    let slowest_first = |a: &Found, b: &Found| a.ratio.total_cmp(&b.ratio);
    all.sort_by(slowest_first);
    all.truncate(30);
    let again = |found: Found| {
        let file = found.shape.image(&sides, &mut out)?;
        Some(timed(&sides, found.shape, &file, &mut out, 201))
    };
    let mut all: Vec<Found> = all.into_iter().filter_map(again).collect();
    all.sort_by(slowest_first);
    for found in all {
        println!("{:.2} {:?} {:?}", found.ratio, found.times, found.shape);
    }
}
