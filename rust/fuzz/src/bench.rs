//! How long one image takes, side by side on the same images in one run.
//!
//! A side is a function from an image to its listing. The two are here; another joins by an entry in [`sides`]. What is timed are
//! the calls alone: the listings are compared afterwards, and what a side has allocated for its answers is freed after the clock stopped.

use crate::{limit, program, rng::Rng};
use image::ast::*;
use image::raw::Raw;
use std::hint::black_box;
use std::time::{Duration, Instant};

/// Images of one sort, to be timed.
pub struct Set {
    pub name: String,
    pub files: Vec<Vec<u8>>,
    /// Whether its images count in the line over all.
    pub counts: bool,
}

/// Where a side leaves a listing: at the start of the buffer that it was lent, or in bytes of its own.
pub enum Made {
    Lent(usize),
    Own(Vec<u8>),
}

impl Made {
    pub fn listing<'a>(&'a self, lent: &'a [u8]) -> &'a [u8] {
        match self {
            Made::Lent(length) => &lent[..*length],
            Made::Own(bytes) => bytes,
        }
    }
}

/// The parts of a side's work, by name, and their times.
type Parts = [(&'static str, Duration); 3];

/// One way to make a listing.
pub struct Side {
    pub name: &'static str,
    pub run: fn(&[u8], &mut [u8]) -> Made,
    /// A run with a clock between its parts, where it has some.
    pub parts: Option<fn(&[u8]) -> Parts>,
}

/// Every side there is in this build.
pub fn sides() -> Vec<Side> {
    vec![
        #[cfg(original)]
        Side {
            name: "original",
            run: |file, _| Made::Own(original(file, |_| ())),
            parts: Some(parts_of_original),
        },
        #[cfg(analyser)]
        Side {
            name: "proved",
            run: |file, out| Made::Lent(analyser::listing(file, out).expect("a listing fits")),
            parts: None,
        },
    ]
}

/// The original's listing; `then` is called after decoding, after the passes and after the text.
#[cfg(original)]
fn original(file: &[u8], mut then: impl FnMut(&'static str)) -> Vec<u8> {
    let read = Raw::from_bytes(file);
    let input = read.as_ref().map_err(|r| *r).and_then(oracle::input);
    then("decode");
    let answer = input.map(oracle::whole);
    then("passes");
    let text = oracle::text(&answer).into_bytes();
    then("text");
    text
}

#[cfg(original)]
fn parts_of_original(file: &[u8]) -> Parts {
    let mut parts = [("", Duration::ZERO); 3];
    let mut done = 0;
    let mut start = Instant::now();
    black_box(original(black_box(file), |name| {
        parts[done] = (name, start.elapsed());
        done += 1;
        start = Instant::now();
    }));
    parts
}

fn middle<T: Copy>(mut all: Vec<T>, order: impl FnMut(&T, &T) -> std::cmp::Ordering) -> T {
    all.sort_unstable_by(order);
    all[all.len() / 2]
}

/// A sample takes about this long at least, so that reading the clock doesn't count.
const SAMPLE: Duration = Duration::from_micros(20);

/// The median time of a side's call on an image, each sample being the mean of a few calls.
pub fn time(side: &Side, file: &[u8], out: &mut [u8], runs: usize) -> Duration {
    let mut sample = |calls: u32| {
        let mut made = Vec::with_capacity(calls as usize);
        let start = Instant::now();
        for _ in 0..calls {
            made.push(black_box((side.run)(black_box(file), out)));
        }
        start.elapsed() / calls
    };
    let one = sample(8).max(Duration::from_nanos(1));
    let calls = SAMPLE.div_duration_f64(one).clamp(1.0, 100.0) as u32;
    middle((0..runs).map(|_| sample(calls)).collect(), Ord::cmp)
}

/// Whether two sides have different listings for an image.
fn differ(file: &[u8], out: &mut [u8]) -> bool {
    let mut listings = sides()
        .into_iter()
        .map(|s| (s.run)(file, out).listing(out).to_vec());
    let first = listings.next();
    listings.any(|l| Some(l) != first)
}

/// Time each side on each set and print a table: the median image and the slowest, each image by the median of its runs; and how
/// many times as fast as the first side that is, at the median image and at the worst. Below it the line over all.
pub fn report(sets: &[Set], runs: usize) {
    println!(
        "| set | images | side | median | slowest | times as fast: median, least | parts of the median |\n|---|---|---|---|---|---|---|"
    );
    let sides = sides();
    let mut out = vec![0; ENOUGH];
    let mut over_all = Vec::new();
    let mut different = 0;
    for set in sets {
        let (times, unequal) = measure(set, &sides, &mut out, runs);
        different += unequal;
        for (side, of_side) in sides.iter().zip(&times) {
            let ratios: Vec<f64> = times[0]
                .iter()
                .zip(of_side)
                .map(|(first, this)| first.div_duration_f64(*this))
                .collect();
            print_row(set, side, of_side, &ratios, runs);
            if set.counts && side.name != sides[0].name {
                over_all.extend(ratios);
            }
        }
    }
    if sides.len() < 2 {
        return;
    }
    if !over_all.is_empty() {
        print_over_all(sets, over_all);
    }
    match different {
        0 => println!("\nThe sides' listings are equal on every image."),
        n => println!(
            "\nOn {n} images the sides' listings are not equal, so that these times say nothing."
        ),
    }
}

/// Room for every listing.
const ENOUGH: usize = 1 << 20;

/// The times of each side on the images of a set, and on how many of these the listings differ.
fn measure(set: &Set, sides: &[Side], out: &mut [u8], runs: usize) -> (Vec<Vec<Duration>>, usize) {
    let mut different = 0;
    // Image by image, so that both sides meet the same state of the machine.
    let mut times = vec![Vec::new(); sides.len()];
    for file in &set.files {
        for (side, times) in sides.iter().zip(&mut times) {
            times.push(time(side, file, out, runs));
        }
        different += usize::from(differ(file, out));
    }
    (times, different)
}

/// The line over all: the sets that count, and the ratios on their images.
fn print_over_all(sets: &[Set], over_all: Vec<f64>) {
    let counted: Vec<&str> = sets.iter().filter(|s| s.counts).map(|s| &*s.name).collect();
    let n = over_all.len();
    let least = over_all.iter().copied().fold(f64::INFINITY, f64::min);
    let median = middle(over_all, f64::total_cmp);
    println!(
        "\nOver the {n} images of {}: {median:.2} times as fast at the median, {least:.2} at the worst.",
        counted.join(" and ")
    );
}

fn print_row(set: &Set, side: &Side, times: &[Duration], ratios: &[f64], runs: usize) {
    let mut order: Vec<usize> = (0..times.len()).collect();
    order.sort_unstable_by_key(|i| times[*i]);
    let typical = order[order.len() / 2];
    let slowest = times[order[order.len() - 1]];
    let least = ratios.iter().copied().fold(f64::INFINITY, f64::min);
    let ratio = middle(ratios.to_vec(), f64::total_cmp);
    println!(
        "| {} | {} | {} | {:.1?} | {slowest:.1?} | {ratio:.2}, {least:.2} | {} |",
        set.name,
        set.files.len(),
        side.name,
        times[typical],
        parts(side, &set.files[typical], runs)
    );
}

/// The median time of each part of a side's work on an image.
fn parts(side: &Side, file: &[u8], runs: usize) -> String {
    let Some(parted) = side.parts else {
        return String::new();
    };
    let all: Vec<Parts> = (0..runs).map(|_| parted(file)).collect();
    let named: Vec<String> = (0..3)
        .map(|p| {
            let (name, t) = middle(all.iter().map(|run| run[p]).collect(), |a, b| a.1.cmp(&b.1));
            format!("{name} {t:.1?}")
        })
        .collect();
    named.join(", ")
}

/// The sets of this benchmark: generated programs, the worst that each limit allows, and the same work in growing sizes.
pub fn sets() -> Vec<Set> {
    let counted = |name: &str, files: Vec<Vec<u8>>| Set {
        counts: true,
        ..set(name, files)
    };
    let mut sets = vec![
        counted("small programs", generated(program::small, 300)),
        counted("programs", generated(|r| program::any(r).0, 300)),
        set("depth 100", generated(limit::deep, 100)),
        set("long names", vec![names()]),
        set_of("array parameters over one body", parameters()),
    ];
    sets.extend(growing());
    for (name, count, program) in others() {
        let name = |order| format!("{name}, {order}");
        let rising: Vec<usize> = (0..count).collect();
        let falling: Vec<usize> = (0..count).rev().collect();
        sets.push(set_of(&name("rising"), program(&rising)));
        sets.push(set_of(&name("falling"), program(&falling)));
    }
    for (name, raw) in found().into_iter().chain(refused()) {
        sets.push(set(name, vec![raw.to_bytes()]));
    }
    sets
}

/// The images of the first seeds.
fn generated(pick: fn(&mut Rng) -> Raw, count: u64) -> Vec<Vec<u8>> {
    (0..count)
        .map(|s| pick(&mut Rng::new(s)).to_bytes())
        .collect()
}

/// A set that doesn't count in the line over all.
fn set(name: &str, files: Vec<Vec<u8>>) -> Set {
    Set {
        name: name.to_string(),
        files,
        counts: false,
    }
}

/// A set of one program.
fn set_of(name: &str, program: Vec<Stmt>) -> Set {
    set(name, vec![plain(program).to_bytes()])
}

/// The image of a program, with no names but its own.
fn plain(program: Vec<Stmt>) -> Raw {
    image::build(&program, &[], &[])
}

/// The same work in growing sizes.
fn growing() -> Vec<Set> {
    let mut sets = Vec::new();
    for words in [1_024, 2_048, 4_096, 8_192] {
        let name = format!("calls, {} words", grouped(words));
        sets.push(set_of(&name, calls(words)));
    }
    for rows in [64, 256, 1_024, 2_048] {
        let name = |order| format!("line numbers, {} rows {order}", grouped(rows));
        sets.push(set_of(&name("rising"), line_numbers(0..rows)));
        sets.push(set_of(&name("falling"), line_numbers((0..rows).rev())));
        // An odd factor: every place once, for a count that is a power of two.
        let mixed = (0..rows).map(|i| i * 1_031 % rows);
        sets.push(set_of(&name("mixed"), line_numbers(mixed)));
    }
    // No more arrays than 1,024 names and 8,192 words allow.
    for rows in [64, 256, 1_000] {
        let name = |order| format!("arrays, {} rows {order}", grouped(rows));
        sets.push(set_of(&name("rising"), arrays(0..rows)));
        sets.push(set_of(&name("falling"), arrays((0..rows).rev())));
    }
    sets
}

/// What makes the statements for the numbers that it is given, in their order.
type Program = fn(&[usize]) -> Vec<Stmt>;

/// Many rows of other kinds, and of two kinds in turn, whose keys lie apart: a name, how many, and their statements.
fn others() -> Vec<(&'static str, usize, Program)> {
    [numbered(), declared()].concat()
}

/// Those of SUBs and of line numbers.
fn numbered() -> Vec<(&'static str, usize, Program)> {
    vec![
        ("SUBs, 1,000", 1_000, |order| {
            order.iter().map(|n| at(1, sub(*n, vec![]))).collect()
        }),
        ("a line number in each of 1,000 SUBs", 1_000, |order| {
            let body = |n: &usize| vec![at(1, StmtKind::Label(*n as u32))];
            order.iter().map(|n| at(1, sub(*n, body(n)))).collect()
        }),
        ("1,000 line numbers and labels in turn", 1_000, |order| {
            in_turn(order, |n| StmtKind::LabelName(name_of(n)))
        }),
        ("1,000 line numbers and constants in turn", 1_000, |order| {
            in_turn(order, |n| StmtKind::Const {
                name: name_of(n),
                value: Expr::Literal(Literal::Integer(n as i64)),
            })
        }),
        (
            "2,000 line numbers and OPTION BASE in turn",
            2_000,
            |order| in_turn(order, |_| StmtKind::OptionBase(1)),
        ),
        ("1,300 line numbers, each twice", 1_300, |order| {
            in_turn(order, |n| StmtKind::Label(n as u32))
        }),
    ]
}

/// Those of DIM, SHARED and TYPE.
fn declared() -> Vec<(&'static str, usize, Program)> {
    vec![
        ("DIM SHARED, 1,000 names of two rows", 1_000, |order| {
            let decls = order.iter().map(|n| scalar(name_of(*n))).collect();
            let shared = true;
            vec![at(1, StmtKind::Dim { decls, shared })]
        }),
        ("SHARED, 1,000 names in each of two SUBs", 1_000, |order| {
            let all = || order.iter().copied().map(item).collect();
            let items = || vec![at(1, StmtKind::Shared(all()))];
            vec![at(1, sub(1_000, items())), at(2, sub(1_001, items()))]
        }),
        ("TYPEs, 480 of three fields", 480, |order| {
            order.iter().map(|n| at(1, record(*n, 3))).collect()
        }),
        ("TYPEs, 700 of one field, each twice", 700, |order| {
            let twice = order.iter().chain(order);
            twice.map(|n| at(1, record(*n, 1))).collect()
        }),
        ("TYPEs, 380 of two fields, each three times", 380, |order| {
            let thrice = order.iter().chain(order).chain(order);
            thrice.map(|n| at(1, record(*n, 2))).collect()
        }),
        (
            "TYPEs, 60 of two fields, each eleven times after 900 rows of SHARED",
            60,
            |order| {
                let types = (0..11).flat_map(|_| order).map(|n| at(2, record(*n, 2)));
                let items = (0..900).map(item).collect();
                let first = at(1, sub(1_000, vec![at(1, StmtKind::Shared(items))]));
                std::iter::once(first).chain(types).collect()
            },
        ),
    ]
}

/// What a search for slow shapes found, one for each reason.
fn found() -> Vec<(&'static str, Raw)> {
    [found_types(), found_bodies(), found_rows(), found_lists()].concat()
}

/// The image of one statement.
fn one(kind: StmtKind) -> Raw {
    plain(vec![at(1, kind)])
}

/// Those of one TYPE.
fn found_types() -> Vec<(&'static str, Raw)> {
    let unknowns = [at(1, type_of(0, vec![unknown(1); 2_000]))];
    vec![
        (
            "TYPE, 2,000 fields of one name and of no TYPE, after 40 line numbers",
            plain(line_numbers(0..40).into_iter().chain(unknowns).collect()),
        ),
        (
            "TYPE, 950 fields of no TYPE",
            one(type_of(0, (1..951).map(unknown).collect())),
        ),
        ("TYPE, 950 fields", one(record(0, 950))),
        (
            "TYPE of three fields and of none in turn, 520 times, 1,437 rows behind",
            plain(shrinking()),
        ),
    ]
}

/// Those of nested bodies, of procedures with rows of their own and of array parameters.
fn found_bodies() -> Vec<(&'static str, Raw)> {
    vec![
        (
            "SUBs, 97 one in the other, over 7,500 CLS",
            plain(nested(97, 7_500)),
        ),
        (
            "FUNCTIONs, 1,100 of 522 names, mixed, of three rows each",
            plain(functions()),
        ),
        (
            "1,000 array parameters of one name, a CALL of it after DEFINT of 1,800 ranges",
            one(sub_of(
                1,
                same_arrays(1_000),
                vec![at(1, letters(1_800)), at(1, call(0))],
            )),
        ),
        (
            "1,000 array parameters of one name, an element of it set to a call with 1,300 arguments",
            one(sub_of(
                1,
                same_arrays(1_000),
                vec![at(1, element(0, 1_300))],
            )),
        ),
        (
            "600 array parameters, all targets of one READ",
            one(sub_of(
                600,
                (0..600).map(array_param).collect(),
                vec![at(1, read(600))],
            )),
        ),
    ]
}

/// Those of rows that come again, mixed, or in a number just past a size.
fn found_rows() -> Vec<(&'static str, Raw)> {
    let names: Vec<String> = (0..1_000).map(name_of).collect();
    vec![
        (
            "one array, DIMmed 1,150 times, the last of 1,000 erased names",
            image::build(&again(999, 1_150), &names, &[]),
        ),
        (
            "274 line numbers, mixed",
            plain(line_numbers((0..274).map(mixed))),
        ),
        (
            "TYPEs of two fields and of none in turn, 1,017 of 1,000 names, mixed",
            plain(fields_in_turn()),
        ),
        (
            "SUBs, 877 of 500 names, mixed, of one parameter each",
            plain(subs_again()),
        ),
        ("18 OPTION BASE", plain(bases(18))),
        ("128 OPTION BASE", plain(bases(128))),
        (
            "730 OPTION BASE after 140 line numbers",
            plain(line_numbers(0..140).into_iter().chain(bases(730)).collect()),
        ),
    ]
}

/// Those of strings and of lists in a statement.
fn found_lists() -> Vec<(&'static str, Raw)> {
    vec![
        (
            "66 strings that nothing has",
            image::build(&[], &[], &(0..66).map(long_name).collect::<Vec<_>>()),
        ),
        ("ON GOTO of 2,300 line numbers", one(on_goto(2_300))),
        (
            "ON GOTO of 283 line numbers, four times",
            plain(vec![at(1, on_goto(283)); 4]),
        ),
        (
            "PRINT of 1,500 empty items, twice",
            plain(vec![at(1, print(1_500)); 2]),
        ),
    ]
}

/// A number below 1,000, spread over them all.
fn mixed(n: usize) -> usize {
    n * 1_031 % 8_192 % 1_000
}

/// TYPEs of two fixed strings and TYPEs without fields in turn, on lines of eight digits.
fn fields_in_turn() -> Vec<Stmt> {
    let field = |i| FieldDecl {
        name: name_of(i),
        ty: TypeRef::FixedString(5),
    };
    let fields = |n| (0..2 * ((n + 1) % 2)).map(field).collect();
    (0..1_017)
        .map(|n| at(16_000_000 + n, type_of(mixed(n), fields(n))))
        .collect()
}

/// SUBs of one parameter, about half of them defined before, on lines of eight digits.
fn subs_again() -> Vec<Stmt> {
    let param = |n| Param {
        name: name_of(n),
        byval: true,
        array: false,
        ty: Some(TypeRef::Integer),
    };
    (0..877)
        .map(|n| mixed(n) % 500)
        .map(|n| at(16_000_000 + n, sub_of(n, vec![param(n)], vec![])))
        .collect()
}

fn print(count: usize) -> StmtKind {
    StmtKind::Print {
        file_num: None,
        items: vec![PrintItem::Empty; count],
        newline: true,
        using: None,
        write: false,
    }
}

/// Refused programs, which the original's side decodes up to what is wrong: the smallest, those just past a size by which the proved side chooses its buffers,
/// and the largest.
fn refused() -> Vec<(&'static str, Raw)> {
    [refused_strings(), refused_words()].concat()
}

/// A program of so many words, strings and erased names.
fn sized(words: usize, strings: usize, erased: u32) -> Raw {
    let program: Vec<Stmt> = (1..words).map(|n| at(n, StmtKind::Cls)).collect();
    let names: Vec<String> = (0..strings).map(name_of).collect();
    let mut raw = image::build(&program, &[], &names);
    raw.erased = (0..erased).collect();
    raw
}

/// The same, its first string wrong.
fn bad_string(words: usize, strings: usize, erased: u32) -> Raw {
    let mut raw = sized(words, strings, erased);
    raw.bytes[0] = 127;
    raw
}

/// The same, its first word wrong.
fn bad_word(words: usize, strings: usize, erased: u32) -> Raw {
    let mut raw = sized(words, strings, erased);
    raw.tree[0] = 0;
    raw
}

/// The same, its first erased name wrong.
fn bad_name(words: usize, strings: usize, erased: u32) -> Raw {
    let mut raw = sized(words, strings, erased);
    raw.erased[0] = strings as u32;
    raw
}

/// Those of one word at most.
fn refused_strings() -> Vec<(&'static str, Raw)> {
    vec![
        ("refused: no words", Raw::default()),
        ("refused: a word, wrong", bad_word(1, 0, 0)),
        (
            "refused: 17 erased names, a string, wrong",
            bad_string(1, 1, 17),
        ),
        ("refused: 33 strings, the first wrong", bad_string(1, 33, 0)),
        ("refused: 65 strings, the first wrong", bad_string(1, 65, 0)),
        (
            "refused: 65 strings, the first word wrong",
            bad_word(1, 65, 0),
        ),
        (
            "refused: 65 erased names, the first wrong",
            bad_name(1, 65, 65),
        ),
        (
            "refused: 65 erased names of one string, the first wrong",
            bad_name(1, 1, 65),
        ),
        (
            "refused: 257 strings, the first wrong",
            bad_string(1, 257, 0),
        ),
        (
            "refused: 1,024 strings, the first wrong",
            bad_string(1, 1_024, 0),
        ),
        (
            "refused: 1,024 erased names, the first wrong",
            bad_name(1, 1_024, 1_024),
        ),
    ]
}

/// Those of more words than one.
fn refused_words() -> Vec<(&'static str, Raw)> {
    vec![
        ("refused: 129 words, the first wrong", bad_word(129, 0, 0)),
        (
            "refused: 129 words, 65 strings, the first wrong",
            bad_string(129, 65, 0),
        ),
        ("refused: 513 words, the first wrong", bad_word(513, 0, 0)),
        (
            "refused: 513 words, 65 strings, the first wrong",
            bad_string(513, 65, 0),
        ),
        (
            "refused: 1,025 words, the first wrong",
            bad_word(1_025, 0, 0),
        ),
        (
            "refused: 2,049 words, the first wrong",
            bad_word(2_049, 0, 0),
        ),
        (
            "refused: 8,192 words, the first wrong",
            bad_word(8_192, 0, 0),
        ),
        (
            "refused: 8,192 words, a string, wrong",
            bad_string(8_192, 1, 0),
        ),
        (
            "refused: 8,192 words, 1,024 erased names, the first string wrong",
            bad_string(8_192, 1_024, 1_024),
        ),
    ]
}

/// A TYPE with three fields and without fields in turn. The rows of unused array parameters stand behind it, so many that the first field is the last
/// row of a block.
fn shrinking() -> Vec<Stmt> {
    let first = at(
        1,
        sub_of(1_000, (0..479).map(array_param).collect(), vec![]),
    );
    let both = (0..520).flat_map(|_| [at(2, record(1_001, 3)), at(2, record(1_001, 0))]);
    std::iter::once(first).chain(both).collect()
}

fn nested(depth: usize, inside: usize) -> Vec<Stmt> {
    let body = (0..inside).map(|n| at(n, StmtKind::Cls)).collect();
    (0..depth).fold(body, |body, n| vec![at(n, sub(n, body))])
}

fn functions() -> Vec<Stmt> {
    let function = |n: usize| StmtKind::Function {
        name: name_of(n * 1_031 % 1_100 % 522),
        params: vec![],
        ret_ty: Some(TypeRef::Integer),
        body: vec![],
        is_static: true,
        def_fn: true,
    };
    (0..1_100).map(|n| at(n, function(n))).collect()
}

/// One array declared over and over.
fn again(n: usize, times: usize) -> Vec<Stmt> {
    let decls = vec![array(name_of(n)); times];
    let shared = false;
    vec![at(1, StmtKind::Dim { decls, shared })]
}

/// OPTION BASE on lines of eight digits, each but the first a diagnostic.
fn bases(count: usize) -> Vec<Stmt> {
    let line = |n| 16_000_000 + n;
    (0..count)
        .map(|n| at(line(n), StmtKind::OptionBase(1)))
        .collect()
}

/// DEFINT with so many ranges of letters.
fn letters(count: usize) -> StmtKind {
    StmtKind::DefType {
        ty: DataType::Integer,
        ranges: vec![('A', 'Z'); count],
    }
}

fn on_goto(count: usize) -> StmtKind {
    StmtKind::OnGoto {
        expr: Expr::Variable(name_of(0)),
        targets: vec![GotoTarget::Line(10); count],
    }
}

/// CALL without arguments.
fn call(n: usize) -> StmtKind {
    StmtKind::Call {
        name: name_of(n),
        args: vec![],
    }
}

/// An element set to a call with so many arguments.
fn element(n: usize, args: usize) -> StmtKind {
    StmtKind::Let {
        name: name_of(n),
        indices: Some(vec![]),
        value: Expr::FnCall {
            name: "F".into(),
            args: vec![Expr::Literal(Literal::Integer(1)); args],
        },
    }
}

/// READ into an element of each array, the last first.
fn read(count: usize) -> StmtKind {
    let target = |n| LValue {
        name: name_of(n),
        indices: Some(vec![]),
        fields: vec![],
    };
    StmtKind::Read((0..count).rev().map(target).collect())
}

/// A line number and another statement for each number.
fn in_turn(order: &[usize], other: impl Fn(usize) -> StmtKind) -> Vec<Stmt> {
    let both = |n: &usize| [at(*n, StmtKind::Label(*n as u32)), at(*n, other(*n))];
    order.iter().flat_map(both).collect()
}

fn name_of(n: usize) -> String {
    format!("A{n:04}")
}

/// A variable of SHARED.
fn item(n: usize) -> ScopeItem {
    ScopeItem {
        name: name_of(n),
        array: false,
        ty: None,
    }
}

fn sub(n: usize, body: Vec<Stmt>) -> StmtKind {
    sub_of(n, vec![], body)
}

fn sub_of(n: usize, params: Vec<Param>, body: Vec<Stmt>) -> StmtKind {
    StmtKind::Sub {
        name: name_of(n),
        params,
        body,
        is_static: false,
    }
}

fn array_param(n: usize) -> Param {
    Param {
        name: name_of(n),
        byval: false,
        array: true,
        ty: None,
    }
}

fn same_arrays(count: usize) -> Vec<Param> {
    vec![array_param(0); count]
}

/// A variable AS INTEGER.
fn scalar(name: String) -> Declarator {
    Declarator {
        name,
        dimensions: None,
        lowers: vec![],
        ty: Some(TypeRef::Integer),
    }
}

fn record(n: usize, fields: usize) -> StmtKind {
    let field = |i| FieldDecl {
        name: format!("F{i}"),
        ty: TypeRef::Integer,
    };
    type_of(n, (0..fields).map(field).collect())
}

fn type_of(n: usize, fields: Vec<FieldDecl>) -> StmtKind {
    StmtKind::TypeDef {
        name: name_of(n),
        fields,
    }
}

/// A field of a TYPE that isn't there.
fn unknown(n: usize) -> FieldDecl {
    FieldDecl {
        name: name_of(n),
        ty: TypeRef::Record("U".into()),
    }
}

/// A number below a million with its comma.
fn grouped(n: usize) -> String {
    if n < 1_000 {
        return n.to_string();
    }
    format!("{},{:03}", n / 1_000, n % 1_000)
}

fn at(line: usize, kind: StmtKind) -> Stmt {
    Stmt {
        line: line as u32,
        kind,
    }
}

/// A row for each line number, in this order.
fn line_numbers(order: impl Iterator<Item = usize>) -> Vec<Stmt> {
    order.map(|n| at(n, StmtKind::Label(n as u32))).collect()
}

/// One DIM with a row for each array, in this order.
fn arrays(order: impl Iterator<Item = usize>) -> Vec<Stmt> {
    let decls = order.map(|n| array(name_of(n))).collect();
    let shared = false;
    vec![at(1, StmtKind::Dim { decls, shared })]
}

/// An array of one dimension.
fn array(name: String) -> Declarator {
    Declarator {
        name,
        dimensions: Some(vec![Expr::Literal(Literal::Integer(9))]),
        lowers: vec![],
        ty: None,
    }
}

/// Hundreds of array parameters, none of which the large body subscripts.
fn parameters() -> Vec<Stmt> {
    let params = (0..400).map(|n| Param {
        name: format!("P{n}"),
        byval: false,
        array: true,
        ty: None,
    });
    let value = |n: usize| Expr::FnCall {
        name: "F".into(),
        args: vec![Expr::Variable(format!("V{}", n % 100))],
    };
    let body = (0..700).map(|n| {
        let kind = StmtKind::Let {
            name: "X".into(),
            indices: None,
            value: value(n),
        };
        at(n, kind)
    });
    let sub = StmtKind::Sub {
        name: "S".into(),
        params: params.collect(),
        body: body.collect(),
        is_static: false,
    };
    vec![at(1, sub)]
}

/// Statements of nested calls of arrays and procedures, with pairs, and CLS up to exactly so many tree words.
fn calls(words: usize) -> Vec<Stmt> {
    let dim = StmtKind::Dim {
        decls: vec![array("A".into())],
        shared: true,
    };
    let element = Expr::FnCall {
        name: "A".into(),
        args: vec![Expr::Paren(Box::new(Expr::Variable("X".into())))],
    };
    let call = Expr::FnCall {
        name: "F".into(),
        args: vec![Expr::Paren(Box::new(element)); 4],
    };
    let assignment = StmtKind::Let {
        name: "X".into(),
        indices: None,
        value: call,
    };
    let size = |program: &[Stmt]| image::build(program, &[], &[]).tree.len();
    let mut program = vec![at(1, dim), at(2, assignment.clone())];
    let each = size(&program) - size(&program[..1]);
    while size(&program) + each <= words {
        program.push(at(program.len() + 1, assignment.clone()));
    }
    while size(&program) < words {
        program.push(at(program.len() + 1, StmtKind::Cls));
    }
    program
}

/// Strings that differ only in their last bytes, as many and as long as may be.
fn names() -> Vec<u8> {
    let program: Vec<Stmt> = (0..409)
        .map(|n| at(1, StmtKind::LabelName(long_name(n))))
        .collect();
    image::build(&program, &[], &[]).to_bytes()
}

/// A name of 40 bytes.
fn long_name(n: usize) -> String {
    format!("{}{n:04}", "A".repeat(36))
}
