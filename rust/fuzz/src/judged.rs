//! What the original says of generated images.

use crate::program::fold;
use crate::rng::Rng;
use crate::{Case, case, rich, small};
use image::ast::{Expr, Stmt, StmtKind};
use image::raw::{Raw, Refusal};
use oracle::steps::{Action, Verdict, expressions, step};
use oracle::{Analysis, Input, LENT, Lent};
use std::collections::BTreeMap;
use std::fs;
use std::ops::Range;
use std::path::Path;

/// What a listing has, for a table of what a run met.
pub fn features(answer: &Result<Analysis, Refusal>) -> Vec<String> {
    match answer {
        Err(refusal) => vec![format!("E {}", refusal.number)],
        Ok(a) => {
            let codes = a.diagnostics.iter().map(oracle::code);
            let mut found: Vec<String> = codes.map(|c| format!("code {c:2}")).collect();
            found.extend(a.rows.iter().map(|r| format!("row {}", r[0] >> 24)));
            found.sort();
            found.dedup();
            found
        }
    }
}

/// The original against itself on each seed's case; the table of what came is printed.
pub fn check_self(seeds: Range<u64>) {
    let mut table: BTreeMap<String, usize> = BTreeMap::new();
    for seed in seeds {
        let Case { file, group } = case(seed);
        let answer = oracle::analyse_file(&file);
        same_both_ways(seed, &file, &answer);
        *table.entry(format!("of {group}")).or_default() += 1;
        for f in features(&answer) {
            *table.entry(f).or_default() += 1;
        }
    }
    for (what, count) in table {
        println!("{count:9} {what}");
    }
}

fn same_both_ways(seed: u64, file: &[u8], answer: &Result<Analysis, Refusal>) {
    let text = image::text::print(file);
    let back = image::text::parse(&text).unwrap_or_else(|f| panic!("seed {seed}: {f}\n{text}"));
    assert!(
        back == file,
        "seed {seed}: the text is of another file\n{text}"
    );
    let Ok(raw) = Raw::from_bytes(file) else {
        return;
    };
    // The two codecs are one text over two families of types; the tree read and written is the same.
    let mirrored = image::read(&raw).map(|(program, _)| program);
    match (&mirrored, oracle::input(&raw)) {
        (Ok(program), Ok(input)) => {
            let words = image::codec::encode(program, &input.numbers);
            assert!(
                words == raw.tree,
                "seed {seed}: the words aren't the tree's"
            );
            // A step at a time is the whole, where nothing stops it.
            let stepped = oracle::stepwise(input, LENT);
            assert_eq!(
                oracle::text(&stepped),
                oracle::text(answer),
                "seed {seed}: by steps"
            );
            if let Ok(a) = answer {
                resolved_again(seed, &raw, a);
                just_enough(seed, &raw, a);
            }
        }
        (Err(a), Err(b)) => assert_eq!(*a, b, "seed {seed}"),
        _ => panic!("seed {seed}: one refuses, the other doesn't"),
    }
}

/// The resolved words are accepted, and resolving them again changes nothing, the tables and messages included.
fn resolved_again(seed: u64, raw: &Raw, a: &Analysis) {
    let again = Raw {
        tree: a.resolved.clone(),
        ..raw.clone()
    };
    let b =
        oracle::analyse(&again, LENT).unwrap_or_else(|r| panic!("seed {seed}: resolved, {r:?}"));
    let answer = Ok(a.clone());
    assert_eq!(
        oracle::text(&Ok(b)),
        oracle::text(&answer),
        "seed {seed}: resolved again"
    );
}

/// Buffers of exactly the length needed do, and one less is 7 or 8.
fn just_enough(seed: u64, raw: &Raw, a: &Analysis) {
    let lent = Lent {
        rows: a.rows.len().max(peak(raw)),
        diagnostics: a.diagnostics.len(),
    };
    let run = |lent| oracle::stepwise(oracle::input(raw).expect("read before"), lent);
    assert!(run(lent).is_ok(), "seed {seed}: exact buffers");
    if let Some(diagnostics) = lent.diagnostics.checked_sub(1) {
        let number = run(Lent {
            diagnostics,
            ..lent
        })
        .map(|_| ())
        .map_err(|r| r.number);
        assert_eq!(number, Err(8), "seed {seed}: a diagnostic too many");
    }
    if let Some(rows) = lent.rows.checked_sub(1) {
        let number = run(Lent { rows, ..lent }).map(|_| ()).map_err(|r| r.number);
        assert_eq!(number, Err(7), "seed {seed}: a row too many");
    }
}

/// The most rows there are at any time: a redefinition may leave fewer than there were.
fn peak(raw: &Raw) -> usize {
    let fits = |rows: usize| {
        let lent = Lent {
            rows,
            diagnostics: usize::MAX,
        };
        oracle::stepwise(oracle::input(raw).expect("read before"), lent).is_ok()
    };
    let (mut low, mut high) = (0, LENT.rows);
    while low < high {
        let middle = (low + high) / 2;
        if fits(middle) {
            high = middle;
        } else {
            low = middle + 1;
        }
    }
    low
}

/// Demand 3 by running: allowed steps leave rows, diagnostics and resolved words as they were, forbidden ones change the words.
pub fn steps(seeds: Range<u64>) {
    let mut counts: BTreeMap<String, usize> = BTreeMap::new();
    for seed in seeds {
        let file = rich(&mut Rng::new(seed)).file;
        let Ok(raw) = Raw::from_bytes(&file) else {
            continue;
        };
        let Ok(input) = oracle::input(&raw) else {
            continue;
        };
        if oracle::analyse(&raw, LENT).is_err() {
            continue;
        }
        steps_of(seed, input, &mut counts);
    }
    for (what, count) in counts {
        println!("{count:9} {what}");
    }
}

/// Random steps from one seed's program, each counted.
fn steps_of(seed: u64, mut input: Input<'_>, counts: &mut BTreeMap<String, usize>) {
    let mut rng = Rng::new(!seed);
    let symbols = oracle::tables(&input);
    let first = oracle::whole(input.clone());
    let wanted = oracle::text(&Ok(first.clone()));
    *counts.entry("programs".into()).or_default() += 1;
    for _ in 0..rng.within(1, 30) {
        let count = expressions(&mut input.program, &symbols);
        if count == 0 {
            break;
        }
        let action = *rng.pick(&[Action::Put, Action::Take, Action::Take, Action::Rewrite]);
        let before = input.clone();
        let verdict = step(&mut input.program, &symbols, rng.below(count), action);
        let after = || oracle::whole(input.clone());
        match verdict {
            Verdict::Nothing => continue,
            Verdict::Allowed => {
                assert_eq!(
                    oracle::text(&Ok(after())),
                    wanted,
                    "seed {seed}: an allowed step"
                );
            }
            Verdict::Forbidden => {
                let changed = after().resolved;
                assert!(changed != first.resolved, "seed {seed}: a forbidden step");
                input = before;
            }
        }
        *counts.entry(format!("{verdict:?} {action:?}")).or_default() += 1;
    }
}

/// A number for each seed's listing, so that two builds of the original can be compared.
pub fn digest(seeds: Range<u64>) {
    for seed in seeds {
        let listing = oracle::listing(&case(seed).file);
        let fold = |h: u64, b: u8| (h ^ u64::from(b)).wrapping_mul(0x0100_0000_01b3);
        let number = listing.bytes().fold(0xcbf2_9ce4_8422_2325, fold);
        println!("{seed} {number:016x}");
    }
}

/// Small programs with their listings, to try definitions on.
///
/// `= seed`, `strings`, each string after `"`, `tree` and `erased` with their words, the readable text after `;`, then the
/// listing's own lines, then an empty line.
pub fn vectors(seeds: Range<u64>) {
    for seed in seeds {
        let raw = small(seed);
        println!("= {seed}");
        for s in raw.strings().expect("a right program").all {
            println!("\"{s}");
        }
        let words = |ws: &[u32]| ws.iter().map(|w| format!(" {w:08x}")).collect::<String>();
        println!("tree{}", words(&raw.tree));
        println!("erased{}", words(&raw.erased));
        for line in image::text::print_image(&raw).lines() {
            println!("; {line}");
        }
        println!("{}", oracle::text(&oracle::analyse(&raw, LENT)));
    }
}

/// The edges of document 01 and the readings, as texts; the samples' folder.
const EDGES: &str = include_str!("../edges.txt");
const SAMPLES: &str = concat!(env!("CARGO_MANIFEST_DIR"), "/../../samples");

/// By group, how many images a list has, and the list.
type Lists = BTreeMap<&'static str, (usize, Vec<u8>)>;

/// One more image of a list, with the original's listing.
fn record((count, list): &mut (usize, Vec<u8>), file: &[u8]) {
    *count += 1;
    for part in [file, oracle::listing(file).as_bytes()] {
        list.extend_from_slice(&(part.len() as u32).to_le_bytes());
        list.extend_from_slice(part);
    }
}

/// A kept list, group after group: of all the seeds' cases the smallest that show each feature, a few of each.
///
/// It is records, all numbers 32 bits little-endian: the image's length in bytes, the image, the listing's length,
/// the listing. Nothing is padded.
pub fn keep(seeds: Range<u64>, to: &Path) {
    // Cases, and constants each alone, the smallest first.
    let alone = |seed| Case {
        file: fold(&mut Rng::new(seed)).to_bytes(),
        group: "folds",
    };
    let of = |seed, is_fold| if is_fold { alone(seed) } else { case(seed) };
    let mut sizes: Vec<(usize, u64, bool)> = seeds
        .flat_map(|s| [false, true].map(|is_fold| (of(s, is_fold).file.len(), s, is_fold)))
        .collect();
    sizes.sort_unstable();
    let mut lists = Lists::new();
    let mut met: BTreeMap<String, usize> = BTreeMap::new();
    for (size, seed, is_fold) in sizes {
        let Case { file, group } = of(seed, is_fold);
        let answer = oracle::analyse_file(&file);
        // Large ones only for what the limits are about.
        let found: Vec<(String, usize)> = if size > 640 {
            let number = answer.as_ref().map_or_else(|r| r.number, |_| 0);
            vec![(format!("{group} {number}"), 1)]
        } else {
            let coarse = features(&answer).into_iter().map(|f| (f, 3));
            let fine = shapes(&file, &answer).into_iter().map(|f| (f, 1));
            coarse.chain(fine).collect()
        };
        let few = |(f, wanted): &(String, usize)| met.get(f).copied().unwrap_or(0) < *wanted;
        if !found.iter().any(few) {
            continue;
        }
        for (f, _) in found {
            *met.entry(f).or_default() += 1;
        }
        record(lists.entry(group).or_default(), &file);
    }
    record_texts(&mut lists);
    write_lists(lists, to);
}

/// The edges and the samples, each a group.
fn record_texts(lists: &mut Lists) {
    for text in EDGES.split("\n= ").skip(1) {
        let (name, text) = text.split_once('\n').expect("a name, then a text");
        let file = image::text::parse(text).unwrap_or_else(|f| panic!("{name}: {f}"));
        record(lists.entry("edges").or_default(), &file);
    }
    for (name, text) in texts(Path::new(SAMPLES)) {
        let file = image::text::parse(&text).unwrap_or_else(|f| panic!("{name}: {f}"));
        record(lists.entry("samples").or_default(), &file);
    }
}

/// The groups one after another in one file; how large each is, is printed.
fn write_lists(lists: Lists, to: &Path) {
    let mut all = vec![];
    for (group, (count, list)) in lists {
        println!("{count:6} images {:8} bytes  {group}", list.len());
        all.extend(list);
    }
    fs::write(to, all).expect("the list can be written");
}

/// Beside each text of a folder, its image and the original's listing of it.
pub fn samples(folder: &Path) {
    for (name, text) in texts(folder) {
        let file = image::text::parse(&text).unwrap_or_else(|f| panic!("{name}: {f}"));
        let beside = |ending| folder.join(&name).with_extension(ending);
        fs::write(beside("img"), &file).expect("the image can be written");
        fs::write(beside("list"), oracle::listing(&file)).expect("the listing can be written");
    }
}

/// The texts of a folder, by name.
pub fn texts(folder: &Path) -> Vec<(String, String)> {
    let entries = fs::read_dir(folder).expect("the folder can be read");
    let paths = entries.map(|e| e.expect("an entry").path());
    let mut texts: Vec<(String, String)> = paths
        .filter(|p| p.extension().is_some_and(|e| e == "txt"))
        .map(|p| {
            let name = p
                .file_stem()
                .expect("a name")
                .to_string_lossy()
                .into_owned();
            (name, fs::read_to_string(&p).expect("a text"))
        })
        .collect();
    texts.sort();
    texts
}

/// Which variant of its enum a value is.
fn variant(value: &impl std::fmt::Debug) -> String {
    let text = format!("{value:?}");
    let end = text.find(|c: char| !c.is_alphanumeric());
    text[..end.unwrap_or(text.len())].to_string()
}

/// A top statement: whether resolving changed it, what its constant folds from and to, where an array parameter is used.
fn statement_shapes(stmt: &Stmt, resolved: &Stmt, a: &Analysis) -> Vec<String> {
    let kind = variant(&stmt.kind);
    let mut found = vec![];
    if stmt != resolved {
        found.push(format!("changed {kind}"));
    }
    let ranks = || {
        a.rows
            .iter()
            .filter(|r| r[0] >> 24 == 133)
            .map(|r| r[2])
            .collect::<Vec<_>>()
    };
    match &stmt.kind {
        StmtKind::Const { value, .. } => {
            found.extend(fold_shape(value, a));
        }
        StmtKind::Sub { params, body, .. } | StmtKind::Function { params, body, .. } => {
            if let (true, [first]) = (params.iter().any(|p| p.array), &body[..]) {
                found.push(format!("used in {} {:?}", variant(&first.kind), ranks()));
            }
        }
        _ => {}
    }
    found
}

/// What a constant folds from and to.
fn fold_shape(value: &Expr, a: &Analysis) -> Option<String> {
    let parts = match value {
        Expr::Binary { op, left, right } => {
            format!("{op:?} {} {}", operand(left), operand(right))
        }
        Expr::Unary { op, operand: e } => format!("{op:?} {}", operand(e)),
        e => variant(e),
    };
    let ends: Vec<u32> = a
        .rows
        .iter()
        .filter(|r| r[0] >> 24 == 132)
        .map(|r| r[2])
        .collect();
    let codes: Vec<u32> = a.diagnostics.iter().map(oracle::code).collect();
    // Only alone is the answer this constant's.
    let alone = ends.len() + codes.len() == 1;
    alone.then(|| format!("fold {parts} {ends:?} {codes:?}"))
}

/// An operand by its literal's kind, or its variant.
fn operand(e: &Expr) -> String {
    match e {
        Expr::Literal(l) => variant(l),
        e => variant(e),
    }
}

/// Finer features: pairs of codes in a listing, statement kinds with what they caused, places of refusals.
fn shapes(file: &[u8], answer: &Result<Analysis, Refusal>) -> Vec<String> {
    let mut found = Vec::new();
    let Ok(raw) = Raw::from_bytes(file) else {
        return found;
    };
    match answer {
        Err(refusal) => found.extend(refusal_shape(&raw, refusal)),
        Ok(a) => found.extend(analysis_shapes(&raw, a)),
    }
    found.sort();
    found.dedup();
    found
}

/// Number 2 by the kind of the word before and of the wrong one.
fn refusal_shape(raw: &Raw, refusal: &Refusal) -> Option<String> {
    let at = refusal.place as usize;
    let kind = |i: Option<usize>| i.and_then(|i| raw.tree.get(i)).map(|w| w >> 24);
    (refusal.number == 2).then(|| {
        format!(
            "2 {:?} {:?}",
            kind(at.checked_sub(1)),
            kind(Some(at)).map(|k| k / 8)
        )
    })
}

/// Pairs of codes, rows, statements, and what resolving did to them.
fn analysis_shapes(raw: &Raw, a: &Analysis) -> Vec<String> {
    let mut found = Vec::new();
    let codes: Vec<u32> = a.diagnostics.iter().map(oracle::code).collect();
    for pair in codes.windows(2) {
        found.push(format!("codes {} {}", pair[0], pair[1]));
    }
    for row in &a.rows {
        // Rows by kind, whether scoped, and the small words in them.
        let small = |w: u32| {
            if w < 4 || (24..46).contains(&w) {
                w
            } else {
                99
            }
        };
        found.push(format!(
            "row {} {} {} {}",
            row[0] >> 24,
            row[1].min(1),
            small(row[2]),
            small(row[4])
        ));
    }
    for w in raw.tree.iter().filter(|w| (64..118).contains(&(*w >> 24))) {
        found.push(format!("statement {}", w >> 24));
    }
    let (program, _) = image::read(raw).expect("read before");
    let after = image::resolved(raw, &a.resolved).expect("words of a tree");
    for (s, t) in program.iter().zip(&after) {
        found.extend(statement_shapes(s, t, a));
    }
    let shorter = raw.tree.len() - a.resolved.len();
    found.push(format!("shrinks by {}", shorter.min(6)));
    found
}
