//! The table of fields against the text of the original's `parser.rs`: the same names, in the same order.
#![cfg(original)]

use image::schema::{EXPR, Heads, STMT};

/// The body of a type's definition, without comments.
fn definition(name: &str) -> String {
    let source = include_str!(concat!(env!("OUT_DIR"), "/parser.rs"));
    let start = format!("pub enum {name} {{\n");
    let (_, rest) = source.split_once(&start).expect("the type");
    let (body, _) = rest.split_once("\n}\n").expect("its end");
    let lines = body.lines().map(|l| l.split("//").next().unwrap_or(""));
    lines.collect::<Vec<_>>().join("\n")
}

fn same(name: &str, heads: &Heads) {
    let body = definition(name);
    let mut variants = Vec::new();
    let mut fields = Vec::new();
    for line in body.lines() {
        let word = line.trim().split([':', '(', ' ', ',']).next().unwrap_or("");
        match line.len() - line.trim_start().len() {
            4 if !word.is_empty() && word != "}" => {
                variants.push(word);
                fields.push(vec![]);
            }
            8 if !word.is_empty() => fields.last_mut().expect("a variant").push(word),
            _ => {}
        }
    }
    let ours: Vec<&str> = heads.variants.iter().map(|v| v.name).collect();
    assert_eq!(ours, variants);
    for (variant, names) in heads.variants.iter().zip(fields) {
        let named = variant.fields.iter().map(|f| f.name);
        let ours: Vec<&str> = named.filter(|n| !n.is_empty()).collect();
        assert_eq!(ours, names, "{}", variant.name);
    }
}

#[test]
fn variants_and_fields_are_the_originals() {
    same("StmtKind", &STMT);
    same("Expr", &EXPR);
    assert_eq!((STMT.variants.len(), EXPR.variants.len()), (54, 8));
}
