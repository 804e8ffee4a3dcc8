//! Builds the image of `DIM A(5)` and `X = (A(2))` from a syntax tree and prints its listing.

use image::ast::*;

fn main() {
    let int = |n| Expr::Literal(Literal::Integer(n));
    let element = Expr::FnCall {
        name: "A".into(),
        args: vec![int(2)],
    };
    let dim = StmtKind::Dim {
        decls: vec![Declarator {
            name: "A".into(),
            dimensions: Some(vec![int(5)]),
            lowers: vec![],
            ty: None,
        }],
        shared: false,
    };
    let assign = StmtKind::Let {
        name: "X".into(),
        indices: None,
        value: Expr::Paren(Box::new(element)),
    };
    let program = [
        Stmt { line: 1, kind: dim },
        Stmt {
            line: 2,
            kind: assign,
        },
    ];
    let file = image::build(&program, &[], &[]).to_bytes();
    print_listing(&file);
}

#[cfg(analyser)]
fn print_listing(file: &[u8]) {
    print!("{}", String::from_utf8_lossy(&analyser::listing_of(file)));
}

#[cfg(not(analyser))]
fn print_listing(file: &[u8]) {
    println!(
        "no analyser in this build; the image has {} bytes",
        file.len()
    );
}
