//! What a compiler does with an image, and what a person does with its text.

use image::ast::*;
use image::raw::{Raw, Refusal};

fn call(name: &str, args: Vec<Expr>) -> Expr {
    Expr::FnCall {
        name: name.into(),
        args,
    }
}

fn int(n: i64) -> Expr {
    Expr::Literal(Literal::Integer(n))
}

/// `DIM A(5)` on line 1, `X = (A(2))` on line 2.
fn program() -> Vec<Stmt> {
    let decls = vec![Declarator {
        name: "A".into(),
        dimensions: Some(vec![int(5)]),
        lowers: vec![],
        ty: None,
    }];
    let dim = StmtKind::Dim {
        decls,
        shared: false,
    };
    let let_x = StmtKind::Let {
        name: "X".into(),
        indices: None,
        value: Expr::Paren(Box::new(call("A", vec![int(2)]))),
    };
    let at = |line, kind| Stmt { line, kind };
    vec![at(1, dim), at(2, let_x)]
}

#[test]
fn a_program_comes_back() {
    let raw = image::build(&program(), &["X".into()], &["UNUSED".into()]);
    let file = raw.to_bytes();
    let again = Raw::from_bytes(&file).expect("an image");
    assert_eq!(again, raw);
    assert_eq!(image::read(&again), Ok((program(), vec!["X".to_string()])));
}

#[test]
fn resolved_words_are_read_back() {
    let raw = image::build(&program(), &[], &[]);
    // What the listing of document 01 says after R.
    let line = "01000002 4f000001 01000001 02000000 01000001 10000000 18000000 00000005 01000000 00000000 03000000 \
                42000002 02000001 00000000 12000000 02000000 01000001 10000000 18000000 00000002";
    let words: Vec<u32> = line
        .split(' ')
        .map(|w| u32::from_str_radix(w, 16).expect("hexadecimal"))
        .collect();
    let resolved = image::resolved(&raw, &words).expect("words of a tree");
    let element = Expr::ArrayAccess {
        name: "A".into(),
        indices: vec![int(2)],
    };
    assert!(matches!(&resolved[1].kind, StmtKind::Let { value, .. } if *value == element));
}

#[test]
fn text_is_of_the_image() {
    let text = "(strings \"Z z\")
(erased A)
(program
  (Dim line=1 decls=[{name=A dimensions=[5]}])
  (Let line=2 name=X value=(Paren (FnCall name=A args=[2]))))
";
    let file = image::text::parse(text).expect("a text");
    let raw = image::build(&program(), &["A".into()], &["Z z".into()]);
    assert_eq!(file, raw.to_bytes());
    assert_eq!(image::text::print(&file), text);
}

#[test]
fn fields_in_any_order() {
    let plain = "(program (Sub name=F params=[{name=P byval=yes ty=Long}] body=[(Cls line=1)] is_static=yes))";
    let mixed = "(program (Sub is_static=yes body=[(Cls line=1)] ; a comment
                             name=F params=[{ty=Long name=P byval=yes}]))";
    assert_eq!(image::text::parse(plain), image::text::parse(mixed));
}

#[test]
fn faults_name_their_line() {
    for (text, line) in [
        ("(program\n (Dim decls=[{name=A}] shared=maybe))", 2),
        ("(program\n (Dim\n decls=[{nam=A}]))", 3),
        ("(program (Dim decls=[] decls=[]))", 1),
        ("(program (Dim junk decls=[]))", 1),
        ("(program (Dim decls=[] junk shared=yes))", 1),
        ("(program (Cls) (Cls junk))", 1),
        ("(program (Let name=X))", 1),
        ("(program (Cls)", 1),
        ("(program (Data [{text=\"A}]))", 1),
        ("(program (Label 16777216))", 1),
        ("", 0),
    ] {
        let fault = image::text::parse(text).expect_err(text);
        assert_eq!(fault.line, line, "{text}: {fault}");
    }
}

#[test]
fn files_that_are_no_images() {
    for file in [&b""[..], b"\0\0\0", &[0; 12], &[0; 16], &[255; 16]] {
        let text = image::text::print(file);
        assert_eq!(image::text::parse(&text).expect(&text), file);
    }
    let refused = Err(Refusal {
        number: 5,
        place: 0,
    });
    assert_eq!(Raw::from_bytes(&[255; 16]), refused);
}
