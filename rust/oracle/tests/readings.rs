//! Places where document 01 and the original are easy to misread, each with a small program: what the original does there.
#![cfg(original)]

use oracle::{Analysis, Row, analyse_file, code};

fn file(text: &str) -> Vec<u8> {
    image::text::parse(text).unwrap_or_else(|fault| panic!("{fault}\n{text}"))
}

fn program(statements: &str) -> Analysis {
    let answer = analyse_file(&file(&format!("(program {statements})")));
    answer.unwrap_or_else(|r| panic!("refused with {r:?}\n{statements}"))
}

fn refusal(file: &[u8]) -> (u32, u32) {
    let r = analyse_file(file).map(|_| ()).expect_err("a refusal");
    (r.number, r.place)
}

fn codes(a: &Analysis) -> Vec<u32> {
    a.diagnostics.iter().map(code).collect()
}

fn messages(a: &Analysis) -> Vec<&str> {
    a.diagnostics.iter().map(|d| d.message.as_str()).collect()
}

/// Words 1 to 5 of the rows of a kind.
fn rows(a: &Analysis, kind: u32) -> Vec<[u32; 5]> {
    let of = |r: &&Row| r[0] >> 24 == kind;
    a.rows
        .iter()
        .filter(of)
        .map(|r| [r[1], r[2], r[3], r[4], r[5]])
        .collect()
}

/// The kinds of rows, in order.
fn kinds(a: &Analysis) -> Vec<u32> {
    a.rows.iter().map(|r| r[0] >> 24).collect()
}

/// The value of the one CONST: its literal kind and 64 bits; or the code.
fn folded(expr: &str) -> Result<(u32, u64), u32> {
    let a = program(&format!("(Const name=ZZ value={expr})"));
    match (&codes(&a)[..], &rows(&a, 132)[..]) {
        ([], [[0, kind, low, high, 0]]) => Ok((*kind, u64::from(*high) << 32 | u64::from(*low))),
        ([code], []) => Err(*code),
        other => panic!("{other:?}"),
    }
}

fn binary(op: &str, left: &str, right: &str) -> Result<(u32, u64), u32> {
    folded(&format!("(Binary op={op} left={left} right={right})"))
}

fn negated(operand: &str) -> Result<(u32, u64), u32> {
    folded(&format!("(Unary op=Neg operand={operand})"))
}

fn integer(n: i64) -> Result<(u32, u64), u32> {
    Ok((24, n as u64))
}

fn long(n: i64) -> Result<(u32, u64), u32> {
    Ok((25, n as u64))
}

fn single(f: f64) -> Result<(u32, u64), u32> {
    Ok((26, f.to_bits()))
}

fn float(f: f64) -> Result<(u32, u64), u32> {
    Ok((27, f.to_bits()))
}

/// Row 133's rank of array parameter P of a SUB with this body, and whether row 142 stands.
fn ranked(body: &str) -> (u32, bool) {
    let sub = format!("(Sub name=F params=[{{name=P array=yes}}] body=[{body}])");
    let a = program(&sub);
    (rows(&a, 133)[0][1], !rows(&a, 142).is_empty())
}

/// The text of the resolved program, without lines that its DIM and SUB have.
fn resolved(text: &str) -> String {
    let mut raw = image::raw::Raw::from_bytes(&file(text)).expect("an image");
    raw.tree = program_of(text).resolved;
    image::text::print_image(&raw)
}

fn program_of(text: &str) -> Analysis {
    analyse_file(&file(text)).expect("no refusal")
}

#[test]
fn the_documents_listing() {
    let text = "(program (Dim line=1 decls=[{name=A dimensions=[5]}])
                         (Let line=2 name=X value=(Paren (FnCall name=A args=[2]))))";
    let listing = "\
T 85000000 00000000 00000001 00000001 00000000 00000000
R 01000002 4f000001 01000001 02000000 01000001 10000000 18000000 00000005 01000000 00000000 03000000 42000002 \
02000001 00000000 12000000 02000000 01000001 10000000 18000000 00000002
";
    assert_eq!(oracle::listing(&file(text)), listing);
}

#[test]
fn r01_file_length() {
    let words = |ws: &[u32]| ws.iter().flat_map(|w| w.to_le_bytes()).collect::<Vec<u8>>();
    assert_eq!(refusal(&[]), (5, 0));
    assert_eq!(refusal(&[0; 11]), (5, 0));
    assert_eq!(refusal(&words(&[0, 1, 0])), (5, 0));
    assert_eq!(
        oracle::listing(&words(&[0, 1, 0, 0x0100_0000])),
        "R 01000000\n"
    );
    assert_eq!(refusal(&words(&[0, 1, 0, 0x0100_0000, 0])), (5, 0));
    // One string of one byte, its word padded with zeros; then with something else.
    let good = [1, 1, 0, 1, 0x0100_0000, 0x41];
    assert_eq!(oracle::listing(&words(&good)), "R 01000000\n");
    assert_eq!(refusal(&words(&[1, 1, 0, 1, 0x0100_0000, 0x0141])), (5, 0));
    assert_eq!(refusal(&words(&[1, 1, 0, 1, 0x0100_0000])), (5, 0));
    assert_eq!(12 + 4 * (1_024 + 8_192 + 1_024) + 16_384, 57_356);
}

#[test]
fn r02_ends() {
    let raw = |ends: &str, bytes: &str| {
        file(&format!(
            "(raw ends={ends} tree=[01000000] erased=[] bytes={bytes:?})"
        ))
    };
    assert_eq!(refusal(&raw("[3 2]", "AB")).0, 1);
    assert_eq!(refusal(&raw("[9 2]", "AB")).0, 1);
    assert_eq!(refusal(&raw("[16385]", &"A".repeat(16_385))), (5, 0));
    assert_eq!(refusal(&raw("[1 2]", "BA")), (1, 1));
    assert_eq!(refusal(&raw("[1 2]", "AA")), (1, 1));
}

#[test]
fn r03_no_words() {
    assert_eq!(refusal(&file("(raw tree=[])")), (2, 0));
    assert_eq!(refusal(&file("(raw tree=[01000001])")), (2, 1));
    assert_eq!(refusal(&file("(raw tree=[01000000 01000000])")), (2, 1));
    assert_eq!(oracle::listing(&file("(program)")), "R 01000000\n");
}

#[test]
fn r04_strings_that_are_no_names() {
    assert!(
        program_of("(strings \"\" \"a b\") (program (Data [{text=\"\"}]))")
            .rows
            .is_empty()
    );
    // Used as a name: the word that names it.
    let used = file("(raw ends=[0] tree=[01000001 41000000 02000000])");
    assert_eq!(refusal(&used), (2, 2));
}

#[test]
fn r05_depth() {
    // The last expression of so many stands at depth 1 + parens + 1.
    let nested = |parens: usize, last: &str| {
        let open = "17000000 ".repeat(parens);
        file(&format!(
            "(raw ends=[1] bytes=\"X\" tree=[01000001 42000000 02000000 00000000 {open} {last}])"
        ))
    };
    assert!(analyse_file(&nested(98, "11000000 02000000")).is_ok());
    assert_eq!(refusal(&nested(99, "11000000 02000000")), (3, 103));
    assert_eq!(refusal(&nested(99, "11000001 02000000")), (2, 103));
    assert_eq!(refusal(&nested(99, "18000000 00000000")), (2, 103));
    assert_eq!(refusal(&nested(99, "")), (2, 103));
    // A literal is no level of its own; an empty list is nothing deeper.
    assert!(analyse_file(&nested(98, "10000000 18000000 00000007")).is_ok());
    assert!(analyse_file(&nested(98, "15000000 02000000 01000000")).is_ok());
    assert_eq!(
        refusal(&nested(98, "15000000 02000000 01000001 11000000 02000000")).0,
        3
    );
    // Statements: any line at depth 101 is a right head.
    let blocks = |n: usize, last: &str| {
        let open = "49000001 00000000 03000000 03000000 01000001 ".repeat(n);
        file(&format!("(raw tree=[01000001 {open} {last}])"))
    };
    assert!(analyse_file(&blocks(99, "6b123456")).is_ok());
    assert_eq!(refusal(&blocks(100, "6b123456")), (3, 501));
    assert_eq!(refusal(&blocks(100, "76000000")), (2, 501));
    assert_eq!(refusal(&blocks(99, "69000000 11000000")), (3, 497));
    assert!(
        analyse_file(&blocks(99, "69000000 00000000")).is_ok(),
        "RANDOMIZE without a seed"
    );
}

#[test]
fn r06_loose_words() {
    let a = program("(OptionBase 16777215) (DefType ty=Long ranges=[{first=Z last=A}])");
    assert_eq!(rows(&a, 143), [[0, 0x00ff_ffff, 0, 0, 0]]);
    program("(Dim decls=[{name=A lowers=[1 - 2]}])");
    for op in ["Add", "Imp", "Pow", "Eq"] {
        let clause = format!("[{{clauses=[(Compare {op} 1)]}}]");
        program(&format!("(SelectCase expr=1 cases={clause})"));
    }
    assert_eq!(folded("0.1!"), single(0.1));
}

#[test]
fn r07_erased() {
    let with = |erased: &str| {
        file(&format!(
            "(raw ends=[1 2 3] bytes=\"AB~\" tree=[01000000] erased={erased})"
        ))
    };
    assert!(analyse_file(&with("[0 1]")).is_ok());
    for bad in ["[1 0]", "[1 1]", "[2]", "[3]", "[33554432]"] {
        assert_eq!(refusal(&with(bad)), (4, 0));
    }
}

#[test]
fn r08_plain_numbers_in_rows() {
    let a = program(
        "(TypeDef line=4 name=T fields=[{name=X ty=(FixedString 9)} {name=Y ty=Long}])
         (Dim decls=[{name=V ty=(Record T)}]) (Const name=S value=\"V\")",
    );
    // Strings: S T V X Y.
    assert_eq!(rows(&a, 130), [[0, 3, 4, 0, 0]]);
    assert_eq!(rows(&a, 131), [[0, 3, 0, 44, 9], [1, 4, 2, 41, 0]]);
    assert_eq!(rows(&a, 132), [[0, 28, 2, 0, 0]]);
    assert_eq!(rows(&a, 134), [[0, 45, 1, 0, 0]]);
}

#[test]
fn r09_dim_shared() {
    let a = program("(Dim decls=[{name=A} {name=A dimensions=[1]}] shared=yes)");
    assert_eq!(rows(&a, 137), [[0; 5], [1, 0, 0, 0, 0]]);
}

#[test]
fn r10_redefined_procedure() {
    let a = program(
        "(Sub line=1 name=F params=[{name=P array=yes} {name=Q ty=Long}] is_static=yes)
         (Function line=2 name=F params=[{name=P array=yes}] def_fn=yes body=[
            (Let name=P indices=[1 2] value=0) (Static [{name=S}])])
         (Sub line=3 name=F)",
    );
    assert_eq!(codes(&a), [25, 25]);
    assert_eq!(rows(&a, 135), [[0, 0, 3, 0, 0]]);
    assert!(rows(&a, 136).is_empty());
    assert_eq!(rows(&a, 133), [[1, 2, 2, 1, 0]]);
    assert_eq!(kinds(&a), [133, 134, 135, 139, 140, 141, 142]);
}

#[test]
fn r11_duplicate_label() {
    let a = program(
        "(Label line=1 10) (LabelName line=1 L) (Sub name=F body=[(Label line=2 10) (LabelName line=3 L)])",
    );
    assert_eq!(codes(&a), [1, 2]);
    assert_eq!(rows(&a, 128), [[0, 1, 0, 0, 0]]);
    assert_eq!(rows(&a, 129), [[0, 1, 0, 0, 0]]);
}

#[test]
fn r12_inner_type_as_it_was() {
    let a = program(
        "(TypeDef name=T fields=[{name=X ty=Long}]) (TypeDef name=U fields=[{name=X ty=(Record T)} {name=Y ty=Long}])
         (TypeDef name=T fields=[{name=X ty=Long} {name=Y ty=Long} {name=Z ty=Long}])",
    );
    assert_eq!(rows(&a, 130), [[0, 3, 0, 0, 0], [0, 2, 0, 0, 0]]);
}

#[test]
fn r13_shared_and_static() {
    let a = program("(Shared line=1 []) (Static line=2 [{name=A} {name=B}])");
    assert_eq!(
        messages(&a),
        [
            "SHARED belongs inside a SUB or FUNCTION",
            "STATIC belongs inside a SUB or FUNCTION"
        ]
    );
    assert!(a.rows.is_empty());
    let a = program(
        "(Sub name=F body=[(Shared []) (Static []) (Shared [{name=A ty=Long}])
            (Static [{name=B ty=Long} {name=C array=yes ty=Long} {name=B array=yes}])])",
    );
    assert_eq!(kinds(&a), [134, 135, 138, 139, 139]);
    assert_eq!(rows(&a, 139), [[4, 3, 0, 0, 0], [4, 2, 0, 0, 0]]);
}

#[test]
fn r14_no_dimensions() {
    let a = program("(Dim line=1 decls=[{name=A dimensions=[]}])");
    assert_eq!(codes(&a), [18]);
    assert_eq!(rows(&a, 133), [[0, 0, 1, 0, 0]]);
    let a = program(
        "(Dim decls=[{name=A dimensions=[1] lowers=[0]}]) (Redim decls=[{name=A dimensions=[1]}])",
    );
    assert_eq!(rows(&a, 133), [[0, 1, 0, 1, 0]]);
}

#[test]
fn r15_option_base() {
    let a = program("(Dim decls=[{name=A dimensions=[1]}]) (OptionBase 1) (OptionBase 7)");
    assert_eq!(codes(&a), [9, 8]);
    assert_eq!(rows(&a, 143), [[0, 7, 0, 0, 0]]);
}

#[test]
fn r16_notes() {
    let a = program(
        "(Const name=K value=1) (Const line=9 name=K value=1) (Sub name=F) (Sub line=9 name=F)",
    );
    assert_eq!(
        messages(&a),
        ["'K' is already defined", "'F' is already defined"]
    );
    assert_eq!(a.diagnostics[0].note, None);
    assert_eq!(
        a.diagnostics[1].note.as_deref(),
        Some("previous definition is on line 0")
    );
    let a =
        program("(Function name=F params=[{name=P ty=(FixedString 3)}] ret_ty=(FixedString 4))");
    let notes: Vec<_> = a.diagnostics.iter().map(|d| d.note.as_deref()).collect();
    assert_eq!(
        notes,
        [Some("declare it P AS STRING"), Some("declare it AS STRING")]
    );
}

#[test]
fn r17_names_in_messages() {
    let a = program(
        "(TypeDef name=T fields=[{name=X ty=Long} {name=X ty=Long} {name=Y ty=(Record U)}])
         (Dim decls=[{name=V ty=(Record U)}])
         (Sub name=F params=[{name=P ty=(FixedString 3)} {name=Q ty=(Record U)}])",
    );
    let wanted = [
        "field 'X' is declared twice in TYPE 'T'",
        "field 'Y' uses undefined TYPE 'U'",
        "undefined TYPE 'U'",
        "parameter 'P' of 'F' is declared AS STRING * 3, but a parameter must be a variable-length string",
        "parameter 'Q' uses undefined TYPE 'U'",
    ];
    assert_eq!(messages(&a), wanted);
}

#[test]
fn r18_erased_and_redimensioned() {
    let dims = "(Dim decls=[{name=A dimensions=[1]}]) (Dim decls=[{name=A dimensions=[1]}])
                (Dim decls=[{name=A dimensions=[1 2]}])
                (Sub name=F body=[(Dim decls=[{name=A dimensions=[1]}]) (Dim decls=[{name=A dimensions=[1 2]}])])";
    let a = program_of(&format!("(erased A) (program {dims})"));
    assert_eq!(messages(&a), ["REDIM of 'A' must keep its 1 dimension"; 2]);
    assert_eq!(codes(&program(dims)), [19, 19, 19]);
}

#[test]
fn r19_rejected_field_may_come_again() {
    let a = program(
        "(TypeDef name=T fields=[{name=X ty=(Record NONE)} {name=X ty=(Record T)} {name=X ty=Long} {name=X ty=(Record T)}])",
    );
    assert_eq!(codes(&a), [7, 6, 5]);
    assert_eq!(rows(&a, 131).len(), 1);
}

#[test]
fn r20_suffixes() {
    let typed = "(TypeDef name=REC)";
    let a = program(&format!(
        "{typed} (Function name=F% ret_ty=(Record REC)) (Function name=F# ret_ty=(Record REC))"
    ));
    assert_eq!(
        messages(&a),
        ["'F%' is declared AS a different type than its name's suffix"]
    );
    let a = program(&format!(
        "{typed} (Dim decls=[{{name=A% ty=(Record REC)}} {{name=B% ty=Long}}])"
    ));
    assert_eq!(
        messages(&a),
        ["'B%' is declared AS a different type than its name's suffix"]
    );
}

#[test]
fn r21_codes_17_22_26() {
    let a = program(
        "(Redim decls=[{name=A dimensions=[1] ty=Long}]) (Redim decls=[{name=A dimensions=[1] ty=Long}])",
    );
    assert!(codes(&a).is_empty());
    let a = program("(Sub name=F params=[{name=P array=yes ty=(Record NONE)} {name=Q array=yes ty=(FixedString 1)}
                                         {name=R byval=yes ty=(FixedString 1)} {name=S ty=(FixedString 0)}])");
    assert_eq!(codes(&a), [22, 22]);
    assert_eq!(rows(&a, 134).len(), 2);
    assert!(codes(&program("(Function name=F ret_ty=(FixedString 0))")).is_empty());
}

#[test]
fn r22_option_base_after_arrays() {
    for array in [
        "(Sub name=F body=[(Dim decls=[{name=A dimensions=[1]}])])",
        "(Sub name=F params=[{name=A array=yes}])",
    ] {
        assert_eq!(codes(&program(&format!("{array} (OptionBase 1)"))), [9]);
        assert_eq!(
            codes(&program(&format!("(OptionBase 1) {array} (OptionBase 1)"))),
            [8]
        );
    }
    assert!(codes(&program("(Dim decls=[{name=A ty=Long}]) (OptionBase 1)")).is_empty());
}

#[test]
fn r23_order() {
    let a = program(
        "(Dim decls=[{name=A% dimensions=[1] ty=Long}])
         (Dim decls=[{name=A% dimensions=[] ty=Long} {name=B% ty=(Record NONE)}])
         (Sub name=G body=[(Function name=F% params=[{name=P ty=(FixedString 2)} {name=Q ty=(Record NONE)}]
                              ret_ty=(FixedString 3) body=[(Label 1) (Label 1)])
                           (Function name=F%)])",
    );
    assert_eq!(
        codes(&a),
        [15, 15, 17, 18, 19, 16, 15, 22, 23, 24, 26, 1, 24, 25]
    );
}

#[test]
fn r24_collisions() {
    let a = program(
        "(Dim line=1 decls=[{name=LEN dimensions=[1]}]) (Redim line=2 decls=[{name=LEN dimensions=[1]}])
         (Sub line=3 name=F body=[(Dim line=4 decls=[{name=LEN dimensions=[1]} {name=MID$ dimensions=[1]}])])
         (Function line=5 name=MID$)",
    );
    assert_eq!(codes(&a), [28, 28, 27]);
    let lines: Vec<u32> = a.diagnostics.iter().map(|d| d.line).collect();
    assert_eq!(lines, [2, 4, 4]);
    assert_eq!(
        a.diagnostics[2].note.as_deref(),
        Some("the FUNCTION is on line 5")
    );
}

#[test]
fn r25_number_9() {
    let doubles = |n: usize| {
        (0..n)
            .map(|i| format!("{{name=F{i} ty=Long}} "))
            .collect::<String>()
    };
    let of = |n: usize| {
        (0..n)
            .map(|i| format!("{{name=F{i} ty=(Record T)}} "))
            .collect::<String>()
    };
    let base = format!("(TypeDef name=T fields=[{}])", doubles(257));
    let a = program(&format!("{base} (TypeDef name=U fields=[{}])", of(255)));
    assert!(rows(&a, 130).iter().any(|r| r[1] == 65_535));
    let over = format!(
        "(program {base} (TypeDef name=U fields=[{} {{name=Z ty=Long}}]))",
        of(255)
    );
    assert_eq!(refusal(&file(&over)), (9, 0));
    // Rejected fields take no words.
    program(&format!(
        "{base} (TypeDef name=U fields=[{} {{name=F0 ty=Long}}])",
        of(255)
    ));
    // Diagnostics past the last: 8 before that field, 9 where they come after it.
    let full = "(Label 1) ".repeat(2_049);
    let rejected = "{name=F0 ty=Long}";
    let after = format!(
        "(program {full} {base} (TypeDef name=U fields=[{} {{name=Z ty=Long}} {rejected}]))",
        of(255)
    );
    assert_eq!(refusal(&file(&after)).0, 9);
    let before = format!(
        "(program {full} {base} (TypeDef name=U fields=[{} {rejected} {{name=Z ty=Long}}]))",
        of(255)
    );
    assert_eq!(refusal(&file(&before)).0, 8);
}

#[test]
fn r26_strings_fold() {
    let sum = "(Binary op=Add left=30000 right=30000)";
    assert_eq!(binary("Add", "\"A\"", sum), Err(11));
    assert_eq!(binary("Add", "\"A\"", "1"), Err(12));
    assert_eq!(binary("Add", "\"A\"", "\"B\""), Err(12));
    assert_eq!(binary("Add", "X", sum), Err(12));
}

#[test]
fn r27_const_of_itself() {
    let a = program("(Const name=K value=1) (Const name=K value=(Binary op=Add left=K right=1)) (Sub name=F body=[
                     (Const name=K% value=(Binary op=Add left=K right=10))])");
    assert_eq!(codes(&a), [10]);
    assert_eq!(rows(&a, 132), [[0, 24, 2, 0, 0], [0, 24, 12, 0, 0]]);
    // One that doesn't fold leaves the earlier row.
    let a = program("(Const name=K value=1) (Const name=K value=X)");
    assert_eq!(codes(&a), [10, 12]);
    assert_eq!(rows(&a, 132), [[0, 24, 1, 0, 0]]);
}

#[test]
fn r28_integer_2147483648() {
    let big = "(Unary op=Neg operand=-2147483648)";
    assert_eq!(folded(big), integer(2_147_483_648));
    assert_eq!(binary("IntDiv", big, "1"), Err(11));
    assert_eq!(binary("Mod", big, "1"), Err(11));
    assert_eq!(binary("Sub", big, "1"), long(2_147_483_647));
    assert_eq!(
        folded(&format!("(Unary op=Neg operand={big})")),
        integer(-2_147_483_648)
    );
}

#[test]
fn r29_floats_stay_finite() {
    for (op, l, r) in [
        ("Add", "1e308", "1e308"),
        ("Mul", "1e308!", "10"),
        ("Mul", "1e200", "1e200"),
        ("Div", "1e308", "1e-10"),
        ("Add", "3.4028235677973366e38!", "0"),
    ] {
        assert_eq!(binary(op, l, r), Err(11), "{op} {l} {r}");
    }
    assert_eq!(
        binary("Add", "3.4028235677973362e38!", "0"),
        single(f64::from(f32::MAX))
    );
    // Nothing narrows a negated Single.
    assert_eq!(negated("1e300!"), single(-1e300));
}

#[test]
fn the_documents_edges() {
    assert_eq!(binary("Add", "30000", "2767"), integer(32_767));
    assert_eq!(binary("Add", "30000", "2768"), Err(11));
    assert_eq!(negated("-32768"), integer(32_768));
    assert_eq!(negated("-2147483648&"), Err(11));
    assert_eq!(binary("IntDiv", "7", "0.5"), Err(12));
    assert_eq!(binary("IntDiv", "7", "1.5"), long(3));
    assert_eq!(binary("IntDiv", "2147483647.5", "1"), Err(11));
    assert_eq!(binary("IntDiv", "-2147483648.5", "1"), long(-2_147_483_648));
    assert_eq!(binary("IntDiv", "-2147483648", "-1"), Err(11));
    assert_eq!(binary("Mod", "-2147483648", "-1"), long(0));
    let sum = "(Binary op=Add left=30000 right=30000)";
    assert_eq!(folded(&format!("(Unary op=Not operand={sum})")), Err(12));
    assert_eq!(binary("Eq", "1", sum), Err(11));
    assert_eq!(binary("Add", "16777217&", "1.0!"), single(16_777_218.0));
    assert_eq!(
        binary("IntDiv", "1e10", "0"),
        Err(11),
        "range before the zero divisor"
    );
    assert_eq!(binary("Div", "1", "0"), Err(12));
    assert_eq!(binary("Div", "1", "4"), float(0.25));
    assert_eq!(
        binary("Add", "32768", "1"),
        long(32_769),
        "Integer kind outside 16 bits counts as Long"
    );
    let text = "(program (Sub name=F params=[{name=P}]) (Call name=F args=[(Paren (Paren X))]))";
    assert!(resolved(text).contains("args=[(Paren X)]"));
}

#[test]
fn r30_empty_lists() {
    assert_eq!(ranked("(Print items=[(Expr (FnCall name=P))])"), (1, true));
    assert_eq!(ranked("(Let name=P indices=[] value=0)"), (0, false));
    assert_eq!(ranked("(Input vars=[{name=P indices=[]}])"), (0, false));
    assert_eq!(ranked("(Read [{name=P indices=[]}])"), (0, false));
    assert_eq!(ranked("(LineInput var={name=P indices=[]})"), (0, false));
    assert_eq!(ranked("(Swap {name=X} {name=P indices=[]})"), (0, false));
    assert_eq!(
        ranked("(SetField target={name=P indices=[1 2]} value=0)"),
        (1, true)
    );
    assert_eq!(
        ranked(
            "(Let name=P value=(Paren (FnCall name=X args=[(Paren (FnCall name=P args=[1 2]))])))"
        ),
        (2, false)
    );
}

#[test]
fn r31_walk_order() {
    let uses = [1, 2, 3, 4].map(|n| format!("(FnCall name=P args=[{}])", "0 ".repeat(n)));
    file_numbers_first(&uses);
    clauses_and_targets_first(&uses);
}

/// A use in a file number comes before those in the items and targets; one in USING before those in the items.
fn file_numbers_first([_, u2, u3, u4]: &[String; 4]) {
    assert_eq!(
        ranked(&format!(
            "(Print file_num={u2} items=[(Expr {u3})] using={u4})"
        )),
        (2, false)
    );
    assert_eq!(
        ranked(&format!("(Print items=[(Expr {u3})] using={u4})")),
        (4, false)
    );
    assert_eq!(
        ranked(&format!(
            "(Input vars=[{{name=X indices=[{u3}]}}] file_num={u2})"
        )),
        (2, false)
    );
    assert_eq!(
        ranked(&format!(
            "(LineInput var={{name=X indices=[{u3}]}} file_num={u2})"
        )),
        (2, false)
    );
}

/// A use in a clause comes before those in the bodies; a target before the uses in the statement.
fn clauses_and_targets_first([u1, u2, u3, u4]: &[String; 4]) {
    assert_eq!(
        ranked(&format!(
            "(SelectCase expr=0 cases=[{{clauses=[] body=[(Print items=[(Expr {u3})])]}} {{clauses=[(Value {u2})]}}])"
        )),
        (2, false)
    );
    assert_eq!(
        ranked(&format!(
            "(Input vars=[{{name=X indices=[{u3}]}} {{name=P indices=[1 2]}}] file_num={u4})"
        )),
        (2, false)
    );
    assert_eq!(
        ranked(&format!(
            "(Swap {{name=X indices=[{u3}]}} {{name=P indices=[{u1} 2]}})"
        )),
        (2, false)
    );
}

#[test]
fn r32_nested_procedures() {
    let inner = "(Sub name=G body=[(Let name=P indices=[1 2] value=0)])";
    assert_eq!(ranked(inner), (2, false));
    assert_eq!(ranked("(Call name=P args=[1 2])"), (1, true));
    assert_eq!(
        ranked("(Call name=P args=[(FnCall name=P args=[1 2 3])])"),
        (3, false)
    );
}

#[test]
fn r33_elements() {
    let dim = "(Dim decls=[{name=A dimensions=[1]} {name=F dimensions=[1]}]) (Function name=F params=[{name=X}])";
    let let_of = |e: &str| {
        let text = resolved(&format!("(program {dim} (Let name=X value={e}))"));
        text.split("value=")
            .nth(1)
            .expect("a LET")
            .trim()
            .trim_end_matches(')')
            .to_string()
    };
    assert_eq!(let_of("(FnCall name=A)"), "(ArrayAccess name=A");
    assert_eq!(
        let_of("(ArrayAccess name=F indices=[(Paren X)])"),
        "(ArrayAccess name=F indices=[X]"
    );
    assert_eq!(
        let_of("(FnCall name=F args=[(Paren X)])"),
        "(FnCall name=F args=[(Paren X)]"
    );
    assert_eq!(
        let_of("(FnCall name=A args=[(Paren X)])"),
        "(ArrayAccess name=A indices=[X]"
    );
    let call = resolved(&format!("(program {dim} (Call name=A args=[(Paren X)]))"));
    assert!(call.contains("(Call line=0 name=A args=[X])"));
}

#[test]
fn r34_arguments() {
    let procs = "(Sub name=F params=[{name=P} {name=Q byval=yes} {name=R array=yes} {name=S ty=(Record NONE)}])
                 (Declare name=G params=[{name=P}])";
    let all = "(Paren X) (Paren X) (Paren X) (Paren X) (Paren X)";
    let text = resolved(&format!(
        "(program {procs} (Call name=F args=[{all}]) (Call name=G args=[(Paren X)]))"
    ));
    assert!(text.contains("name=F args=[(Paren X) X X X X]"), "{text}");
    assert!(text.contains("name=G args=[X]"), "{text}");
    // The innermost procedure's scope alone; SHARED and DEF FN see the module's.
    let nested = "(Dim decls=[{name=M dimensions=[1]}])
        (Sub name=F body=[(Dim decls=[{name=A dimensions=[1]}])
            (Sub name=G body=[(Print items=[(Expr (FnCall name=A args=[1]))])])
            (Print items=[(Expr (FnCall name=M args=[1]))])])
        (Sub name=H body=[(Shared [{name=M array=yes}]) (Print items=[(Expr (FnCall name=M args=[2]))])])
        (Function name=FNX def_fn=yes body=[(Print items=[(Expr (FnCall name=M args=[3]))])])";
    let text = resolved(&format!("(program {nested})"));
    assert!(text.contains("(FnCall name=A args=[1])"));
    assert!(text.contains("(FnCall name=M args=[1])"));
    assert!(text.contains("(ArrayAccess name=M indices=[2])"));
    assert!(text.contains("(ArrayAccess name=M indices=[3])"));
    // ERASE has no effect of its own.
    let a = program(
        "(Dim decls=[{name=A dimensions=[1]}]) (Erase [A]) (Dim decls=[{name=A dimensions=[1]}])",
    );
    assert_eq!(codes(&a), [19]);
}
