//! What is planted in comments, texts, contracts and ghost items, and in crates that develop does not stand on: it is
//! not told. What cannot be read is an error.

mod copy;

use copy::Copy;

const SUMS: &str = "crates/sums/src/lib.rt";
const CLEAR: &str = "    sums[4..count + 4].fill(0);\n";

/// Plants lines in the function `clear` of sums and sees that nothing is told.
#[track_caller]
fn passed_in_clear(name: &str, lines: &str) {
    let copy = Copy::new(name);
    copy.replace(SUMS, CLEAR, &format!("{lines}\n{CLEAR}"));
    assert_eq!(copy.new_lines(), [""; 0]);
}

/// Plants text at the end of sums and sees that nothing is told.
#[track_caller]
fn passed_after_sums(name: &str, text: &str) {
    let copy = Copy::new(name);
    copy.append(SUMS, text);
    assert_eq!(copy.new_lines(), [""; 0]);
}

#[test]
fn comments() {
    passed_in_clear("line_comment", "// k % 2048 is reflected");
    passed_in_clear("end_comment", "let k = 4; // k % 2048 is reflected");
    passed_in_clear(
        "block_comment",
        "/* k % 2048 /* in it */ is\n   reflected */",
    );
    passed_after_sums("document", "/// k % 2048 is reflected\nfn f() {}\n");
}

#[test]
fn texts_and_characters() {
    passed_in_clear("text", "let text = \"a \\\" k % 2048 is reflected\";");
    passed_in_clear("bytes", "let text = b\"k % 2048\";");
    passed_in_clear("raw_text", "let text = r#\"a \" k % 2048 is reflected\"#;");
    passed_in_clear("character", "let sign = ['%', b'%'];");
}

#[test]
fn contracts() {
    let clauses = "requires { k % 7 ≡ 0 }\n    ensures* same { ⌜ result ≡ reflected k ⌝ }";
    passed_after_sums(
        "contract",
        &format!("fn f(k: usize) -> usize\n    {clauses}\n{{ k }}\n"),
    );
    passed_after_sums(
        "one_line",
        "fn f(k: usize) requires { k % 7 ≡ 0 } { drop(k) }\n",
    );
    let method = format!("    fn f(k: usize) -> usize\n    {clauses}\n    {{ k }}");
    passed_after_sums(
        "method_contract",
        &format!("impl Halves {{\n{method}\n}}\n"),
    );
    passed_after_sums(
        "trait_contract",
        &format!("trait T {{\n    fn f(k: usize) {clauses};\n}}\n"),
    );
    passed_in_clear(
        "closure_contract",
        "let f = |k: usize| requires { k % 7 ≡ 0 } { drop(k) };",
    );
}

#[test]
fn ghost_items() {
    passed_after_sums(
        "ghost_use",
        "ghost use Rattle.std.specs.Prelude.{◌%◌, reflected};\n",
    );
    let field = "struct S {\n    k: usize,\n    pub ghost even: { k % 2 ≡ 0 },\n}\n";
    passed_after_sums("ghost_field", field);
    let member = "trait T {\n    ghost even: { Self → Type 0 } = { λ k. k % 2 ≡ 0 };\n}\n";
    passed_after_sums("ghost_member", member);
    let member = "impl T for u8 {\n    ghost even = { λ k. k % 2 ≡ 0 };\n}\n";
    passed_after_sums("ghost_definition", member);
    let value = "fn f(k: usize) ghost top: { Below (k % 2) } requires { k < top } {}\n";
    passed_after_sums("ghost_value", value);
}

#[test]
fn what_borrows() {
    let lines =
        "let a = &count; for x in &a { f(x, &x, &&x); } let b: &usize = match &a { _ => &1 };";
    passed_in_clear("borrow", lines);
}

#[test]
fn a_function_by_its_declaration() {
    passed_after_sums("declaration", "pub fn reflected() {}\n");
}

#[test]
fn crates_that_develop_does_not_stand_on() {
    for name in ["curve", "reader", "bayer"] {
        let copy = Copy::new(&format!("crate_{name}"));
        let file = format!("crates/{name}/src/lib.rt");
        copy.append(
            &file,
            "fn f(k: usize) -> usize { positions::reflected(4, k % 7) }\n",
        );
        assert_eq!(copy.new_lines(), [""; 0]);
    }
}

#[test]
fn a_crate_that_is_not_in_crates_txt_is_an_error() {
    let copy = Copy::new("missing");
    copy.replace("crates.txt", "\nsums:", "\nsums: arrayvec");
    assert_eq!(copy.told(), Err("crates.txt has no arrayvec".to_string()));
}

#[test]
fn what_has_no_end_is_an_error() {
    let endings = [
        "/* one",
        "\"one",
        "r#\"one\"",
        "fn f() requires { k",
        "ghost use k",
        "}",
        "{",
    ];
    for (number, ending) in endings.iter().enumerate() {
        let copy = Copy::new(&format!("end_{number}"));
        copy.append(SUMS, ending);
        assert!(copy.told().is_err(), "{ending}");
    }
}
