//! Remainders and calls of what reflects that are planted in a copy of the code: each is told, with its crate and
//! function.

mod copy;

use copy::Copy;

const SUMS: &str = "crates/sums/src/lib.rt";
const CLEAR: &str = "    sums[4..count + 4].fill(0);\n";

/// Plants lines in the function `clear` of sums and sees that the last of them is told.
#[track_caller]
fn told_in_clear(name: &str, lines: &[&str]) {
    let copy = Copy::new(name);
    let planted: String = lines.iter().map(|line| format!("    {line}\n")).collect();
    copy.replace(SUMS, CLEAR, &format!("{planted}{CLEAR}"));
    let wanted = format!("sums clear: {}", lines[lines.len() - 1]);
    let new = copy.new_lines();
    assert!(new.contains(&wanted), "{wanted} is not among {new:#?}");
}

/// Plants text at the end of sums and sees that the line is told.
#[track_caller]
fn told_after_sums(name: &str, text: &str, wanted: &str) {
    let copy = Copy::new(name);
    copy.append(SUMS, text);
    let new = copy.new_lines();
    assert!(
        new.iter().any(|line| line == wanted),
        "{wanted} is not among {new:#?}"
    );
}

#[test]
fn a_remainder_in_a_method_of_the_inner_loop() {
    let copy = Copy::new("method");
    let line = "four(self.work, self.east, self.south, self.north, k";
    let file = "crates/half_rows/src/lib.rt";
    copy.replace(file, &format!("{line})"), &format!("{line} % 2048)"));
    let itself = format!("half_rows SiteGradients::at: {line} % 2048)");
    let caller = "first_pass trial_row: let g = gradients.at(k);".to_string();
    let new = copy.new_lines();
    assert!(new.contains(&itself) && new.contains(&caller), "{new:#?}");
}

#[test]
fn a_remainder_in_a_closure() {
    let copy = Copy::new("closure");
    let file = "crates/differences/src/lib.rt";
    let line = "|k| straight_mean(gradients, l, green, below, above, k";
    copy.replace(file, &format!("{line}),"), &format!("{line} % count),"));
    let wanted = format!("differences enhance_line: {line} % count),");
    assert!(copy.new_lines().contains(&wanted));
}

#[test]
fn a_remainder_in_a_closure_with_a_contract() {
    let line = "{ k % 7 };";
    let clauses = "requires { k < 8 } ensures below { result < 7 }";
    let head = format!("let seventh = |k: usize| -> usize {clauses}");
    told_in_clear("closure_contract", &[&head, line]);
}

#[test]
fn a_remainder_in_a_nested_module() {
    let text = "
mod far {
    mod off {
        fn at(k: usize) -> usize {
            k%2048
        }
    }
}
";
    told_after_sums("module", text, "sums far::off::at: k%2048");
}

#[test]
fn a_remainder_in_a_nested_function() {
    let copy = Copy::new("nested");
    let line = "fn wrapped(k: usize) -> usize { k % 2048 }";
    copy.replace(SUMS, CLEAR, &format!("    {line}\n{CLEAR}"));
    let wanted = format!("sums clear::wrapped: {line}");
    assert_eq!(copy.new_lines(), [wanted]);
}

#[test]
fn a_remainder_in_the_impl_of_a_trait() {
    let text = "
impl<'a> Wrapped<'a> for Halves where Halves: Sized {
    fn wrapped(&self) -> usize
        ensures { result < 9 }
    {
        self.count % 9
    }
}
";
    told_after_sums("trait_impl", text, "sums Halves::wrapped: self.count % 9");
}

#[test]
fn a_remainder_in_the_body_that_a_trait_gives() {
    let text = "
trait Wrapped {
    fn count(&self) -> usize
        ensures { result < 9 };

    fn wrapped(&self) -> usize {
        self.count() % 9
    }
}
";
    told_after_sums("trait", text, "sums Wrapped::wrapped: self.count() % 9");
}

#[test]
fn a_remainder_in_a_macro_and_in_its_arguments() {
    told_in_clear("arguments", &["prove!(count % 2048 < 2048);"]);
    let text = "
macro_rules! wrapped {
    ($k:expr) => {
        $k % 2048
    };
}
";
    told_after_sums("macro", text, "sums wrapped: $k % 2048");
    told_in_clear("macro_clause", &["same!(requires { count % 2048 } {});"]);
}

#[test]
fn what_stands_on_more_lines_than_one() {
    told_in_clear("broken", &["let wrapped = count", "% 2048;"]);
    told_in_clear("broken_call", &["let place = positions", "::reflected"]);
}

#[test]
fn a_remainder_in_every_form() {
    let forms = [
        "let wrapped = count%2048;",
        "wrapped %= 2048;",
        "let wrapped = count.rem_euclid(2048);",
        "let wrapped = count.wrapping_rem(2048);",
        "let wrapped = count.checked_rem_euclid(2048);",
        "let wrapped = usize::overflowing_rem(count, 2048);",
        "let wrapped = Rem::rem(count, 2048);",
        "let wrapped = count.is_multiple_of(2048);",
        "let wrapped = count & 2047;",
        "let wrapped = places[0]&2047;",
        "wrapped &= 2047;",
    ];
    for (number, form) in forms.iter().enumerate() {
        told_in_clear(&format!("form_{number}"), &[form]);
    }
}

#[test]
fn what_reflects_in_every_form() {
    let forms = [
        "let place = positions::reflected(4, count);",
        "let place = reflected (4, count);",
        "let place = count.reflected(4);",
        "let place = Halves::of(shape, count).start;",
        "let places = counts.map(positions::row_above);",
        "let place = positions::edge_row;",
        "positions::row_near,",
    ];
    for (number, form) in forms.iter().enumerate() {
        told_in_clear(&format!("call_{number}"), &[form]);
    }
}

#[test]
fn what_reflects_by_another_name() {
    let line = "use positions::{half_count, reflected as place};";
    let told = format!("sums outside of functions: {line}");
    told_after_sums("renamed", &format!("{line}\n"), &told);
    let line = "const PLACE: fn(usize, usize) -> usize = positions::reflected;";
    let told = format!("sums outside of functions: {line}");
    told_after_sums("constant", &format!("{line}\n"), &told);
}

#[test]
fn a_file_in_a_folder() {
    let copy = Copy::new("folder");
    let text = "pub fn wrapped(k: usize) -> usize {\n    k % 2048\n}\n";
    copy.append("crates/sums/src/far/off.rt", text);
    assert_eq!(copy.new_lines(), ["sums wrapped: k % 2048"]);
}

#[test]
fn a_crate_that_crates_txt_gives_settings() {
    let copy = Copy::new("settings");
    copy.replace("crates.txt", "\nsums:", "\nsums may_abort=1 :");
    let line = "let wrapped = count % 7;";
    copy.replace(SUMS, CLEAR, &format!("    {line}\n{CLEAR}"));
    assert!(copy.new_lines().contains(&format!("sums clear: {line}")));
}

#[test]
fn behind_what_is_passed_over() {
    let line = "let wrapped = count % 2048;";
    let before = [
        "let quote = '\"';",
        "let quote = b'\\'';",
        "let brace = '{';",
        "let text = \"a \\\" /* {\";",
        "let text = r#\"a \" // {\"#;",
        "let text: &'static str = \"'\";",
        "/* one /* two */ */",
        "'rows: for k in 0..4 {}",
        "requires { k < 8 }",
        "requires* met { own k }",
        "ghost use Rattle.std.specs.Prelude.{◌%◌, ◌≡◌};",
        "ghost low: { k' ≤ top' },",
        "ghost low = { λ k. k };",
        "same!(fn wrapped);",
        "let f: fn(usize) -> usize = half;",
    ];
    for (number, passed) in before.iter().enumerate() {
        told_in_clear(&format!("behind_{number}"), &[passed, line]);
    }
}
