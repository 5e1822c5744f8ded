//! The program `erase`: `src/proved` is its output, in which each rule replaces something, and unsupported source is an
//! error.
#![cfg(not(target_family = "wasm"))]

use std::fs;
use std::path::Path;
use std::process::{Command, Output};

const FOLDER: &str = env!("CARGO_MANIFEST_DIR");

/// Runs the program.
fn erase(argument: &Path) -> Output {
    let program = format!("{FOLDER}/erase");
    Command::new("python3")
        .arg(program)
        .arg(argument)
        .output()
        .expect("python3")
}

/// This compares the number of replacements of each rule, too.
#[test]
fn the_generated_source() {
    let output = erase(Path::new("--check"));
    assert!(
        output.status.success(),
        "{}",
        String::from_utf8_lossy(&output.stdout)
    );
}

/// Source that is unsupported, and the error that the program reports.
#[rustfmt::skip]
const ERRORS: &[(&str, &str)] = &[
    // Syntax by which code would be deleted as part of a clause or of a comment, or a proof would be kept as code.
    ("fn f()\n    requires x + 1\n{}", "the clause requires x + 1"),
    ("fn f()\n    ensures { x", "the clause ensures { x"),
    ("fn f()\n    ensures { a -- {\n    }\n{\n}", "the clause ensures { a -- @"),
    ("fn f()\n    ensures { g '{' }\n{\n}", "the clause ensures { g '@"),
    ("fn f()\n    ensures { a }\n        { if x { g(); } }", "the clause ensures @\n        @"),
    ("fn f() {\n    ghost\n    if x {\n        g();\n    }\n}", "the ghost item ghost"),
    ("trait T {\n    ghost a: { B } = { c };\n\n    fn f();\n}", "the ghost item ghost a: @ = @;"),
    ("fn f() {\n    #[tactic(auto)] if x {\n        g();\n    }\n}", "the attribute #@ if x @"),
    ("impl Model for S {} fn f() {}", "the model impl Model for S @ fn f@ @"),
    ("impl A {\n    /// F.\n    #[inline]\n    fn f<O: Output>(o: O) {\n        g();\n    }\n}\n\nimpl B {\n    fn g() {\n    }\n\n    fn h() {}\n}", "the output O: Output>"),
    ("fn f(&mut self) {\n    /* no ghost */\n    if self.is_full() {\n        return;\n    }\n}", "the form /*"),
    ("fn f() -> &str {\n    r\"\\\"\n}", "the form r\""),
    ("fn f() -> &[u8] {\n    br#\"\"ghost;\"#\n}", "the form br#\""),
    ("fn f(r#ghost: u8) {}", "the form r#"),
    ("fn f() {\n    g(c\"{\");\n}", "the form c\""),
    // A line of a string that would be taken for a comment: what follows the string would not be checked.
    ("const A: &str = \"a\n    // b\"; drop(c);\nfn f() {}", "the form \"a\n    //"),
    ("const A: &str = \"a\n\n\nb\";", "a rule does not fit: \"a\n\nb\""),
    // Names that rules replace, or whose implementations are deleted.
    ("mod const_hex {}", "the form mod const_hex"),
    ("use a::{b as const_hex_arch};", "the form as const_hex_arch"),
    ("enum std {}", "the form enum std"),
    ("struct S;\n\nuse a::{b as Model};\n\nimpl Model for S {}", "the form as Model"),
    ("trait Model: Clone {\n    fn f(&self);\n}\n\nimpl Model for u8 {\n    fn f(&self) {}\n}", "the form trait Model"),
    // What has another meaning in Rust, or is not known.
    ("#[no_mangle]\nfn f() {}", "the attribute #[no_mangle]"),
    ("#[derive(Hash)]\nstruct S;", "the attribute #[derive(Hash)]"),
    ("fn f() {\n    invariant { x };\n}", "the word invariant outside of a contract"),
    ("fn f() {\n    g(rt);\n}", "the runtime: rt"),
    // A method, also one with the name of a function of the source, which has a `fill` and a `check`.
    ("fn f(x: &[u8]) {\n    x.rotate_left(1);\n}", "the call .rotate_left"),
    ("fn f(x: &mut [u8]) {\n    x.fill(1);\n}", "the call .fill"),
    // A function by a path: `char::from` is known, and the source has a `from` of its own.
    ("fn f(x: u8) -> u64 {\n    u64::max(x, 1)\n}", "the call u64::max"),
    ("fn f(x: u8) {\n    Box::new(x);\n}", "the call Box::new"),
    // A reader, which only the other package may call.
    ("fn f(x: &mut R) {\n    x.read(y);\n}", "the call .read"),
    ("fn f(x: u8) {\n    std::mem::drop(x);\n}", "the call mem::drop"),
    ("fn f<K: Kernel>() {\n    K::is_fast::<8>();\n}", "the call K::is_fast"),
    ("fn f(x: u8) {\n    drop(x);\n}", "the call drop"),
    ("fn f() {\n    println!(\"x\");\n}", "the call println!"),
    ("fn f() {\n    let x = dbg!(1);\n}", "the call dbg!"),
    // A call after a range, with a type in brackets, after a quotation mark, and of a function as a value.
    ("fn f(x: u8) {\n    for _ in 0..drop(x) {}\n}", "the call drop"),
    ("fn f(x: u8) {\n    x.rotate_left::<(u8, u8)>(1);\n}", "the call .rotate_left"),
    ("fn f(x: u8) {\n    g(b'\"', drop(x), \"\");\n}", "the call g"),
    ("fn f(x: u8) {\n    let g = u8::is_ascii_hexdigit;\n}", "a function as a value: u8::is_ascii_hexdigit"),
    ("fn f(x: u8) {\n    (x)(1);\n}", "a function as a value: )("),
    // What Rattle and Rust read in different ways.
    ("fn f() {\n    for x in 250u8.. {}\n}", "a range without an end: 8.. {"),
    ("fn f() {\n    let x = (250u8..);\n}", "a range without an end: 8..)"),
    ("fn f() {\n    for x in [250u8..] {}\n}", "a range without an end: [250u8..]"),
    ("fn f() {\n    S { a: 1, ..v[9] };\n}", "the other fields of a struct: { a: 1, ..v[9] }"),
    ("fn f(x: u64) -> usize {\n    x as usize\n}", "a cast: as u"),
    ("fn f(x: u64) -> usize {\n    x as (usize)\n}", "a cast: as ("),
    ("fn f() {\n    <T>::drop(1);\n}", "a type in brackets before a name: <T>::drop"),
];

/// The same, with the path of a module whose package or rules make it an error.
#[rustfmt::skip]
const ERRORS_IN: [(&str, &str, &str); 4] = [
    ("hexfilter/unknown", "fn f(x: &mut D) {\n    x.next_digits(y);\n}", "the call .next_digits"),
    ("error", "fn f(x: E) {\n    match x {\n        E::Odd | E::NoMemory => 1,\n    }\n}", "a rule does not fit: NoMemory"),
    ("error", "const ALL: [E; 2] = [\n    E::Odd,\n    NoMemory,\n];", "a rule does not fit: NoMemory"),
    ("error", "fn f() -> &str {\n    \"expected W, not <W>\"\n}", "a rule does not fit: \"expected 'w, not <'w>\""),
];

#[test]
fn errors() {
    let anywhere = ERRORS
        .iter()
        .map(|(source, error)| ("unknown", *source, *error));
    for (module_path, source, error) in anywhere.chain(ERRORS_IN) {
        let folder = Path::new(env!("CARGO_TARGET_TMPDIR")).join("src");
        // `rt` takes no file .rt outside of a crate.
        let file = folder.join(module_path).with_extension("txt");
        fs::create_dir_all(file.parent().unwrap()).unwrap();
        fs::write(&file, source).unwrap();
        let stderr = String::from_utf8(erase(&file).stderr).unwrap();
        assert_eq!(stderr, format!("erase: {error}\n"), "{source}");
    }
}
