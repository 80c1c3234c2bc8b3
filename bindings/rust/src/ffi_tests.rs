//! What `ffi` declares is what the header says.

use super::{Outcome, CALLS};
use std::fs;
use std::io::Write;
use std::mem::{size_of, size_of_val};
use std::path::{Path, PathBuf};
use std::process::{Command, Stdio};
use std::ptr::addr_of;

fn include() -> PathBuf {
    Path::new(env!("CARGO_MANIFEST_DIR")).join("../../include")
}

/// The header's calls: each name, and its parameters with their types.
fn declared() -> Vec<(String, Vec<String>)> {
    let header = fs::read_to_string(include().join("calmizsed.h")).expect("the header");
    header
        .split("\nint32_t ")
        .skip(1)
        .map(|call| {
            let (name, behind) = call.split_once('(').expect("parameters begin");
            let (parameters, _) = behind.split_once(')').expect("parameters end");
            let words = |one: &str| one.split_whitespace().collect::<Vec<_>>().join(" ");
            (name.to_owned(), parameters.split(',').map(words).collect())
        })
        .collect()
}

/// The parameters in C for an argument here.
fn in_c(&(name, kind): &(&str, &str)) -> Vec<String> {
    match kind {
        "octets" => vec![
            format!("const uint8_t *{name}"),
            format!("size_t {name}_length"),
        ],
        "i32" | "i64" => vec![format!("int{}_t {name}", &kind[1..])],
        other => panic!("no type of C for {other}"),
    }
}

#[test]
fn the_declarations_are_those_of_the_header() {
    let behind = [
        "uint8_t *out",
        "size_t out_length",
        "struct calmizsed_outcome *outcome",
    ];
    let parameters = |arguments: &[(&str, &str)]| -> Vec<String> {
        let behind = behind.iter().map(|&one| one.to_owned());
        arguments.iter().flat_map(in_c).chain(behind).collect()
    };
    let here: Vec<_> = CALLS
        .iter()
        .map(|&(symbol, arguments)| (symbol.to_owned(), parameters(arguments)))
        .collect();
    assert_eq!(here, declared());
}

/// What a C compiler has to find true of the struct.
fn layout() -> String {
    let outcome = Outcome::new();
    let begin = addr_of!(outcome) as usize;
    macro_rules! fields {
        ($($field:ident)*) => {
            [$((
                stringify!($field),
                addr_of!(outcome.$field) as usize - begin,
                size_of_val(&outcome.$field),
            )),*]
        };
    }
    let fields = fields!(status check written place has_signing_time signing_time last_time name);
    let claim = |of: &str, count: usize| format!("_Static_assert({of} == {count}, \"\");\n");
    let claims = fields.map(|(field, offset, size)| {
        claim(
            &format!("offsetof(struct calmizsed_outcome, {field})"),
            offset,
        ) + &claim(
            &format!("sizeof ((struct calmizsed_outcome *)0)->{field}"),
            size,
        )
    });
    let size = claim("sizeof(struct calmizsed_outcome)", size_of::<Outcome>());
    format!("#include <calmizsed.h>\n{}{size}", claims.concat())
}

#[test]
fn the_outcome_has_the_layout_that_a_c_compiler_gives_it() {
    let mut compiler = Command::new("cc")
        .args(["-x", "c", "-std=c11", "-fsyntax-only", "-I"])
        .args([include().as_os_str(), "-".as_ref()])
        .stdin(Stdio::piped())
        .spawn()
        .expect("a C compiler");
    let mut input = compiler.stdin.take().expect("its input");
    input.write_all(layout().as_bytes()).expect("writes");
    drop(input);
    assert!(compiler.wait().expect("its end").success());
}
