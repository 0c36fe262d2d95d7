//! Puts the given Rust source where the crate includes it from: $CARVE_SRC, or ../../shared/docs/src seen from here.
//! The files are copied unchanged but for citations.rs: the last line of its `parse_key` is altered as document 02's W8 asks, and after its
//! end two lines are added, which declare the module `probe`. For the benchmark's bare annotation the statements by which
//! `render_refs_list` sorts the keys are copied into a function of their own.

use std::path::{Path, PathBuf};
use std::{env, fs};

const FILES: [&str; 5] = ["ast", "citations", "document_ids", "escape", "extension"];

/// The last line of `parse_key` as it is given, and as it is built: the marks at the key's end are left off, `_` is not.
const WHOLE_RUN: &str = "    Some((&text[start..end], end))\n";
const WITHOUT_MARKS: &str =
    "    let key = text[start..end].trim_end_matches(|c: char| !c.is_ascii_alphanumeric() && c != '_'); Some((key, start + key.len()))\n";

fn main() {
    let package = PathBuf::from(env::var("CARGO_MANIFEST_DIR").unwrap());
    let source = match env::var_os("CARVE_SRC") {
        Some(folder) => PathBuf::from(folder),
        None => package.join("../../shared/docs/src"),
    };
    let out = PathBuf::from(env::var("OUT_DIR").unwrap()).join("carve");
    fs::create_dir_all(&out).unwrap();
    let mut modules = String::new();
    for name in FILES {
        let to = out.join(name).with_extension("rs");
        copy(&source.join(name).with_extension("rs"), &to, &package);
        modules.push_str(&format!("#[path = {to:?}]\npub mod {name};\n"));
    }
    let citations = fs::read_to_string(out.join("citations.rs")).unwrap();
    fs::write(out.join("reference_order.rs"), reference_order(&citations)).unwrap();
    // `mod checked;` of ast.rs is looked for beside it.
    fs::copy(package.join("src/stubs/checked.rs"), out.join("checked.rs")).unwrap();
    fs::write(out.join("modules.rs"), modules).unwrap();
    println!("cargo:rerun-if-env-changed=CARVE_SRC");
    println!("cargo:rerun-if-changed=build.rs");
    println!("cargo:rerun-if-changed=src/stubs/checked.rs");
}

fn copy(from: &Path, to: &Path, package: &Path) {
    println!("cargo:rerun-if-changed={}", from.display());
    let mut text =
        fs::read_to_string(from).unwrap_or_else(|e| panic!("{}: {e}; set CARVE_SRC to the folder of citations.rs", from.display()));
    if from.file_name().unwrap() == "citations.rs" {
        text = without_marks(&text);
        // for the test that compares the copy with the given file
        println!("cargo:rustc-env=CARVE_CITATIONS={}", from.display());
        let probe = package.join("src/probe.rs");
        text.push_str(&format!("\n#[path = {probe:?}]\npub mod probe;\n"));
    }
    fs::write(to, text).unwrap();
}

// The given citations.rs with the last line of `parse_key` altered. Where that line does not stand there exactly once, the build stops.
fn without_marks(given: &str) -> String {
    let (before, after) = given.split_once("fn parse_key(").expect("citations.rs has parse_key");
    let (body, rest) = after.split_once("\n}\n").expect("parse_key ends");
    let body = format!("{body}\n");
    assert!(body.ends_with(WHOLE_RUN), "parse_key does not end with {WHOLE_RUN:?}");
    assert_eq!(given.matches(WHOLE_RUN).count(), 1, "citations.rs does not have {WHOLE_RUN:?} exactly once");
    format!("{before}fn parse_key({}}}\n{rest}", body.replace(WHOLE_RUN, WITHOUT_MARKS))
}

// The function `sorted_keys`: what `render_refs_list` does before it writes. Where its statements are not found the function stops.
fn reference_order(citations: &str) -> String {
    const FIRST: &str = "let mut keys = order.to_vec();";
    const AFTER: &str = "    let tag =";
    let found = citations.split_once("fn render_refs_list(").and_then(|(_, after)| {
        let (_, body) = after.split_once(FIRST)?;
        Some(body.split_once(AFTER)?.0)
    });
    let body = match found {
        Some(statements) => format!("    {FIRST}{statements}    keys\n"),
        None => "    unimplemented!(\"the sort of render_refs_list was not found\")\n".to_string(),
    };
    format!("fn sorted_keys(mode: CitationMode, order: &[String], defs: &BTreeMap<String, Def>) -> Vec<String> {{\n{body}}}\n")
}
