// Copies the Rust source, unchanged, from BUD_SRC to OUT_DIR; nothing of it is committed.
use std::path::{Path, PathBuf};
use std::{env, fs, process};

const WHOLE: [(&str, &str); 4] = [
    ("src--bud-compiler--src--ast.rs.txt", "ast.rs"),
    ("src--bud-compiler--src--sema.rs.txt", "sema.rs"),
    ("src--bud-compiler--src--codegen.rs.txt", "codegen.rs"),
    ("src--bud-isa--src--lib.rs.txt", "isa.rs"),
];
const DRIVER: &str = "src--bud-compiler--src--lib.rs.txt";

fn main() {
    println!("cargo::rerun-if-env-changed=BUD_SRC");
    println!("cargo::rerun-if-env-changed=HASP_LIB");
    let out = PathBuf::from(env::var_os("OUT_DIR").unwrap());
    let src = source();
    for (from, to) in WHOLE {
        fs::write(out.join(to), read(&src, from)).unwrap();
    }
    fs::write(out.join("error.rs"), error_type(&read(&src, DRIVER))).unwrap();
    link();
}

// The folder of the Rust source: BUD_SRC, or the one that stands beside the repository.
fn source() -> PathBuf {
    let here = PathBuf::from(env::var_os("CARGO_MANIFEST_DIR").unwrap());
    env::var_os("BUD_SRC").map_or(here.join("../../shared/docs/src"), PathBuf::from)
}

fn read(src: &Path, name: &str) -> String {
    let path = src.join(name);
    println!("cargo::rerun-if-changed={}", path.display());
    fs::read_to_string(&path)
        .unwrap_or_else(|_| fail(&format!("no {} here: set BUD_SRC to the folder that holds the Rust source", path.display())))
}

// Of the driver only CompileError: lexer, parser and tracing are not at hand.
fn error_type(text: &str) -> String {
    let from = text.find("#[derive(Debug, Clone, PartialEq, Eq)]\npub enum CompileError");
    let to = text.find("pub fn compile(");
    match (from, to) {
        (Some(a), Some(b)) if a < b => text[a..b].to_string(),
        _ => fail(&format!("{DRIVER} has no CompileError between its markers: BUD_SRC holds another version")),
    }
}

// The static libraries to compare, if a feature asks for one.
fn link() {
    let asked = ["CHECK", "BUILD", "HOST", "TEXT", "WHY"].iter().any(|f| env::var_os(format!("CARGO_FEATURE_{f}")).is_some());
    if !asked {
        return;
    }
    let Some(named) = env::var_os("HASP_LIB") else {
        fail("a feature asks for a static library: set HASP_LIB to its file, or to several with a colon between")
    };
    for lib in env::split_paths(&named) {
        let lib = fs::canonicalize(&lib).unwrap_or_else(|e| fail(&format!("HASP_LIB: {}, seen from oracle/: {e}", lib.display())));
        println!("cargo::rerun-if-changed={}", lib.display());
        println!("cargo::rustc-link-arg-bins={}", lib.display());
    }
}

fn fail(line: &str) -> ! {
    println!("cargo::error={line}");
    process::exit(1)
}
