// Links the proved library: HASPNETTLE_LIB, or target/staticlib/libhost.a of the repository, which `.ci/staticlib host` makes.
use std::path::{Path, PathBuf};
use std::process::{self, Command};
use std::time::SystemTime;
use std::{env, fs};

fn main() {
    if env::var("CARGO_CFG_TARGET_ARCH").as_deref() != Ok("x86_64") {
        fail("the proved library is x86-64 code: build with --target x86_64-unknown-linux-gnu");
    }
    let here = PathBuf::from(env::var_os("CARGO_MANIFEST_DIR").unwrap());
    let library = match env::var_os("HASPNETTLE_LIB").map(PathBuf::from) {
        Some(given) if given.is_file() => given,
        Some(given) => fail(&format!("HASPNETTLE_LIB: {} is no file, seen from {}", given.display(), here.display())),
        None => made(here.parent().unwrap_or_else(|| fail("the crate's folder has none above it"))),
    };
    // Under a name of its own, so that no other libhost is taken.
    let out = PathBuf::from(env::var_os("OUT_DIR").unwrap());
    fs::copy(&library, out.join("libhaspnettle_host.a")).unwrap_or_else(|e| fail(&format!("{}: {e}", library.display())));
    println!("cargo::rerun-if-changed=build.rs");
    println!("cargo::rerun-if-changed={}", library.display());
    println!("cargo::rerun-if-env-changed=HASPNETTLE_LIB");
    println!("cargo::rustc-link-search=native={}", out.display());
    println!("cargo::rustc-link-lib=static=haspnettle_host");
}

// The repository's library, proved and made where it is not there yet; one that is older than what it is made of is not taken.
fn made(root: &Path) -> PathBuf {
    let library = root.join("target/staticlib/libhost.a");
    if !library.is_file() {
        make(root, &library);
    }
    let made = modified(&library);
    if let Some(source) = sources(root).into_iter().find(|s| modified(s) > made) {
        fail(&format!("{} is older than {}: run `bash .ci/staticlib host` in {}", library.display(), source.display(), root.display()));
    }
    println!("cargo::rerun-if-changed={}", root.join("crates").display());
    println!("cargo::rerun-if-changed={}", root.join("crates.txt").display());
    library
}

fn make(root: &Path, library: &Path) {
    match Command::new("bash").args([".ci/staticlib", "host"]).current_dir(root).output() {
        Ok(_) if library.is_file() => {}
        _ => fail(&format!(
            "no {}, and `bash .ci/staticlib host` did not make it: run that in {} to see why (it needs the Rattle kit's `rt` on PATH), or set HASPNETTLE_LIB",
            library.display(),
            root.display()
        )),
    }
}

// The code, the definitions and the proofs of every crate, as far as they are there.
fn sources(root: &Path) -> Vec<PathBuf> {
    let parts = entries(&root.join("crates")).into_iter().flat_map(|c| ["src", "specs", "proofs"].map(|part| c.join(part)));
    parts.flat_map(|part| files(&part)).chain([root.join("crates.txt")]).collect()
}

fn files(path: &Path) -> Vec<PathBuf> {
    match path.is_dir() {
        true => entries(path).iter().flat_map(|p| files(p)).collect(),
        false => vec![path.into()],
    }
}

fn entries(folder: &Path) -> Vec<PathBuf> {
    fs::read_dir(folder).map_or(vec![], |all| all.flatten().map(|e| e.path()).collect())
}

fn modified(file: &Path) -> Option<SystemTime> {
    fs::metadata(file).and_then(|m| m.modified()).ok()
}

fn fail(line: &str) -> ! {
    println!("cargo::error={line}");
    process::exit(1)
}
