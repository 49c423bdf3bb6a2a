//! The program: what it prints, its line on standard error, its exit status, and the files that it leaves.
mod common;

use common::{listed, repository, sample, samples, tree::*, whole};
use haspnettle::{build_image, image};
use std::ffi::{OsStr, OsString};
use std::fs::{self, File, Permissions};
use std::io::Write;
use std::os::unix::{ffi::OsStringExt, fs::symlink, fs::PermissionsExt};
use std::path::{Path, PathBuf};
use std::process::{Child, Command, Stdio};

const LONG: &str = "refused 1 at 0: image over 65,536 bytes\n";
const EMPTY: &str = "refused 2 at 0: a record is due and under 6 bytes are left, or its length is under 2 or passes its parent's end\n";
const LOST: &str = "refused 10 at 78: SemanticError: Undefined identifier: x\n";

// Exit status, standard output and standard error.
type Ended = (i32, Vec<u8>, String);

fn end(status: i32, out: impl AsRef<[u8]>, err: &str) -> Ended {
    (status, out.as_ref().to_vec(), err.into())
}

// The program, under the runner that cargo has for it, if any.
fn program<T: AsRef<OsStr>>(args: &[T]) -> Command {
    let runner = std::env::var("CARGO_TARGET_X86_64_UNKNOWN_LINUX_GNU_RUNNER").unwrap_or_default();
    let mut words = runner.split_whitespace().chain([env!("CARGO_BIN_EXE_haspnettle")]);
    let mut command = Command::new(words.next().unwrap());
    command.args(words).args(args).stdin(Stdio::null()).stdout(Stdio::piped()).stderr(Stdio::piped());
    command
}

fn ended(child: Child) -> Ended {
    let all = child.wait_with_output().unwrap();
    (all.status.code().unwrap(), all.stdout, String::from_utf8(all.stderr).unwrap())
}

fn run(command: &mut Command) -> Ended {
    ended(command.spawn().unwrap())
}

fn said(args: &[&str]) -> Ended {
    run(&mut program(args))
}

// With these bytes on standard input; where nobody hears it, the other end of standard output is closed before.
fn fed(args: &[&str], input: &[u8], heard: bool) -> Ended {
    let mut child = program(args).stdin(Stdio::piped()).spawn().unwrap();
    if !heard {
        drop(child.stdout.take());
    }
    child.stdin.take().unwrap().write_all(input).unwrap();
    ended(child)
}

// Refused, with a text.
fn lost() -> Vec<u8> {
    image(&main_of(vec![constrain(id("x"))])).unwrap()
}

fn at(sample: &str) -> String {
    repository().join("samples").join(sample).into_os_string().into_string().unwrap()
}

// The words of C1, as -o leaves them.
fn c1_bytes() -> Vec<u8> {
    whole(&listed("c1"), 80)
}

// A test's own folder, with a file `there`, an image `lost` that is refused, and nothing else.
fn folder(test: &str) -> PathBuf {
    let path = Path::new(env!("CARGO_TARGET_TMPDIR")).join(test);
    _ = fs::remove_dir_all(&path);
    fs::create_dir_all(&path).unwrap();
    fs::write(path.join("there"), "as it was").unwrap();
    fs::write(path.join("lost"), lost()).unwrap();
    path
}

fn within<T: AsRef<OsStr>>(folder: &Path, args: &[T]) -> Ended {
    run(program(args).current_dir(folder))
}

fn names_in(folder: &Path) -> Vec<OsString> {
    let mut names: Vec<_> = fs::read_dir(folder).unwrap().map(|f| f.unwrap().file_name()).collect();
    names.sort();
    names
}

#[test]
fn every_sample_is_listed() {
    for name in samples() {
        // C3's listing is for nine words of room.
        let says = if name == "c3" { "c1" } else { &name };
        let due = match listed(says) {
            Ok(_) => end(0, sample(&format!("{says}.listing")), ""),
            Err((number, place, _)) => {
                let refusal = build_image(&sample(&format!("{name}.img"))).unwrap_err();
                end(1, "", &format!("refused {number} at {place}: {}\n", refusal.text().unwrap_or(refusal.meaning())))
            }
        };
        assert_eq!(said(&["build", &at(&format!("{name}.img"))]), due, "{name}");
    }
}

#[test]
fn a_text_is_printed_where_there_is_one() {
    assert_eq!(fed(&["text", "-"], &lost(), true), end(1, "SemanticError: Undefined identifier: x\n", LOST));
    assert_eq!(fed(&["text", "-"], &[], true), end(1, "", EMPTY));
    assert_eq!(said(&["text", &at("c4_28.img")]), end(1, "RegisterExhausted\n", "refused 41 at 31: RegisterExhausted\n"));
    assert_eq!(said(&["text", &at("c1.img")]), end(0, "", ""));
}

#[test]
fn a_word_is_told_of() {
    for (index, line) in [
        ("0", "0 Contract at 0\n"),
        ("1", "1 Contract at 0, patched, leads to 3\n"),
        ("3", "3 Function at 31 in main\n"),
        ("5", "5 Int at 78 in main\n"),
        ("6", "6 While at 72 in main, patched, leads to 8\n"),
        ("8", "8 While at 72 in main\n"),
        ("013", "13 Function at 31 in main\n"),
    ] {
        assert_eq!(said(&["why", &at("c7.img"), index]), end(0, line, ""));
    }
    for index in ["14", "4294967296", "18446744073709551615"] {
        assert_eq!(said(&["why", &at("c7.img"), index]), end(1, "", "refused 53 at 0: index not below the word count\n"));
    }
    for index in ["0", "18446744073709551615", "--all"] {
        assert_eq!(fed(&["why", "-", index], &lost(), true), end(1, "", LOST));
        assert_eq!(fed(&["why", "-", index], &[], true), end(1, "", EMPTY));
    }
}

#[test]
fn every_word_is_told_of() {
    let all = String::from_utf8(sample("land_mask.why")).unwrap();
    assert_eq!(all.lines().count(), listed("land_mask").unwrap().len());
    assert_eq!(said(&["why", &at("land_mask.img"), "--all"]), end(0, &all, ""));
    assert_eq!(fed(&["why", "--all", "-"], &sample("land_mask.img"), true), end(0, &all, ""));
    for (index, line) in all.lines().enumerate() {
        assert_eq!(said(&["why", &at("land_mask.img"), &index.to_string()]), end(0, format!("{line}\n"), ""));
    }
}

// Words with a known opcode and none, with bits 54, 55 and 63, over and over: as bytes, and the lines that are due.
fn flagged(count: usize) -> (Vec<u8>, String) {
    let words = [0x13, 0x1F, 1 << 54 | 0x14, 1 << 55 | 0x12, 1 << 63, u64::MAX, 0x0123_4567_89AB_CDEF, 0];
    let (mut bytes, mut lines) = (vec![], String::new());
    for (index, word) in words.into_iter().cycle().take(count).enumerate() {
        bytes.extend(word.to_le_bytes());
        lines += &format!("{index} {word:016x}{}\n", if word < 1 << 55 { "" } else { " +" });
    }
    (bytes, lines)
}

#[test]
fn words_are_listed_with_what_is_on_top() {
    let folder = folder("flagged");
    for count in [0, 1, 8, 255, 256, 257, 8191, 8192, 8193, 30_000] {
        let (mut bytes, lines) = flagged(count);
        for left in 0..8 {
            let due = match left {
                0 => end(0, &lines, ""),
                _ => end(1, &lines, &format!("haspnettle: bytes behind the last whole word: {left}\n")),
            };
            fs::write(folder.join("there"), &bytes).unwrap();
            assert_eq!(within(&folder, &["words", "there"]), due);
            assert_eq!(run(program(&["words", "-"]).stdin(File::open(folder.join("there")).unwrap())), due);
            bytes.push(0xFF);
        }
    }
}

#[test]
fn the_words_of_a_build_have_nothing_on_top() {
    let folder = folder("plain");
    for name in samples().into_iter().filter(|name| listed(name).is_ok()) {
        assert_eq!(within(&folder, &["build", &at(&format!("{name}.img")), "-o", "there"]), end(0, "", ""));
        let listing = String::from_utf8(sample(&format!("{name}.listing"))).unwrap();
        let (_, lines) = listing.split_once('\n').unwrap();
        assert_eq!(within(&folder, &["words", "there"]), end(0, lines, ""));
    }
}

#[test]
fn standard_input_is_an_image() {
    assert_eq!(fed(&["build", "-"], &sample("c1.img"), true), end(0, sample("c1.listing"), ""));
    assert_eq!(fed(&["build", "-"], &lost(), true), end(1, "", LOST));
    assert_eq!(fed(&["build", "-"], &[], true), end(1, "", EMPTY));
}

#[test]
fn an_image_without_end_is_too_long() {
    for (command, more) in [("build", None), ("text", None), ("why", Some("0")), ("why", Some("--all"))] {
        let of = |image| [command, image].into_iter().chain(more).collect::<Vec<_>>();
        assert_eq!(said(&of("/dev/zero")), end(1, "", LONG));
        assert_eq!(run(program(&of("-")).stdin(File::open("/dev/zero").unwrap())), end(1, "", LONG));
    }
}

#[test]
fn words_go_into_a_file() {
    let folder = folder("words");
    fs::set_permissions(folder.join("there"), Permissions::from_mode(0o604)).unwrap();
    symlink("there", folder.join("link")).unwrap();
    assert_eq!(within(&folder, &["build", &at("c1.img"), "-o", "new"]), end(0, "", ""));
    assert_eq!(within(&folder, &["build", "-o", "link", &at("c1.img")]), end(0, "", ""));
    for name in ["new", "there", "link"] {
        assert_eq!(fs::read(folder.join(name)).unwrap(), c1_bytes());
    }
    assert_eq!(fs::metadata(folder.join("there")).unwrap().permissions().mode() & 0o777, 0o604);
    assert_eq!(fs::read_link(folder.join("link")).unwrap(), Path::new("there"));
    assert_eq!(names_in(&folder), ["link", "lost", "new", "there"]);
}

#[test]
fn words_go_into_what_is_no_file() {
    assert_eq!(said(&["build", &at("c1.img"), "-o", "-"]), end(0, c1_bytes(), ""));
    assert_eq!(said(&["build", &at("c1.img"), "-o", "/dev/stdout"]), end(0, c1_bytes(), ""));
    assert_eq!(said(&["build", &at("c1.img"), "-o", "/dev/null"]), end(0, "", ""));
    assert!(!fs::metadata("/dev/null").unwrap().is_file());
}

#[test]
fn names_are_any_bytes() {
    let folder = folder("bytes");
    let [image, words] = [b"i\xFF\n", b"w\xFF\n"].map(|name| OsString::from_vec(name.to_vec()));
    fs::write(folder.join(&image), sample("c1.img")).unwrap();
    assert_eq!(within(&folder, &["build".as_ref(), image.as_os_str(), "-o".as_ref(), &words]), end(0, "", ""));
    assert_eq!(fs::read(folder.join(&words)).unwrap(), c1_bytes());
    fs::remove_file(folder.join(&image)).unwrap();
    let line = "haspnettle: cannot read \"i\\xFF\\n\": No such file or directory (os error 2)\n";
    assert_eq!(within(&folder, &["build".as_ref(), image.as_os_str()]), end(2, "", line));
}

#[test]
fn a_refused_image_leaves_every_file() {
    let folder = folder("refused");
    for file in ["there", "new"] {
        assert_eq!(within(&folder, &["build", "lost", "-o", file]), end(1, "", LOST));
    }
    assert_eq!(fs::read(folder.join("there")).unwrap(), b"as it was");
    assert_eq!(names_in(&folder), ["lost", "there"]);
}

// No file may have a byte here, and who writes one is told so.
#[test]
fn a_failed_write_leaves_every_file() {
    let folder = folder("failed");
    for file in ["there", "new"] {
        let plain = program(&["build", &at("c1.img"), "-o", file]);
        let mut limited = Command::new("sh");
        limited.args(["-c", "trap '' XFSZ; ulimit -f 0; exec \"$@\"", "sh"]).arg(plain.get_program()).args(plain.get_args());
        limited.current_dir(&folder).stdout(Stdio::piped()).stderr(Stdio::piped());
        let line = format!("haspnettle: cannot write {file:?}: File too large (os error 27)\n");
        assert_eq!(run(&mut limited), end(2, "", &line));
    }
    assert_eq!(fs::read(folder.join("there")).unwrap(), b"as it was");
    assert_eq!(names_in(&folder), ["lost", "there"]);
}

#[test]
fn what_is_no_file_is_told() {
    let folder = folder("no_file");
    let c1 = &at("c1.img");
    for (args, line) in [
        (vec!["build", "none"], "cannot read \"none\": No such file or directory (os error 2)"),
        (vec!["text", "none"], "cannot read \"none\": No such file or directory (os error 2)"),
        (vec!["why", "none", "0"], "cannot read \"none\": No such file or directory (os error 2)"),
        (vec!["words", "none"], "cannot read \"none\": No such file or directory (os error 2)"),
        (vec!["words", "."], "cannot read \".\": Is a directory (os error 21)"),
        (vec!["build", "."], "cannot read \".\": Is a directory (os error 21)"),
        (vec!["build", c1, "-o", "none/new"], "cannot write \"none/new\": No such file or directory (os error 2)"),
        (vec!["build", c1, "-o", "there/new"], "cannot write \"there/new\": Not a directory (os error 20)"),
        (vec!["build", c1, "-o", "."], "cannot write \".\": Is a directory (os error 21)"),
        (vec!["build", c1, "-o", ""], "cannot write \"\": No such file or directory (os error 2)"),
        (vec!["build", c1, "-o", "/dev/full"], "cannot write \"/dev/full\": No space left on device (os error 28)"),
    ] {
        assert_eq!(within(&folder, &args), end(2, "", &format!("haspnettle: {line}\n")));
    }
    assert_eq!(names_in(&folder), ["lost", "there"]);
    let line = "haspnettle: cannot read standard input: Is a directory (os error 21)\n";
    assert_eq!(run(program(&["build", "-"]).stdin(File::open(folder).unwrap())), end(2, "", line));
}

#[test]
fn a_closed_pipe_is_quiet() {
    assert_eq!(fed(&["build", "-"], &sample("land_mask.img"), false), end(0, "", ""));
    assert_eq!(fed(&["build", "-", "-o", "-"], &sample("land_mask.img"), false), end(0, "", ""));
    assert_eq!(fed(&["text", "-"], &lost(), false), end(1, "", LOST));
    assert_eq!(fed(&["why", "-", "--all"], &sample("land_mask.img"), false), end(0, "", ""));
    // Words without end are listed as long as someone reads.
    let mut endless = program(&["words", "/dev/zero"]).spawn().unwrap();
    drop(endless.stdout.take());
    assert_eq!(ended(endless), end(0, "", ""));
}

#[test]
fn a_full_device_is_told() {
    let folder = folder("full");
    let full = || File::create("/dev/full").unwrap();
    let line = "haspnettle: cannot write standard output: No space left on device (os error 28)\n";
    let c1 = &at("c1.img");
    for args in [
        vec!["build", c1],
        vec!["build", c1, "-o", "-"],
        vec!["text", "lost"],
        vec!["why", c1, "0"],
        vec!["words", "/dev/zero"],
        vec!["--help"],
    ] {
        assert_eq!(run(program(&args).current_dir(&folder).stdout(full())), end(2, "", line));
    }
    // Nobody can be told, and the status stands.
    assert_eq!(run(program(&["build", "lost"]).current_dir(&folder).stderr(full())), end(1, "", ""));
}

#[test]
fn wrong_arguments_are_told() {
    let (build, text, why) = ("haspnettle build IMAGE [-o FILE]", "haspnettle text IMAGE", "haspnettle why IMAGE INDEX|--all");
    let words = "haspnettle words FILE";
    let all = &format!("{build}, or {text}, or {why}, or {words}")[..];
    for (args, what, usage) in [
        (vec![], "no command", all),
        (vec!["list", "a"], "no command \"list\"", all),
        (vec!["-o", "a"], "no command \"-o\"", all),
        (vec!["build"], "no IMAGE", build),
        (vec!["build", "-o", "a"], "no IMAGE", build),
        (vec!["build", "a", "b"], "a second IMAGE, \"b\"", build),
        (vec!["build", "a", "-"], "a second IMAGE, \"-\"", build),
        (vec!["build", "a", "-x"], "unknown option \"-x\"", build),
        (vec!["build", "--output", "a", "b"], "unknown option \"--output\"", build),
        (vec!["build", "a", "-o"], "-o without FILE", build),
        (vec!["build", "a", "-o", "b", "-o", "c"], "a second -o", build),
        (vec!["text"], "no IMAGE", text),
        (vec!["text", "a", "b"], "a second IMAGE, \"b\"", text),
        (vec!["text", "a", "-o", "b"], "unknown option \"-o\"", text),
        (vec!["text", "a", "--all"], "unknown option \"--all\"", text),
        (vec!["why"], "no IMAGE", why),
        (vec!["why", "--all"], "no IMAGE", why),
        (vec!["why", "a"], "no INDEX", why),
        (vec!["why", "a", "0", "1"], "a second INDEX, \"1\"", why),
        (vec!["why", "a", "0", "--all"], "a second INDEX, \"--all\"", why),
        (vec!["why", "--all", "a", "0"], "a second INDEX, \"0\"", why),
        (vec!["why", "a", "-1"], "unknown option \"-1\"", why),
        (vec!["why", "a", "0", "-o", "b"], "unknown option \"-o\"", why),
        (vec!["why", "a", ""], "INDEX \"\" is no number below 2^64", why),
        (vec!["why", "a", "-"], "INDEX \"-\" is no number below 2^64", why),
        (vec!["why", "a", "0x6"], "INDEX \"0x6\" is no number below 2^64", why),
        (vec!["why", "a", "6\n"], "INDEX \"6\\n\" is no number below 2^64", why),
        (vec!["why", "a", "18446744073709551616"], "INDEX \"18446744073709551616\" is no number below 2^64", why),
        (vec!["words"], "no FILE", words),
        (vec!["words", "a", "b"], "a second FILE, \"b\"", words),
        (vec!["words", "a", "-o", "b"], "unknown option \"-o\"", words),
    ] {
        assert_eq!(said(&args), end(2, "", &format!("haspnettle: {what}; usage: {usage}\n")));
    }
}

#[test]
fn help_is_printed() {
    let (build, text) = ("usage: haspnettle build IMAGE [-o FILE]\n", "usage: haspnettle text IMAGE\n");
    let (why, words) = ("usage: haspnettle why IMAGE INDEX|--all\n", "usage: haspnettle words FILE\n");
    for help in ["-h", "--help"] {
        for (args, first) in [
            (vec![help], build),
            (vec!["build", help], build),
            (vec!["build", "a", help], build),
            (vec!["text", help], text),
            (vec!["why", help], why),
            (vec!["why", "a", "b", help], why),
            (vec!["words", help], words),
        ] {
            let (status, out, err) = said(&args);
            assert_eq!((status, &err[..]), (0, ""));
            assert!(out.starts_with(first.as_bytes()) && out.ends_with(b"\n"));
        }
    }
    assert_eq!(said(&["--version"]), end(0, concat!("haspnettle ", env!("CARGO_PKG_VERSION"), "\n"), ""));
}
