// A program with its arguments, run on an input.
use std::io::Write;
use std::process::{Command, Output, Stdio};
use std::thread;

pub fn ask(program: &[&str], input: &[u8]) -> Result<Output, String> {
    let [name, args @ ..] = program else { return Err("no program".into()) };
    let fail = |e| format!("{name}: {e}");
    let mut child =
        Command::new(name).args(args).stdin(Stdio::piped()).stdout(Stdio::piped()).stderr(Stdio::piped()).spawn().map_err(fail)?;
    let mut pipe = child.stdin.take().expect("a pipe");
    let bytes = input.to_vec();
    // A program may stop reading early: what it printed decides.
    let feeder = thread::spawn(move || _ = pipe.write_all(&bytes));
    let said = child.wait_with_output().map_err(fail)?;
    feeder.join().map_err(|_| format!("{name}: its input broke"))?;
    Ok(said)
}
