// A static library's entries (HASP_LIB, one cargo feature each) against the model, its texts against the Rust's own.
use crate::model::{analysed, build, host, program, text, was_30, why, Answer, Refusal, TEXT_ROOM};
use crate::{bounds, check, compare, generation::Program, store};

/// What stands around and in the slices that are lent.
const POISON: u64 = 0xA5A5_A5A5_A5A5_A5A5;
const GUARD: usize = 16;
/// The lengths of the slices that are lent for a text.
const TEXT_SLICES: [usize; 5] = [0, TEXT_ROOM - 1, TEXT_ROOM, TEXT_ROOM + 1, 1000];

// SAFETY of every call below: the slices are live for the call and apart, and the library keeps no pointer.
extern "C" {
    #[cfg(feature = "check")]
    fn hasp_check(img: *const u8, len: usize) -> u64;
    #[cfg(feature = "build")]
    fn hasp_build(img: *const u8, len: usize, code: *mut u64, room: usize, table: *mut u64, numbers: usize) -> u64;
    #[cfg(feature = "host")]
    fn host_build(img: *const u8, len: usize, out: *mut u8, room: usize) -> u64;
    #[cfg(feature = "host")]
    fn host_analyse(img: *const u8, len: usize) -> u64;
    #[cfg(feature = "text")]
    fn host_text(img: *const u8, len: usize, out: *mut u8, room: usize) -> u64;
    #[cfg(feature = "why")]
    fn host_why(img: *const u8, len: usize, index: u64) -> u64;
}

pub const CHECK: bool = cfg!(feature = "check");
pub const BUILD: bool = cfg!(feature = "build");
pub const HOST: bool = cfg!(feature = "host");
const TEXT: bool = cfg!(feature = "text");
const WHY: bool = cfg!(feature = "why");
const ANY: bool = CHECK || BUILD || HOST || TEXT || WHY;

/// The library's check; 0 where it is not linked.
pub fn lib_check(_img: &[u8]) -> u64 {
    #[cfg(feature = "check")]
    return unsafe { hasp_check(_img.as_ptr(), _img.len()) };
    #[cfg(not(feature = "check"))]
    0
}

pub fn lib_analyse(_img: &[u8]) -> u64 {
    #[cfg(feature = "host")]
    return unsafe { host_analyse(_img.as_ptr(), _img.len()) };
    #[cfg(not(feature = "host"))]
    0
}

pub fn lib_build(_img: &[u8], _code: &mut [u64], _table: &mut [u64]) -> u64 {
    #[cfg(feature = "build")]
    return unsafe { hasp_build(_img.as_ptr(), _img.len(), _code.as_mut_ptr(), _code.len(), _table.as_mut_ptr(), _table.len()) };
    #[cfg(not(feature = "build"))]
    0
}

pub fn lib_host(_img: &[u8], _out: &mut [u8]) -> u64 {
    #[cfg(feature = "host")]
    return unsafe { host_build(_img.as_ptr(), _img.len(), _out.as_mut_ptr(), _out.len()) };
    #[cfg(not(feature = "host"))]
    0
}

fn lib_text(_img: &[u8], _out: &mut [u8]) -> u64 {
    #[cfg(feature = "text")]
    return unsafe { host_text(_img.as_ptr(), _img.len(), _out.as_mut_ptr(), _out.len()) };
    #[cfg(not(feature = "text"))]
    0
}

fn lib_why(_img: &[u8], _index: u64) -> u64 {
    #[cfg(feature = "why")]
    return unsafe { host_why(_img.as_ptr(), _img.len(), _index) };
    #[cfg(not(feature = "why"))]
    0
}

/// Compares what is linked over n seeds and every edge.
pub fn compare(n: u64, seed: u64, image: fn(u64) -> Vec<u8>) -> Result<(), String> {
    if !ANY {
        return Err("no entry is linked: build with --features check,build,host,text,why and HASP_LIB".into());
    }
    on_a_thread(move || all(n, seed, image))
}

/// Compares why each word of the stored answers is there.
pub fn whys(file: &str) -> Result<(), String> {
    if !WHY {
        return Err("host_why is not linked: build with --features why and HASP_LIB".into());
    }
    let images = store::images(file)?;
    on_a_thread(move || {
        let mut words = 0;
        for (n, img) in images.iter().enumerate() {
            words += one_why(img, &program(img)).map_err(|e| format!("case {n}: {e}"))?;
        }
        println!("{} stored images: host_why equal, of each of their {words} words and past them", images.len());
        Ok(())
    })
}

// With a stack of HASP_STACK bytes (2 MiB).
fn on_a_thread(run: impl FnOnce() -> Result<(), String> + Send + 'static) -> Result<(), String> {
    let stack = std::env::var("HASP_STACK").ok().and_then(|s| s.parse().ok()).unwrap_or(2 << 20);
    let thread = std::thread::Builder::new().stack_size(stack).spawn(run).map_err(|e| e.to_string())?;
    thread.join().map_err(|_| "the comparing thread broke".to_string())?
}

/// Of the images compared: how many are newly built, how many have a text, and in how many of these the name alone leaves an offset open;
/// of how many words it was asked why they are there.
#[derive(Default)]
struct Seen {
    newly: u64,
    texts: u64,
    open: u64,
    whys: u64,
}

impl Seen {
    fn count(&mut self, img: &[u8], p: &Result<Program, Refusal>) {
        let (open, text) = (was_30(img), p.as_ref().is_err_and(|r| !r.text.is_empty()));
        self.newly += (open && p.is_ok()) as u64;
        self.texts += text as u64;
        self.open += (open && text) as u64;
    }
}

fn all(n: u64, seed: u64, image: fn(u64) -> Vec<u8>) -> Result<(), String> {
    let (mut edges, mut seeds) = (Seen::default(), Seen::default());
    for (what, img) in &bounds::all() {
        one(img, &mut edges).map_err(|e| format!("{what}: {e}"))?;
    }
    for s in seed..seed + n {
        one(&image(s), &mut seeds).map_err(|e| format!("seed {s}: {e}"))?;
    }
    let linked = [("check", CHECK), ("build", BUILD), ("host_analyse, host_build", HOST), ("host_text", TEXT), ("host_why", WHY)];
    let names: Vec<&str> = linked.iter().filter(|l| l.1).map(|l| l.0).collect();
    println!("{n} seeds, {} of them newly built, and every edge: {} equal", seeds.newly, names.join(", "));
    if TEXT {
        let open = seeds.open + edges.open;
        println!(
            "{} texts of the seeds and {} of the edges, each as the Rust says it; in {open} an offset is open by the name alone",
            seeds.texts, edges.texts
        );
    }
    if WHY {
        println!(
            "{} words of the seeds and {} of the edges, each of the record and with the target that the model has",
            seeds.whys, edges.whys
        );
    }
    Ok(())
}

fn one(img: &[u8], seen: &mut Seen) -> Result<(), String> {
    if CHECK {
        let ours = check::check(img).map_or_else(|f| Answer::of(&f.into()).packed(), |_| 0);
        same(img, "check", ours, lib_check(img))?;
    }
    if HOST {
        let ours = analysed(img).map_or_else(|r| Answer::of(&r).packed(), |_| 0);
        same(img, "analyse", ours, lib_analyse(img))?;
    }
    let p = program(img);
    seen.count(img, &p);
    if TEXT {
        one_text(img, &p)?;
    }
    if WHY {
        seen.whys += one_why(img, &p)?;
    }
    let (words, numbers) = p.as_ref().map_or((5, 7), |p| (p.words.len(), 3 * p.table.len()));
    for (room, table) in
        [(words, numbers), (words + 9, numbers + 5), (words - 1, numbers + 3), (words + 2, numbers - 1), (0, 0), (words, 0)]
    {
        if BUILD {
            one_build(img, &p, room, table)?;
        }
        if HOST {
            one_slice(img, "host", 8 * room + table % 8, |out| host(&p, out), lib_host)?;
        }
    }
    Ok(())
}

fn same(img: &[u8], what: &str, model: u64, library: u64) -> Result<(), String> {
    if model == library {
        return Ok(());
    }
    let told = |a: u64| format!("{} at {} count {}", a & 255, (a & 0xFFFF_FFFF) >> 8, a >> 32);
    Err(format!("{what}: the model says {}, the library {}; image {}", told(model), told(library), compare::hex(img)))
}

// A slice of poison with poison on both sides.
fn guarded<T: Copy>(poison: T, len: usize) -> Vec<T> {
    vec![poison; len + 2 * GUARD]
}

fn one_build(img: &[u8], p: &Result<Program, Refusal>, room: usize, table: usize) -> Result<(), String> {
    let (mut code, mut entries) = (guarded(POISON, room), guarded(POISON, table));
    let (mut code2, mut entries2) = (code.clone(), entries.clone());
    let ours = build(p, &mut code[GUARD..GUARD + room], &mut entries[GUARD..GUARD + table]);
    let library = lib_build(img, &mut code2[GUARD..GUARD + room], &mut entries2[GUARD..GUARD + table]);
    same(img, "build", ours.packed(), library)?;
    equal(img, "a word", &code, &code2)?;
    equal(img, "the table", &entries, &entries2)
}

fn one_text(img: &[u8], p: &Result<Program, Refusal>) -> Result<(), String> {
    let heard = compare::heard(img, p);
    TEXT_SLICES.into_iter().try_for_each(|len| one_slice(img, "text", len, |out| text(heard.as_ref(), out), lib_text))
}

// Every word, and indexes that no word has; how many words there are.
fn one_why(img: &[u8], p: &Result<Program, Refusal>) -> Result<u64, String> {
    let words = p.as_ref().map_or(0, |p| p.words.len() as u64);
    for index in (0..words).chain([words, words + 1, 1 << 32, (1 << 32) + words, u64::MAX]) {
        same(img, "why", why(p, index).packed(), lib_why(img, index)).map_err(|e| format!("word {index}: {e}"))?;
    }
    Ok(words)
}

type Library = fn(&[u8], &mut [u8]) -> u64;

fn one_slice(img: &[u8], what: &str, len: usize, model: impl Fn(&mut [u8]) -> Answer, library: Library) -> Result<(), String> {
    let mut bytes = guarded(0xA5u8, len);
    let mut bytes2 = bytes.clone();
    let ours = model(&mut bytes[GUARD..GUARD + len]);
    same(img, what, ours.packed(), library(img, &mut bytes2[GUARD..GUARD + len]))?;
    equal(img, &format!("{what}: a byte"), &bytes, &bytes2)
}

fn equal<T: PartialEq + std::fmt::Debug>(img: &[u8], what: &str, model: &[T], library: &[T]) -> Result<(), String> {
    match (0..model.len()).find(|&i| model[i] != library[i]) {
        None => Ok(()),
        Some(i) => {
            let at = i as i64 - GUARD as i64;
            Err(format!("{what} at {at} differs: model {:x?}, library {:x?}; image {}", model[i], library[i], compare::hex(img)))
        }
    }
}
