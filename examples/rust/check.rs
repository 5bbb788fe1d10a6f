//! Builds the constraint system of a program and the witness of a run through the library, evaluates every constraint
//! by itself, and compares its verdict with that of `check`: for the witness, and for it with one value changed.
//!
//!     check PROGRAM TAPE AUX STEPS        the files are read here; a name `-` is an empty file
//!
//! The last line is `rust: N passed, M failed`, and the status 1 where one failed. Plain `rustc` builds it
//! (`examples/check_library.sh`).

use std::process::ExitCode;

/// The prime of the field.
const P: u64 = 0xffff_ffff_0000_0001;

/// The library's functions, as `include/tinyr1cs.h` declares them.
mod library {
    #[repr(C)]
    pub struct Handle {
        opened: u64,
        session: *mut u8,
    }

    unsafe extern "C" {
        fn tinyr1cs_c_open(session: &mut Handle) -> u32;
        fn tinyr1cs_c_close(session: &mut Handle);
        fn tinyr1cs_c_set(
            session: &mut Handle,
            name: *const u8,
            name_size: usize,
            contents: *const u8,
            contents_size: usize,
        ) -> u32;
        fn tinyr1cs_c_word(session: &mut Handle, word: *const u8, word_size: usize) -> u32;
        fn tinyr1cs_c_run(session: &mut Handle) -> u32;
        fn tinyr1cs_c_copy(
            session: &mut Handle,
            name: *const u8,
            name_size: usize,
            from: u64,
            into: *mut u8,
            room: usize,
            has: &mut u64,
        ) -> u32;
        fn tinyr1cs_c_line(session: &mut Handle, into: *mut u8, room: usize, has: &mut u64) -> u32;
    }

    /// An open session. Dropping it closes it.
    pub struct Session(Handle);

    impl Session {
        /// Opens a session, or says by which status it couldn't.
        pub fn open() -> Result<Session, u32> {
            let mut handle = Handle {
                opened: 0,
                session: std::ptr::null_mut(),
            };
            match unsafe { tinyr1cs_c_open(&mut handle) } {
                0 => Ok(Session(handle)),
                status => Err(status),
            }
        }

        /// Makes the name stand for a copy of the contents.
        pub fn set(&mut self, name: &str, contents: &[u8]) -> u32 {
            unsafe {
                tinyr1cs_c_set(&mut self.0, name.as_ptr(), name.len(), contents.as_ptr(), contents.len())
            }
        }

        /// Runs a command, and says its status.
        pub fn run(&mut self, words: &[&str]) -> u32 {
            for word in words {
                let status = unsafe { tinyr1cs_c_word(&mut self.0, word.as_ptr(), word.len()) };
                if status != 0 {
                    return status;
                }
            }
            unsafe { tinyr1cs_c_run(&mut self.0) }
        }

        /// The file's bytes, where there is such a file.
        pub fn get(&mut self, name: &str) -> Option<Vec<u8>> {
            let mut bytes = Vec::new();
            loop {
                let mut has = 0;
                let status = unsafe {
                    let room = bytes.len();
                    tinyr1cs_c_copy(&mut self.0, name.as_ptr(), name.len(), 0, bytes.as_mut_ptr(), room, &mut has)
                };
                match status {
                    0 => return Some(bytes),
                    17 => bytes = vec![0; has as usize],
                    _ => return None,
                }
            }
        }

        /// What the last command said, without its line feed.
        pub fn line(&mut self) -> String {
            let mut line = vec![0; 4096];
            let mut has = 0;
            unsafe { tinyr1cs_c_line(&mut self.0, line.as_mut_ptr(), line.len(), &mut has) };
            line.truncate(has as usize);
            String::from_utf8_lossy(&line).trim_end().to_string()
        }
    }

    impl Drop for Session {
        fn drop(&mut self) {
            unsafe { tinyr1cs_c_close(&mut self.0) }
        }
    }
}

/// Bytes that are read from the front.
struct Reader<'a>(&'a [u8]);

impl Reader<'_> {
    fn number(&mut self, size: usize) -> u64 {
        let (front, rest) = self.0.split_at(size);
        self.0 = rest;
        front.iter().rev().fold(0, |n, &byte| n << 8 | u64::from(byte))
    }

    /// The value of the combination in front.
    fn value(&mut self, values: &[u64]) -> u64 {
        (0..self.number(4)).fold(0, |sum, _| {
            let wire = self.number(4) as usize;
            plus(sum, times(self.number(8), values[wire]))
        })
    }
}

fn times(a: u64, b: u64) -> u64 {
    (u128::from(a) * u128::from(b) % u128::from(P)) as u64
}

fn plus(a: u64, b: u64) -> u64 {
    ((u128::from(a) + u128::from(b)) % u128::from(P)) as u64
}

/// The first constraint that fails, if one does. Both files are as the library writes them (`docs/FORMATS.md`).
fn first_failing(system: &[u8], witness: &[u8]) -> Option<u64> {
    let mut reader = Reader(&witness[12 + 12 + 16 + 12..]);
    let mut values = Vec::new();
    while !reader.0.is_empty() {
        values.push(reader.number(8));
    }
    let constraints = Reader(&system[12 + 12 + 36..]).number(4);
    let mut reader = Reader(&system[12 + 12 + 40 + 12..]);
    (0..constraints).find(|_| {
        let [a, b, c] = [(); 3].map(|()| reader.value(&values));
        times(a, b) != c
    })
}

/// What passed and what failed.
#[derive(Default)]
struct Count {
    passed: u32,
    failed: u32,
}

impl Count {
    fn expect(&mut self, holds: bool, what: &str) {
        if holds {
            self.passed += 1;
        } else {
            self.failed += 1;
            eprintln!("rust: {what}");
        }
    }
}

fn check(words: &[String], count: &mut Count) -> Option<()> {
    let [program, tape, aux, steps] = words else {
        return None;
    };
    let read = |name: &str| if name == "-" { Some(Vec::new()) } else { std::fs::read(name).ok() };
    let (program, tape, aux) = (read(program)?, read(tape)?, read(aux)?);
    let mut session = library::Session::open().ok()?;
    for (name, contents) in [("program", &program), ("tape", &tape), ("aux", &aux)] {
        count.expect(session.set(name, contents) == 0, "setting a file");
    }
    count.expect(session.run(&["run", "program", "tape", "aux", steps]) == 0, "run");
    let line = session.line();
    let tape = String::from_utf8_lossy(&tape);
    let public = format!("{} {tape}", line.split(' ').nth(1)?);
    count.expect(session.set("public", public.as_bytes()) == 0, "setting the public list");
    let words = tape.split_ascii_whitespace().count().to_string();
    count.expect(session.run(&["build", "program", &words, steps, "system"]) == 0, "build");
    count.expect(session.run(&["witness", "program", "tape", "aux", steps, "witness"]) == 0, "witness");
    let (system, mut witness) = (session.get("system")?, session.get("witness")?);
    for what in ["check of the witness", "check of a changed witness"] {
        let failing = first_failing(&system, &witness);
        let wanted = failing.map_or("yes".to_string(), |at| format!("no: constraint {at}"));
        count.expect(session.set("witness", &witness) == 0, "setting the witness");
        let status = session.run(&["check", "system", "witness", "public"]);
        count.expect(status == u32::from(failing.is_some()) && session.line() == wanted, what);
        let last = witness.len() - 8;
        witness[last] ^= 1;
    }
    Some(())
}

fn main() -> ExitCode {
    let words: Vec<String> = std::env::args().skip(1).collect();
    let mut count = Count::default();
    let ended = check(&words, &mut count);
    count.expect(ended.is_some(), "usage: check PROGRAM TAPE AUX STEPS, or a step gave nothing");
    println!("rust: {} passed, {} failed", count.passed, count.failed);
    ExitCode::from(u8::from(count.failed != 0))
}
