//! Writes a file of BYTES bytes from memory, in pieces of PIECE bytes: write FILE BYTES PIECE

use std::env;
use std::fs::File;
use std::io::{self, Write};

fn main() -> io::Result<()> {
    let words: Vec<String> = env::args().collect();
    let number = |at: usize| words[at].parse::<usize>().expect("a number");
    let (bytes, piece) = (number(2), number(3));
    let memory: Vec<u8> = (0..piece).map(|at| at as u8).collect();
    let mut file = File::create(&words[1])?;
    for at in (0..bytes).step_by(piece) {
        file.write_all(&memory[..piece.min(bytes - at)])?;
    }
    Ok(())
}
