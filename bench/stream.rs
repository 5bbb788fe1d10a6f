//! Constraints written in plain Rust, over something that forgets their bytes and over the disk, through a buffer
//! of 4,096 bytes, or of 65,536 where it is built with `large`, to be timed beside `stream.rattle`. A term is written
//! as two numbers, or where it is built with `together` as twelve bytes. usage: stream narrow|wide [FILE]
use std::fs::File;
use std::io::{self, BufWriter, Write};

const P: u64 = 18_446_744_069_414_584_321;

const BUFFER: usize = if cfg!(large) { 65_536 } else { 4_096 };

struct Forgetting {
    bytes: u64,
    sum: u64,
}

impl Write for Forgetting {
    fn write(&mut self, bytes: &[u8]) -> io::Result<usize> {
        // The bytes at places that 64 divides, whatever the pieces are.
        let first = (self.bytes.wrapping_neg() % 64) as usize;
        for byte in bytes.iter().skip(first).step_by(64) {
            self.sum = self.sum.wrapping_add(u64::from(*byte));
        }
        self.bytes += bytes.len() as u64;
        Ok(bytes.len())
    }

    fn flush(&mut self) -> io::Result<()> {
        Ok(())
    }
}

type Term = (u64, u32);

fn scaled(factor: u64, terms: &[Term]) -> impl Iterator<Item = Term> {
    terms.iter().map(move |(c, w)| ((u128::from(*c) * u128::from(factor) % u128::from(P)) as u64, *w))
}

fn twice(terms: &[Term]) -> Vec<Term> {
    scaled(1, terms).chain(scaled(5, terms)).collect()
}

fn head(out: &mut impl Write, constraints: u32, terms: u64) -> io::Result<()> {
    out.write_all(b"r1cs\x01\0\0\0\x03\0\0\0\x01\0\0\0")?;
    out.write_all(&40_u64.to_le_bytes())?;
    out.write_all(&8_u32.to_le_bytes())?;
    out.write_all(&P.to_le_bytes())?;
    for number in [5_u32, 0, 4, 0] {
        out.write_all(&number.to_le_bytes())?;
    }
    out.write_all(&5_u64.to_le_bytes())?;
    out.write_all(&constraints.to_le_bytes())?;
    out.write_all(&2_u32.to_le_bytes())?;
    out.write_all(&(12 * u64::from(constraints) + 12 * terms).to_le_bytes())
}

fn combination(out: &mut impl Write, terms: &[Term]) -> io::Result<()> {
    out.write_all(&(terms.len() as u32).to_le_bytes())?;
    for (coefficient, wire) in terms {
        if cfg!(together) {
            let mut bytes = [0; 12];
            bytes[..4].copy_from_slice(&wire.to_le_bytes());
            bytes[4..].copy_from_slice(&coefficient.to_le_bytes());
            out.write_all(&bytes)?;
        } else {
            out.write_all(&wire.to_le_bytes())?;
            out.write_all(&coefficient.to_le_bytes())?;
        }
    }
    Ok(())
}

fn write(out: &mut impl Write, row: &[Term], count: u32) -> io::Result<()> {
    head(out, count, 3 * u64::from(count) * row.len() as u64)?;
    for _ in 0..count {
        combination(out, row)?;
        combination(out, row)?;
        combination(out, row)?;
    }
    out.write_all(&3_u32.to_le_bytes())?;
    out.write_all(&40_u64.to_le_bytes())?;
    for label in 0..5_u64 {
        out.write_all(&label.to_le_bytes())?;
    }
    out.flush()
}

fn main() -> io::Result<()> {
    let words: Vec<String> = std::env::args().collect();
    let narrow = vec![(1_000_003, 1), (4_294_967_295, 4), (P - 1, 2)];
    let (row, count) = if words.get(1).is_some_and(|word| word == "wide") {
        (twice(&twice(&twice(&twice(&twice(&narrow))))), 60_000)
    } else {
        (narrow, 1_000_000)
    };
    if let Some(name) = words.get(2) {
        let mut out = BufWriter::with_capacity(BUFFER, File::create(name)?);
        write(&mut out, &row, count)?;
        println!("true");
        return Ok(());
    }
    let mut out = BufWriter::with_capacity(BUFFER, Forgetting { bytes: 0, sum: 0 });
    write(&mut out, &row, count)?;
    println!("true {} {}", out.get_ref().bytes, out.get_ref().sum);
    Ok(())
}
