//! `tinyr1cs check` as plain Rust, for comparison: the same checks, the same lines, as fast as one thread can.
//!
//! The system is read to its end, then the witness, then the tape, then the system once more with the
//! verdict. A read asks for up to 64 KiB. No constraint is kept: all that are at hand are tried in one loop, whose
//! state is local. A combination is summed from its bytes in 128 bits, after one check of bounds, and reduced
//! once; each product reads its wire's value once. Only where something is out of order, or a constraint isn't
//! at hand, its terms are taken one by one.

use std::fmt;
use std::fs::File;
use std::io;
use std::os::unix::fs::FileExt;
use std::process::ExitCode;

const P: u64 = 0xffff_ffff_0000_0001;
/// The most bytes that one read of the system returns.
const PIECE: usize = 65_536;
const TAPE_PIECE: usize = 4096;
const WIDEST: u32 = 1_048_576;
const TAPE_BYTES: usize = 4_194_304;
const TAPE_NUMBERS: usize = 262_144;

/// What is wrong with a container at a place.
enum Why {
    BadMagic,
    BadVersion(u32),
    Missing(u32),
    Doubled(u32),
    OtherPrime,
    BadCount { has: u64, wants: u64 },
    WireRange { wire: u32, wires: u32 },
    NotCanonical,
    Truncated,
    TooWide(u32),
    Trailing,
}

impl fmt::Display for Why {
    fn fmt(&self, f: &mut fmt::Formatter<'_>) -> fmt::Result {
        match self {
            Why::BadMagic => write!(f, "bad magic"),
            Why::BadVersion(found) => write!(f, "version {found}"),
            Why::Missing(section) => write!(f, "section {section} missing"),
            Why::Doubled(section) => write!(f, "section {section} doubled"),
            Why::OtherPrime => write!(f, "another prime"),
            Why::BadCount { has, wants } => write!(f, "{has} for {wants}"),
            Why::WireRange { wire, wires } => write!(f, "wire {wire} of {wires}"),
            Why::NotCanonical => write!(f, "not below p"),
            Why::Truncated => write!(f, "truncated"),
            Why::TooWide(terms) => write!(f, "{terms} terms"),
            Why::Trailing => write!(f, "bytes after the end"),
        }
    }
}

/// Why a container was refused.
enum Refusal {
    Bad { at: u64, why: Why },
    Io,
}

impl From<io::Error> for Refusal {
    fn from(_: io::Error) -> Refusal {
        Refusal::Io
    }
}

fn bad<T>(at: u64, why: Why) -> Result<T, Refusal> {
    Err(Refusal::Bad { at, why })
}

/// 2^128 `upper` + `low` modulo P: 2^64 is 2^32 - 1, and 2^96 is -1.
#[inline(always)]
fn reduce(low: u128, upper: u64) -> u64 {
    let (low, high) = (low as u64, (low >> 64) as u64);
    let (top, middle) = ((upper << 32) + (high >> 32), high & 0xffff_ffff);
    let (difference, borrow) = low.overflowing_sub(top);
    let start = if borrow { difference.wrapping_add(P) } else { difference };
    let (sum, carry) = start.overflowing_add((middle << 32) - middle);
    if carry || sum >= P { sum.wrapping_sub(P) } else { sum }
}

#[inline(always)]
fn mul(a: u64, b: u64) -> u64 {
    reduce(u128::from(a) * u128::from(b), 0)
}

/// A sum of products, whose multiples of 2^128 are counted apart.
#[derive(Default)]
struct Sum {
    low: u128,
    carries: u64,
}

impl Sum {
    #[inline(always)]
    fn add(&mut self, a: u64, b: u64) {
        let (low, carry) = self.low.overflowing_add(u128::from(a) * u128::from(b));
        self.low = low;
        self.carries += u64::from(carry);
    }

    #[inline(always)]
    fn value(&self) -> u64 {
        reduce(self.low, self.carries)
    }
}

/// The piece of a file that was read last.
struct Window<'a> {
    file: &'a File,
    bytes: Box<[u8; PIECE]>,
    held: usize,
    at: u64,
}

impl<'a> Window<'a> {
    fn over(file: &'a File) -> Window<'a> {
        Window { file, bytes: Box::new([0; PIECE]), held: 0, at: 0 }
    }

    /// Reads on until this many bytes at a place are held; false where the file ends before.
    fn reach(&mut self, at: u64, size: usize) -> io::Result<bool> {
        let Some(end) = at.checked_add(size as u64) else {
            return Ok(false);
        };
        if at >= self.at && end <= self.at + self.held as u64 {
            return Ok(true);
        }
        if at >= self.at && at <= self.at + self.held as u64 {
            let from = (at - self.at) as usize;
            self.bytes.copy_within(from..self.held, 0);
            self.held -= from;
        } else {
            self.held = 0;
        }
        self.at = at;
        while self.held < size {
            match self.file.read_at(&mut self.bytes[self.held..], at + self.held as u64)? {
                0 => return Ok(false),
                count => self.held += count,
            }
        }
        Ok(true)
    }

    /// What is held from a place on.
    fn held_from(&self, at: u64) -> &[u8] {
        let from = usize::try_from(at.wrapping_sub(self.at)).unwrap_or(usize::MAX);
        self.bytes[..self.held].get(from..).unwrap_or(&[])
    }

    /// What is held from a place on, where there are that many bytes.
    fn bytes_at(&mut self, at: u64, size: usize) -> Result<&[u8], Refusal> {
        if self.reach(at, size)? {
            Ok(&self.bytes[(at - self.at) as usize..self.held])
        } else {
            bad(at, Why::Truncated)
        }
    }

    fn u32(&mut self, at: u64) -> Result<u32, Refusal> {
        Ok(u32::from_le_bytes(self.bytes_at(at, 4)?[..4].try_into().unwrap()))
    }

    fn u64(&mut self, at: u64) -> Result<u64, Refusal> {
        Ok(u64::from_le_bytes(self.bytes_at(at, 8)?[..8].try_into().unwrap()))
    }
}

#[derive(Clone, Copy)]
struct Section {
    at: u64,
    size: u64,
}

/// The first sections of types 1, 2 and 3, and the place of the file's end.
struct Sections {
    first: [Option<Section>; 3],
    end: u64,
}

impl Sections {
    /// Of the types up to `singles` one section may stand.
    fn find(window: &mut Window<'_>, magic: &[u8], version: u32, singles: u32) -> Result<Sections, Refusal> {
        if !window.bytes_at(0, 4)?.starts_with(magic) {
            return bad(0, Why::BadMagic);
        }
        let found = window.u32(4)?;
        if found != version {
            return bad(4, Why::BadVersion(found));
        }
        let mut sections = Sections { first: [None; 3], end: 12 };
        for _ in 0..window.u32(8)? {
            sections.next(window, singles)?;
        }
        if window.file.read_at(&mut [0], sections.end)? != 0 {
            return bad(sections.end, Why::Trailing);
        }
        Ok(sections)
    }

    fn next(&mut self, window: &mut Window<'_>, singles: u32) -> Result<(), Refusal> {
        let at = self.end;
        window.bytes_at(at, 12)?;
        let (kind, size) = (window.u32(at)?, window.u64(at + 4)?);
        let section = Section { at: at + 12, size };
        if let Some(slot @ 0..3) = (kind as usize).checked_sub(1) {
            if kind <= singles && self.first[slot].is_some() {
                return bad(at, Why::Doubled(kind));
            }
            self.first[slot].get_or_insert(section);
        }
        let Some(end) = section.at.checked_add(size) else {
            return bad(at, Why::Truncated);
        };
        if size > 0 && !window.reach(end - 1, 1)? {
            return bad(at, Why::Truncated);
        }
        self.end = end;
        Ok(())
    }

    fn wanted(&self, kind: u32) -> Result<Section, Refusal> {
        self.first[kind as usize - 1].ok_or(Refusal::Bad { at: self.end, why: Why::Missing(kind) })
    }
}

/// Section 1 has this many bytes and names this field.
fn this_field(window: &mut Window<'_>, one: Section, wants: u64) -> Result<(), Refusal> {
    let miscounted = Why::BadCount { has: one.size, wants };
    if one.size < 4 {
        return bad(one.at, miscounted);
    }
    if window.u32(one.at)? != 8 {
        return bad(one.at, Why::OtherPrime);
    }
    if one.size != wants {
        return bad(one.at, miscounted);
    }
    if window.u64(one.at + 4)? != P {
        return bad(one.at, Why::OtherPrime);
    }
    Ok(())
}

/// The constraints of a system, one after another.
struct Rows<'a> {
    window: Window<'a>,
    wires: u32,
    publics: u64,
    section: Section,
    at: u64,
    left: u32,
}

impl<'a> Rows<'a> {
    fn begin(file: &'a File) -> Result<Rows<'a>, Refusal> {
        let mut window = Window::over(file);
        let sections = Sections::find(&mut window, b"r1cs", 1, 3)?;
        let (one, section) = (sections.wanted(1)?, sections.wanted(2)?);
        this_field(&mut window, one, 40)?;
        let wires = window.u32(one.at + 12)?;
        let publics = 1 + u64::from(window.u32(one.at + 16)?) + u64::from(window.u32(one.at + 20)?);
        let left = window.u32(one.at + 36)?;
        if u64::from(wires) < publics {
            return bad(one.at, Why::BadCount { has: wires.into(), wants: publics });
        }
        let wants = 8 * u64::from(wires);
        match sections.first[2] {
            Some(labels) if labels.size != wants => {
                bad(labels.at, Why::BadCount { has: labels.size, wants })
            }
            _ => Ok(Rows { window, wires, publics, section, at: section.at, left }),
        }
    }

    /// Whether all constraints ahead hold; false after the first that doesn't. With `TRY` unset nothing is
    /// tried, and each constraint holds. There is a value for each wire where something is tried.
    fn all<const TRY: bool>(&mut self, values: &[u64]) -> Result<bool, Refusal> {
        while self.left > 0 {
            if !self.far_row::<TRY>(values)? || !self.held_rows::<TRY>(values) {
                return Ok(false);
            }
        }
        self.ended()?;
        Ok(true)
    }

    /// Tries the constraints that are at hand and in order, up to the first that doesn't hold.
    #[inline(never)]
    fn held_rows<const TRY: bool>(&mut self, values: &[u64]) -> bool {
        let held = self.window.held_from(self.at);
        let mut bytes = &held[..held.len().min((self.end() - self.at) as usize)];
        let (size, mut left, mut holds) = (bytes.len(), self.left, true);
        while holds && left > 0 {
            let Some((row_holds, rest)) = held_row::<TRY>(bytes, self.wires, values) else {
                break;
            };
            (bytes, holds) = (rest, row_holds);
            left -= 1;
        }
        self.at += (size - bytes.len()) as u64;
        self.left = left;
        holds
    }

    /// Tries the next constraint, its terms taken as they are read.
    #[cold]
    fn far_row<const TRY: bool>(&mut self, values: &[u64]) -> Result<bool, Refusal> {
        let a = self.far_value::<TRY>(values)?;
        let b = self.far_value::<TRY>(values)?;
        let c = self.far_value::<TRY>(values)?;
        self.left -= 1;
        Ok(!TRY || mul(a, b) == c)
    }

    #[cold]
    fn ended(&self) -> Result<(), Refusal> {
        let wants = self.at - self.section.at;
        if wants != self.section.size {
            return bad(self.section.at, Why::BadCount { has: self.section.size, wants });
        }
        Ok(())
    }

    fn end(&self) -> u64 {
        self.section.at + self.section.size
    }

    #[inline(always)]
    fn term(&self, term: &[u8; 12]) -> Option<(u32, u64)> {
        let wire = u32::from_le_bytes(term[..4].try_into().unwrap());
        let coefficient = u64::from_le_bytes(term[4..].try_into().unwrap());
        (wire < self.wires && coefficient < P).then_some((wire, coefficient))
    }

    /// The value of the next combination, its terms taken as they are read.
    #[inline(never)]
    fn far_value<const TRY: bool>(&mut self, values: &[u64]) -> Result<u64, Refusal> {
        if self.end() - self.at < 4 {
            return bad(self.at, Why::Truncated);
        }
        let count = self.window.u32(self.at)?;
        if count > WIDEST {
            return bad(self.at, Why::TooWide(count));
        }
        self.at += 4;
        let (mut sum, mut left) = (Sum::default(), count as usize);
        while left > 0 {
            left -= self.piece::<TRY>(left, values, &mut sum)?;
        }
        Ok(sum.value())
    }

    /// Adds the terms that the window holds next, one at least and this many at most, and says how many.
    fn piece<const TRY: bool>(&mut self, most: usize, values: &[u64], sum: &mut Sum) -> Result<usize, Refusal> {
        let room = (self.end() - self.at) / 12;
        if room == 0 {
            return bad(self.at, Why::Truncated);
        }
        self.window.bytes_at(self.at, 12)?;
        let (terms, _) = self.window.held_from(self.at).as_chunks::<12>();
        let some = terms.len().min(most).min(usize::try_from(room).unwrap_or(usize::MAX));
        for (i, term) in terms[..some].iter().enumerate() {
            let Some((wire, coefficient)) = self.term(term) else {
                return self.term_fault(self.at + 12 * i as u64, term);
            };
            if TRY {
                sum.add(coefficient, values[wire as usize]);
            }
        }
        self.at += 12 * some as u64;
        Ok(some)
    }

    fn term_fault<T>(&self, at: u64, term: &[u8; 12]) -> Result<T, Refusal> {
        let wire = u32::from_le_bytes(term[..4].try_into().unwrap());
        if wire >= self.wires {
            return bad(at, Why::WireRange { wire, wires: self.wires });
        }
        bad(at + 4, Why::NotCanonical)
    }
}

/// Whether the constraint at the beginning of these bytes holds, and what follows it; `None` where not all of
/// it is there, or something is out of order.
#[inline(always)]
fn held_row<'a, const TRY: bool>(bytes: &'a [u8], wires: u32, values: &[u64]) -> Option<(bool, &'a [u8])> {
    let (a, rest) = held_value::<TRY, true>(bytes, wires, values)?;
    let (b, rest) = held_value::<TRY, false>(rest, wires, values)?;
    let (c, rest) = held_value::<TRY, false>(rest, wires, values)?;
    Some((!TRY || mul(a, b) == c, rest))
}

/// The value of the combination at the beginning of these bytes, and what follows it. Many have one term. The
/// `FIRST` of a constraint isn't summed in vain where it is wide and the others aren't at hand.
#[inline(always)]
fn held_value<'a, const TRY: bool, const FIRST: bool>(
    bytes: &'a [u8],
    wires: u32,
    values: &[u64],
) -> Option<(u64, &'a [u8])> {
    let (terms, rest) = held_terms(bytes)?;
    if let [term] = terms {
        let (coefficient, value) = held_term::<TRY>(term, wires, values)?;
        return Some((if TRY { mul(coefficient, value) } else { 0 }, rest));
    }
    if FIRST && terms.len() > 16 && !has_two(rest) {
        return None;
    }
    let mut sum = Sum::default();
    for term in terms {
        let (coefficient, value) = held_term::<TRY>(term, wires, values)?;
        if TRY {
            sum.add(coefficient, value);
        }
    }
    Some((sum.value(), rest))
}

#[inline(always)]
fn held_terms(bytes: &[u8]) -> Option<(&[[u8; 12]], &[u8])> {
    let (count, rest) = bytes.split_first_chunk::<4>()?;
    let (terms, rest) = rest.split_at_checked(12 * u32::from_le_bytes(*count) as usize)?;
    Some((terms.as_chunks::<12>().0, rest))
}

/// A coefficient and its wire's value; the value is 0 with `TRY` unset.
#[inline(always)]
fn held_term<const TRY: bool>(term: &[u8; 12], wires: u32, values: &[u64]) -> Option<(u64, u64)> {
    let wire = u32::from_le_bytes(term[..4].try_into().unwrap());
    let coefficient = u64::from_le_bytes(term[4..].try_into().unwrap());
    let value = if TRY { *values.get(wire as usize)? } else { 0 };
    ((TRY || wire < wires) && coefficient < P).then_some((coefficient, value))
}

#[cold]
fn has_two(bytes: &[u8]) -> bool {
    held_terms(bytes).and_then(|(_, rest)| held_terms(rest)).is_some()
}

fn survey(file: &File) -> Result<(), Refusal> {
    let mut rows = Rows::begin(file)?;
    rows.all::<false>(&[])?;
    Ok(())
}

fn read_values(file: &File) -> Result<Vec<u64>, Refusal> {
    let mut window = Window::over(file);
    let sections = Sections::find(&mut window, b"wtns", 2, 2)?;
    let (one, two) = (sections.wanted(1)?, sections.wanted(2)?);
    this_field(&mut window, one, 16)?;
    let count = u64::from(window.u32(one.at + 12)?);
    if two.size != 8 * count {
        return bad(two.at, Why::BadCount { has: two.size, wants: 8 * count });
    }
    let end = two.at + two.size;
    let (mut values, mut at) = (Vec::new(), two.at);
    while at < end {
        let (words, _) = window.bytes_at(at, 8)?.as_chunks::<8>();
        let some = words.len().min(((end - at) / 8) as usize);
        for word in &words[..some] {
            let value = u64::from_le_bytes(*word);
            if value >= P {
                return bad(at, Why::NotCanonical);
            }
            values.push(value);
            at += 8;
        }
    }
    Ok(values)
}

/// Why a tape was refused.
enum TapeRefusal {
    BadItem(usize),
    TooLong(&'static str, usize),
    Io,
}

impl From<io::Error> for TapeRefusal {
    fn from(_: io::Error) -> TapeRefusal {
        TapeRefusal::Io
    }
}

fn read_tape(file: &File) -> Result<Vec<u64>, TapeRefusal> {
    let (mut text, mut piece) = (Vec::new(), [0; TAPE_PIECE]);
    loop {
        let count = file.read_at(&mut piece, text.len() as u64)?;
        if count == 0 {
            break;
        }
        if count > TAPE_BYTES - text.len() {
            return Err(TapeRefusal::TooLong("text bytes", TAPE_BYTES));
        }
        text.extend_from_slice(&piece[..count]);
    }
    let mut numbers = Vec::new();
    for item in text.split(|byte| b" \t\r\n".contains(byte)).filter(|item| !item.is_empty()) {
        let at = numbers.len();
        if at == TAPE_NUMBERS {
            return Err(TapeRefusal::TooLong("tape words", TAPE_NUMBERS));
        }
        numbers.push(number_of(item).ok_or(TapeRefusal::BadItem(at))?);
    }
    Ok(numbers)
}

fn number_of(item: &[u8]) -> Option<u64> {
    let digits = str::from_utf8(item).ok().filter(|text| text.bytes().all(|byte| byte.is_ascii_digit()))?;
    digits.parse().ok().filter(|number| *number < P)
}

#[derive(Clone, Copy)]
enum Verdict {
    Yes,
    Wires { has: u64, wants: u64 },
    Public(usize),
    Constraint(u64),
}

fn public_verdict(rows: &Rows<'_>, values: &[u64], publics: &[u64]) -> Verdict {
    let (has, wants) = (values.len() as u64, u64::from(rows.wires));
    if has != wants {
        return Verdict::Wires { has, wants };
    }
    let values = &values[..rows.publics as usize];
    let wanted = || std::iter::once(&1).chain(publics);
    let shorter = values.len().min(1 + publics.len());
    match wanted().zip(values).position(|(a, b)| a != b) {
        Some(at) => Verdict::Public(at),
        None if values.len() != 1 + publics.len() => Verdict::Public(shorter),
        None => Verdict::Yes,
    }
}

fn judge(file: &File, values: &[u64], publics: &[u64]) -> Result<Verdict, Refusal> {
    let mut rows = Rows::begin(file)?;
    let mut verdict = public_verdict(&rows, values, publics);
    if matches!(verdict, Verdict::Yes) {
        let all = rows.left;
        if rows.all::<true>(values)? {
            return Ok(verdict);
        }
        verdict = Verdict::Constraint(u64::from(all - rows.left - 1));
    }
    rows.all::<false>(&[])?;
    Ok(verdict)
}

/// An exit code and a line; the line is for standard error where a file could not be read.
type End = (u8, String);

fn container_end(code: u8, name: &str, file: &str, refusal: Refusal) -> End {
    match refusal {
        Refusal::Bad { at, why } => (code, format!("bad {name}: byte {at}: {why}")),
        Refusal::Io => (8, format!("file fault: {file}")),
    }
}

fn tape_end(file: &str, refusal: TapeRefusal) -> End {
    match refusal {
        TapeRefusal::BadItem(at) => (4, format!("bad tape: word 3, item {at}")),
        TapeRefusal::TooLong(what, most) => (7, format!("limit: {what} {}, most {most}", most + 1)),
        TapeRefusal::Io => (8, format!("file fault: {file}")),
    }
}

fn check(names: &[String]) -> Result<Verdict, End> {
    let [system, witness, tape] = names else {
        return Err((2, "usage: check SYSTEM WITNESS TAPE".to_string()));
    };
    let system_end = |refusal| container_end(5, "system", system, refusal);
    let witness_end = |refusal| container_end(6, "witness", witness, refusal);
    let file = File::open(system).map_err(Refusal::from).map_err(system_end)?;
    survey(&file).map_err(system_end)?;
    let values = File::open(witness).map_err(Refusal::from).and_then(|file| read_values(&file));
    let values = values.map_err(witness_end)?;
    let publics = File::open(tape).map_err(TapeRefusal::from).and_then(|file| read_tape(&file));
    let publics = publics.map_err(|refusal| tape_end(tape, refusal))?;
    judge(&file, &values, &publics).map_err(system_end)
}

fn main() -> ExitCode {
    let words: Vec<String> = std::env::args().skip(2).collect();
    let (code, line) = match check(&words) {
        Ok(Verdict::Yes) => (0, "yes".to_string()),
        Ok(Verdict::Wires { has, wants }) => (1, format!("no: {has} wires, {wants} wanted")),
        Ok(Verdict::Public(at)) => (1, format!("no: public wire {at}")),
        Ok(Verdict::Constraint(at)) => (1, format!("no: constraint {at}")),
        Err(end) => end,
    };
    match code {
        8 => eprintln!("{line}"),
        _ => println!("{line}"),
    }
    ExitCode::from(code)
}
