//! The assembler in plain Rust, for words of 32 bits: the same two passes over the same text, with the same
//! faults, std's hash map for labels and a `match` for names. It assembles its text this many times, to be timed
//! beside `asm.rattle`. usage: asm TEXT
use std::collections::HashMap;
use std::collections::hash_map::Entry;

#[derive(Debug)]
#[allow(dead_code)]
enum Why {
    NotText,
    BadHeader,
    BadLabel,
    DoubledLabel,
    UnknownName,
    Operands { has: usize, wants: usize },
    BadRegister,
    BadNumber,
    UnknownLabel,
}

#[derive(Clone, Copy, PartialEq)]
enum Shape {
    DestSourceA,
    DestA,
    SourceA,
    OnlyA,
    ADest,
}

fn operation(name: &[u8]) -> Option<(u32, Shape)> {
    use Shape::*;
    Some(match name {
        b"and" => (0, DestSourceA),
        b"or" => (1, DestSourceA),
        b"xor" => (2, DestSourceA),
        b"not" => (3, DestA),
        b"add" => (4, DestSourceA),
        b"sub" => (5, DestSourceA),
        b"mull" => (6, DestSourceA),
        b"umulh" => (7, DestSourceA),
        b"smulh" => (8, DestSourceA),
        b"udiv" => (9, DestSourceA),
        b"umod" => (10, DestSourceA),
        b"shl" => (11, DestSourceA),
        b"shr" => (12, DestSourceA),
        b"cmpe" => (13, SourceA),
        b"cmpa" => (14, SourceA),
        b"cmpae" => (15, SourceA),
        b"cmpg" => (16, SourceA),
        b"cmpge" => (17, SourceA),
        b"mov" => (18, DestA),
        b"cmov" => (19, DestA),
        b"jmp" => (20, OnlyA),
        b"cjmp" => (21, OnlyA),
        b"cnjmp" => (22, OnlyA),
        b"store.b" => (26, ADest),
        b"load.b" => (27, DestA),
        b"store.w" => (28, ADest),
        b"load.w" => (29, DestA),
        b"read" => (30, DestA),
        b"answer" => (31, OnlyA),
        _ => return None,
    })
}

fn is_blank(byte: u8) -> bool {
    byte == b' ' || byte == b'\t'
}

fn trimmed(mut text: &[u8]) -> &[u8] {
    while let [b' ' | b'\t', rest @ ..] = text {
        text = rest;
    }
    while let [rest @ .., b' ' | b'\t'] = text {
        text = rest;
    }
    text
}

struct Line<'a> {
    label: Option<&'a [u8]>,
    instruction: &'a [u8],
}

fn code_of(line: &[u8]) -> &[u8] {
    let end = line.iter().position(|byte| *byte == b';').unwrap_or(line.len());
    &line[..end]
}

fn said(code: &[u8]) -> Option<Line<'_>> {
    let code = trimmed(code);
    if code.first() != Some(&b'_') {
        return Some(Line { label: None, instruction: code });
    }
    let end = code
        .iter()
        .position(|b| !(b.is_ascii_alphanumeric() || *b == b'_' || *b == b'.'))
        .unwrap_or(code.len());
    match &code[end..] {
        [b':', behind @ ..] if end > 1 => Some(Line { label: Some(&code[..end]), instruction: trimmed(behind) }),
        _ => None,
    }
}

fn numeral(digits: &[u8], base: u32) -> Option<u32> {
    let mut number = 0_u64;
    for byte in digits {
        let digit = char::from(*byte).to_digit(base)?;
        number = number.checked_mul(u64::from(base))?.checked_add(u64::from(digit))?;
    }
    if digits.is_empty() { None } else { u32::try_from(number).ok() }
}

fn number(text: &[u8]) -> Result<u32, Why> {
    match text {
        [b'0', b'x', digits @ ..] => numeral(digits, 16),
        _ => numeral(text, 10),
    }
    .ok_or(Why::BadNumber)
}

fn register(text: &[u8]) -> Result<u32, Why> {
    match text {
        [b'r', d @ b'0'..=b'9'] => Ok(u32::from(d - b'0')),
        [b'r', b'1', d @ b'0'..=b'5'] => Ok(10 + u32::from(d - b'0')),
        _ => Err(Why::BadRegister),
    }
}

fn last(text: &[u8], labels: &HashMap<&[u8], (u64, u32)>) -> Result<(u32, u32), Why> {
    match text {
        [b'r', ..] => Ok((0, register(text)?)),
        [b'_', ..] => Ok((1, labels.get(text).ok_or(Why::UnknownLabel)?.1)),
        _ => Ok((1, number(text)?)),
    }
}

fn words_of(instruction: &[u8], labels: &HashMap<&[u8], (u64, u32)>) -> Result<[u32; 2], Why> {
    let end = instruction.iter().position(|b| is_blank(*b)).unwrap_or(instruction.len());
    let (name, rest) = instruction.split_at(end);
    let mut operands = [b"".as_slice(); 3];
    let mut has = 0;
    if !rest.is_empty() {
        for operand in rest.split(|b| *b == b',') {
            if has < 3 {
                operands[has] = trimmed(operand);
            }
            has += 1;
        }
    }
    let check = |wants| if has == wants { Ok(()) } else { Err(Why::Operands { has, wants }) };
    if name == b".raw" {
        check(2)?;
        return Ok([number(operands[0])?, number(operands[1])?]);
    }
    let (op, shape) = operation(name).ok_or(Why::UnknownName)?;
    let (dest, source, (imm, a)) = match shape {
        Shape::DestSourceA => {
            check(3)?;
            (register(operands[0])?, register(operands[1])?, last(operands[2], labels)?)
        }
        Shape::DestA => {
            check(2)?;
            (register(operands[0])?, 0, last(operands[1], labels)?)
        }
        Shape::SourceA => {
            check(2)?;
            let source = register(operands[0])?;
            (0, source, last(operands[1], labels)?)
        }
        Shape::OnlyA => {
            check(1)?;
            (0, 0, last(operands[0], labels)?)
        }
        Shape::ADest => {
            check(2)?;
            let last = last(operands[0], labels)?;
            (register(operands[1])?, 0, last)
        }
    };
    Ok([op << 27 | imm << 26 | dest << 22 | source << 18, a])
}

fn lines(text: &[u8]) -> impl Iterator<Item = &[u8]> {
    let text = text.strip_suffix(b"\n").unwrap_or(text);
    let some = !text.is_empty();
    text.split(|b| *b == b'\n')
        .filter(move |_| some)
        .map(|line| line.strip_suffix(b"\r").unwrap_or(line))
}

fn good_header(line: &[u8]) -> bool {
    match line.strip_prefix(b"; TinyRAM") {
        Some(fields) => fields.split(|b| is_blank(*b)).all(|field| match field {
            [b'W', b'=', width @ ..] => width == b"32",
            [b'K', b'=', registers @ ..] => registers == b"16",
            _ => true,
        }),
        None => true,
    }
}

fn assemble(text: &[u8]) -> Result<Vec<u32>, (u64, Why)> {
    let mut labels = HashMap::new();
    let mut address = 0_u32;
    for (number, line) in (1..).zip(lines(text)) {
        let said = said(code_of(line));
        if let Some(Line { label: Some(label), .. }) = said {
            if let Entry::Vacant(entry) = labels.entry(label) {
                entry.insert((number, address));
            }
        }
        if said.is_none_or(|said| !said.instruction.is_empty()) {
            address = address.wrapping_add(8);
        }
    }
    let mut words = Vec::new();
    for (number, line) in (1_u64..).zip(lines(text)) {
        let bad = |why| (number, why);
        let code = code_of(line);
        if !code.iter().all(|b| *b == b'\t' || (b' '..=b'~').contains(b)) {
            return Err(bad(Why::NotText));
        }
        if number == 1 && !good_header(line) {
            return Err(bad(Why::BadHeader));
        }
        let said = said(code).ok_or(bad(Why::BadLabel))?;
        if said.label.is_some_and(|label| labels[label].0 < number) {
            return Err(bad(Why::DoubledLabel));
        }
        if !said.instruction.is_empty() {
            words.extend(words_of(said.instruction, &labels).map_err(bad)?);
        }
    }
    Ok(words)
}

/// How often the text is assembled.
const TURNS: u32 = 20;

fn main() {
    let text = std::fs::read(std::env::args().nth(1).unwrap()).unwrap();
    let mut sum = 0_u64;
    for _ in 0..TURNS {
        match assemble(&text) {
            Ok(words) => sum += words.len() as u64,
            Err((line, why)) => println!("line {line}: {why:?}"),
        }
    }
    println!("{sum}");
}
