// The machine in plain Rust, as one writes it by hand: over pages in a BTreeMap, and with `--cfg tables` over
// a table of tables of pages. usage: machine.rs IMAGE
use std::collections::BTreeMap;

/// More steps than a program takes.
const STEPS: u64 = 1_000_000_000;

type Page = [u8; 4096];

fn word_on(page: &Page, place: usize) -> u32 {
    u32::from_le_bytes(page[place..place + 4].try_into().unwrap())
}

/// A memory of 2^32 bytes, all 0 at first, that keeps the pages that were written.
trait Memory: Default {
    fn page(&self, number: u32) -> Option<&Page>;
    fn page_mut(&mut self, number: u32) -> &mut Page;

    fn load_byte(&self, at: u32) -> u8 {
        self.page(at / 4096).map_or(0, |page| page[at as usize % 4096])
    }

    fn load_word(&self, at: u32) -> u32 {
        self.page(at / 4096).map_or(0, |page| word_on(page, at as usize % 4096 & !3))
    }

    /// The two words from an address on that is a multiple of 8.
    fn load_pair(&self, at: u32) -> (u32, u32) {
        let place = at as usize % 4096;
        self.page(at / 4096).map_or((0, 0), |page| (word_on(page, place), word_on(page, place + 4)))
    }

    fn store_byte(&mut self, at: u32, byte: u8) {
        self.page_mut(at / 4096)[at as usize % 4096] = byte;
    }

    fn store_word(&mut self, at: u32, word: u32) {
        let place = at as usize % 4096 & !3;
        self.page_mut(at / 4096)[place..place + 4].copy_from_slice(&word.to_le_bytes());
    }
}

#[derive(Default)]
struct Map(BTreeMap<u32, Box<Page>>);

impl Memory for Map {
    fn page(&self, number: u32) -> Option<&Page> {
        self.0.get(&number).map(|page| &**page)
    }

    fn page_mut(&mut self, number: u32) -> &mut Page {
        self.0.entry(number).or_insert_with(|| Box::new([0; 4096]))
    }
}

type Table = [Option<Box<Page>>; 1024];

struct Tables(Vec<Option<Box<Table>>>);

impl Default for Tables {
    fn default() -> Tables {
        Tables((0..1024).map(|_| None).collect())
    }
}

impl Memory for Tables {
    fn page(&self, number: u32) -> Option<&Page> {
        self.0[number as usize / 1024].as_ref()?[number as usize % 1024].as_deref()
    }

    fn page_mut(&mut self, number: u32) -> &mut Page {
        let table = self.0[number as usize / 1024].get_or_insert_with(|| Box::new([const { None }; 1024]));
        table[number as usize % 1024].get_or_insert_with(|| Box::new([0; 4096]))
    }
}

#[derive(Default)]
struct Tape {
    words: Vec<u32>,
    taken: usize,
}

impl Tape {
    fn next(&mut self) -> Option<u32> {
        let word = *self.words.get(self.taken)?;
        self.taken += 1;
        Some(word)
    }
}

enum End {
    Answer { value: u32, step: u64 },
    Undefined { op: u32, step: u64 },
    Silent,
}

#[derive(Default)]
struct Machine<M> {
    pc: u32,
    regs: [u32; 16],
    flag: bool,
    memory: M,
    tapes: [Tape; 2],
}

impl<M: Memory> Machine<M> {
    fn start(image: &[u32]) -> Machine<M> {
        let mut machine = Machine::<M>::default();
        for (place, word) in image.iter().enumerate() {
            machine.memory.store_word(4 * place as u32, *word);
        }
        machine
    }

    fn set(&mut self, i: usize, value: u32, flag: bool) {
        self.regs[i] = value;
        self.flag = flag;
    }

    /// One step; what comes of it where the machine doesn't go on.
    fn step(&mut self, step: u64) -> Option<End> {
        let (h, a) = self.memory.load_pair(self.pc);
        let (i, j) = ((h >> 22) as usize % 16, (h >> 18) as usize % 16);
        let (d, s) = (self.regs[i], self.regs[j]);
        let a = if h >> 26 & 1 == 1 { a } else { self.regs[a as usize % 16] };
        let wide = u64::from(s) * u64::from(a);
        let high = (wide >> 32) as u32;
        let mut next = self.pc.wrapping_add(8);
        match h >> 27 {
            0 => self.set(i, s & a, s & a == 0),
            1 => self.set(i, s | a, s | a == 0),
            2 => self.set(i, s ^ a, s ^ a == 0),
            3 => self.set(i, !a, !a == 0),
            4 => self.set(i, s.wrapping_add(a), s.checked_add(a).is_none()),
            5 => self.set(i, s.wrapping_sub(a), s < a),
            6 => self.set(i, wide as u32, high != 0),
            7 => self.set(i, high, high != 0),
            8 => {
                let product = i64::from(s as i32) * i64::from(a as i32);
                self.set(i, (product >> 32) as u32, i32::try_from(product).is_err());
            }
            9 => self.set(i, s.checked_div(a).unwrap_or(0), a == 0),
            10 => self.set(i, s.checked_rem(a).unwrap_or(0), a == 0),
            11 => self.set(i, s.checked_shl(a).unwrap_or(0), s >> 31 == 1),
            12 => self.set(i, s.checked_shr(a).unwrap_or(0), s & 1 == 1),
            13 => self.flag = s == a,
            14 => self.flag = s > a,
            15 => self.flag = s >= a,
            16 => self.flag = s as i32 > a as i32,
            17 => self.flag = s as i32 >= a as i32,
            18 => self.regs[i] = a,
            19 if self.flag => self.regs[i] = a,
            20 => next = a & !7,
            21 if self.flag => next = a & !7,
            22 if !self.flag => next = a & !7,
            19 | 21 | 22 => {}
            26 => self.memory.store_byte(a, d as u8),
            27 => self.regs[i] = self.memory.load_byte(a).into(),
            28 => self.memory.store_word(a, d),
            29 => self.regs[i] = self.memory.load_word(a),
            30 => {
                let word = self.tapes.get_mut(a as usize).and_then(Tape::next);
                self.set(i, word.unwrap_or(0), word.is_none());
            }
            31 => return Some(End::Answer { value: a, step }),
            op => return Some(End::Undefined { op, step }),
        }
        self.pc = next;
        None
    }

    fn run(&mut self, steps: u64) -> End {
        (1..=steps).find_map(|step| self.step(step)).unwrap_or(End::Silent)
    }
}

fn answer<M: Memory>(image: &[u32]) {
    match Machine::<M>::start(image).run(STEPS) {
        End::Answer { value, step } => println!("answer {value} at {step}"),
        End::Undefined { op, step } => println!("undefined {op} at {step}"),
        End::Silent => println!("silent"),
    }
}

fn main() {
    let name = std::env::args().nth(1).expect("an image");
    let bytes = std::fs::read(name).expect("a file");
    let (words, _) = bytes.as_chunks::<4>();
    let image: Vec<u32> = words.iter().map(|word| u32::from_le_bytes(*word)).collect();
    if cfg!(tables) {
        answer::<Tables>(&image);
    } else {
        answer::<Map>(&image);
    }
}
