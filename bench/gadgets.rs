// A gadget into sinks, and values of combinations, in plain Rust: what `bench/gadgets.rattle` does, as
// one writes it by hand. A combination lies in an array of 128 places, as it does there.
use std::hint::black_box;
use std::time::Instant;

const P: u64 = 18_446_744_069_414_584_321;
const CALLS: u32 = 200_000;
const VALUES: u32 = 2_000_000;

fn multiply(x: u64, y: u64) -> u64 {
    let product = x as u128 * y as u128;
    let low = product as u64;
    let high = (product >> 64) as u64;
    let middle = high & 0xffff_ffff;
    let top = high >> 32;
    let (difference, borrow) = low.overflowing_sub(top);
    let start = if borrow { difference.wrapping_add(P) } else { difference };
    let (sum, carry) = start.overflowing_add((middle << 32) - middle);
    if carry || sum >= P { sum.wrapping_sub(P) } else { sum }
}

fn add(x: u64, y: u64) -> u64 {
    let (sum, carry) = x.overflowing_add(y);
    if carry || sum >= P { sum.wrapping_sub(P) } else { sum }
}

struct Lc {
    terms: [std::mem::MaybeUninit<(u64, u32)>; 128],
    len: usize,
}

impl Lc {
    fn empty() -> Lc {
        Lc { terms: [std::mem::MaybeUninit::uninit(); 128], len: 0 }
    }

    fn constant(number: u64) -> Lc {
        let mut lc = Lc::empty();
        lc.plus(number, 0);
        lc
    }

    fn wire(wire: u32) -> Lc {
        let mut lc = Lc::empty();
        lc.plus(1, wire);
        lc
    }

    fn plus(&mut self, coefficient: u64, wire: u32) {
        self.terms[self.len].write((coefficient, wire));
        self.len += 1;
    }

    fn terms(&self) -> &[(u64, u32)] {
        // The first `len` places are written.
        unsafe { std::slice::from_raw_parts(self.terms.as_ptr().cast(), self.len) }
    }

    fn value_in(&self, z: &[u64]) -> u64 {
        let mut sum = 0;
        for (coefficient, wire) in self.terms() {
            if let Some(number) = z.get(*wire as usize) {
                sum = add(sum, multiply(*coefficient, *number));
            }
        }
        sum
    }
}

trait Sink {
    fn wires(&self) -> u32;
    fn fresh(&mut self) -> u32;
    fn put(&mut self, a: &Lc, b: &Lc, c: &Lc) -> Result<(), ()>;
}

struct CountSink {
    wires: u32,
    constraints: u32,
    terms: u64,
}

impl Sink for CountSink {
    fn wires(&self) -> u32 {
        self.wires
    }

    fn fresh(&mut self) -> u32 {
        self.wires += 1;
        self.wires - 1
    }

    fn put(&mut self, a: &Lc, b: &Lc, c: &Lc) -> Result<(), ()> {
        self.constraints += 1;
        self.terms += (a.len + b.len + c.len) as u64;
        Ok(())
    }
}

struct TestSink<'a> {
    z: &'a [u64],
    wires: u32,
    tested: u32,
    held: u32,
    first_failed: Option<u32>,
    sum: u64,
}

impl Sink for TestSink<'_> {
    fn wires(&self) -> u32 {
        self.wires
    }

    fn fresh(&mut self) -> u32 {
        self.wires += 1;
        self.wires - 1
    }

    fn put(&mut self, a: &Lc, b: &Lc, c: &Lc) -> Result<(), ()> {
        let product = multiply(a.value_in(self.z), b.value_in(self.z));
        let holds = product == c.value_in(self.z);
        self.sum = add(self.sum, product);
        self.held += u32::from(holds);
        self.first_failed = self.first_failed.or((!holds).then_some(self.tested));
        self.tested += 1;
        Ok(())
    }
}

fn bits<S: Sink>(sink: &mut S, x: &Lc, n: u32) -> Result<u32, ()> {
    let first = sink.wires();
    for _ in 0..n {
        let bit = Lc::wire(sink.fresh());
        sink.put(&bit, &bit, &bit)?;
    }
    let mut sum = Lc::empty();
    let mut power = 1;
    for i in 0..n {
        sum.plus(power, first + i);
        power = add(power, power);
    }
    sink.put(&sum, &Lc::constant(1), x)?;
    Ok(first)
}

fn main() {
    let number: u32 = black_box(3_735_928_559);
    let mut z = [1u64; 34];
    z[1] = u64::from(number);
    for i in 0..32 {
        z[i + 2] = u64::from(number >> i) % 2;
    }
    let n = black_box(32);
    let x = Lc::wire(black_box(1));
    let start = Instant::now();
    let mut terms = 0;
    for turn in 0..CALLS {
        let mut sink = CountSink { wires: 2 + turn, constraints: 0, terms: 0 };
        if bits(&mut sink, &x, n).is_ok() {
            terms += sink.terms;
        }
    }
    let counted = start.elapsed().as_micros();
    let start = Instant::now();
    let mut held = 0;
    for _ in 0..CALLS {
        let mut sink = TestSink { z: &z, wires: 2, tested: 0, held: 0, first_failed: None, sum: 0 };
        if bits(&mut sink, &x, n).is_ok() {
            held += u64::from(sink.held);
        }
    }
    let tested = start.elapsed().as_micros();
    let mut lc = Lc::empty();
    for i in 0..128u64 {
        lc.plus(black_box(i * 1_000_003), i as u32 % 34);
    }
    let start = Instant::now();
    for _ in 0..VALUES {
        z[1] = lc.value_in(&z);
    }
    let valued = start.elapsed().as_micros();
    println!("answers {terms} {held} {}", z[1]);
    println!("count {counted}\ntest {tested}\nvalue {valued}");
}
