//! The settings of a shuffle, which `bench/networks.rattle` finds too, in plain Rust. usage: networks route K

use std::env;

/// Of each input whether it goes through the lower half.
fn halves(p: &[u32]) -> Vec<bool> {
    let n = p.len() / 2;
    let mut partner = vec![0u32; p.len()];
    for j in 0..n {
        partner[p[2 * j] as usize] = p[2 * j + 1];
        partner[p[2 * j + 1] as usize] = p[2 * j];
    }
    let mut settled = vec![false; p.len()];
    let mut lower = vec![false; p.len()];
    let starts = std::iter::once(p[0] as usize).chain((0..n).map(|j| 2 * j));
    for start in starts {
        let mut x = start;
        while !settled[x] {
            let y = partner[x] as usize;
            settled[x] = true;
            settled[y] = true;
            lower[y] = true;
            x = y ^ 1;
        }
    }
    lower
}

fn route_level(p: &[u32], bits: &mut Vec<bool>) {
    if p.len() == 2 {
        bits.push(p[0] == 1);
        return;
    }
    let n = p.len() / 2;
    let lower = halves(p);
    bits.extend((0..n).map(|j| lower[2 * j]));
    for half in [false, true] {
        let inner: Vec<u32> = (0..n)
            .map(|j| {
                let (x, y) = (p[2 * j], p[2 * j + 1]);
                if lower[x as usize] == half { x / 2 } else { y / 2 }
            })
            .collect();
        route_level(&inner, bits);
    }
    bits.extend((0..n).map(|j| lower[p[2 * j] as usize]));
}

fn switches(k: u32) -> u64 {
    (2 * u64::from(k) - 1) << (k - 1)
}

fn route(p: &[u32]) -> Vec<bool> {
    let mut bits = Vec::with_capacity(switches(p.len().ilog2()) as usize);
    route_level(p, &mut bits);
    bits
}

struct Random(u64);

impl Random {
    fn next(&mut self) -> u32 {
        self.0 = self
            .0
            .wrapping_mul(6_364_136_223_846_793_005)
            .wrapping_add(1_442_695_040_888_963_407);
        (self.0 >> 33) as u32
    }
}

fn shuffled(many: u32) -> Vec<u32> {
    let mut random = Random(12_345);
    let mut p: Vec<u32> = (0..many).collect();
    for i in 0..p.len() {
        p.swap(i, random.next() as usize % (i + 1));
    }
    p
}

/// How many switches, and a sum.
fn main() {
    let words: Vec<String> = env::args().collect();
    let k: u32 = words[2].parse().unwrap();
    let bits = route(&shuffled(1 << k));
    let set = (0u64..).zip(&bits).filter(|(_, bit)| **bit);
    println!("route {k} {} {}", bits.len(), set.map(|(i, _)| i).sum::<u64>());
}
