// The work of crates/pace in plain Rust: hosts over words and over packed bytes, for tools/bench.
use std::hint::black_box;
use std::time::Instant;

const PARTS: usize = 1023;
const ROUNDS: u32 = 2000;

#[derive(Clone, Copy)]
struct Span {
    start: usize,
    width: usize,
}

// Where a part begins, if the variable is there and the part lies inside.
#[inline]
fn part(spans: &[Option<Span>], name: usize, offset: usize, count: usize) -> Option<usize> {
    let span = (*spans.get(name)?)?;
    if count < 1 || count > 64 || offset > span.width || count > span.width - offset {
        return None;
    }
    Some(span.start + offset)
}

trait Host {
    fn read(&self, name: usize, offset: usize, count: usize) -> Option<u64>;
    fn write(&mut self, name: usize, offset: usize, count: usize, value: u64) -> Option<()>;
}

struct Words<'a> {
    words: &'a mut [u64],
    spans: Vec<Option<Span>>,
}

impl Host for Words<'_> {
    fn read(&self, name: usize, offset: usize, count: usize) -> Option<u64> {
        let at = part(&self.spans, name, offset, count)?;
        let (word, shift) = (at / 64, at % 64);
        let mut value = self.words[word] >> shift;
        if shift + count > 64 {
            value |= self.words[word + 1] << (64 - shift);
        }
        Some(value & (u64::MAX >> (64 - count)))
    }

    fn write(&mut self, name: usize, offset: usize, count: usize, value: u64) -> Option<()> {
        let at = part(&self.spans, name, offset, count)?;
        let (word, shift) = (at / 64, at % 64);
        let mask = u64::MAX >> (64 - count);
        let value = value & mask;
        self.words[word] = self.words[word] & !(mask << shift) | value << shift;
        if shift + count > 64 {
            let high = mask >> (64 - shift);
            self.words[word + 1] = self.words[word + 1] & !high | value >> (64 - shift);
        }
        Some(())
    }
}

struct Bytes<'a> {
    bytes: &'a mut [u8],
    spans: Vec<Option<Span>>,
}

impl Bytes<'_> {
    // Up to eight bytes from `from` on, the first one highest.
    #[inline]
    fn load(&self, from: usize) -> u64 {
        match self.bytes.get(from..from + 8) {
            Some(eight) => u64::from_be_bytes(eight.try_into().unwrap()),
            None => {
                let mut eight = [0; 8];
                let rest = &self.bytes[from..];
                eight[..rest.len()].copy_from_slice(rest);
                u64::from_be_bytes(eight)
            }
        }
    }

    #[inline]
    fn store(&mut self, from: usize, value: u64) {
        let eight = value.to_be_bytes();
        match self.bytes.get_mut(from..from + 8) {
            Some(there) => there.copy_from_slice(&eight),
            None => {
                let rest = &mut self.bytes[from..];
                rest.copy_from_slice(&eight[..rest.len()]);
            }
        }
    }
}

impl Host for Bytes<'_> {
    fn read(&self, name: usize, offset: usize, count: usize) -> Option<u64> {
        let at = part(&self.spans, name, offset, count)?;
        let (from, shift) = (at / 8, at % 8);
        let mut row = self.load(from) << shift;
        if shift + count > 64 {
            row |= u64::from(self.bytes[from + 8]) >> (8 - shift);
        }
        Some(row.reverse_bits() & (u64::MAX >> (64 - count)))
    }

    fn write(&mut self, name: usize, offset: usize, count: usize, value: u64) -> Option<()> {
        let at = part(&self.spans, name, offset, count)?;
        let (from, shift) = (at / 8, at % 8);
        let mask = (u64::MAX >> (64 - count)).reverse_bits();
        let row = value.reverse_bits() & mask;
        let old = self.load(from);
        self.store(from, old & !(mask >> shift) | row >> shift);
        if shift + count > 64 {
            let (mask, row) = ((mask << (8 - shift)) as u8, (row << (8 - shift)) as u8);
            self.bytes[from + 8] = self.bytes[from + 8] & !mask | row;
        }
        Some(())
    }
}

fn read_all<H: Host>(host: &H, name: usize) -> u64 {
    let mut mixed = 0u64;
    for _ in 0..ROUNDS {
        for i in 0..PARTS {
            if let Some(part) = host.read(name, 64 * i + 1, 64) {
                mixed = mixed.rotate_left(1) ^ part;
            }
        }
    }
    mixed
}

fn write_all<H: Host>(host: &mut H, name: usize) {
    let mut value = 0x9e37_79b9_7f4a_7c15u64;
    for _ in 0..ROUNDS {
        for i in 0..PARTS {
            let _ = host.write(name, 64 * i + 1, 64, value);
            value = value.rotate_left(5) ^ 0x517c_c1b7_2722_0a95;
        }
    }
}

fn time<H: Host>(what: &str, host: &mut H, name: usize) {
    let start = Instant::now();
    write_all(black_box(host), name);
    let written = start.elapsed().as_nanos();
    let start = Instant::now();
    let mixed = read_all(black_box(host), name);
    let read = start.elapsed().as_nanos();
    println!("{what} write {written} read {read} mixed {mixed:016x}");
}

fn main() {
    let spans = || vec![Some(Span { start: 0, width: 2 }), Some(Span { start: 2, width: 65_536 })];
    let mut words = vec![0u64; 1026];
    time("words", &mut Words { words: &mut words, spans: spans() }, 1);
    let mut bytes = vec![0u8; 8208];
    time("bytes", &mut Bytes { bytes: &mut bytes, spans: spans() }, 1);
}
