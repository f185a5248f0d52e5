//! Compares `crc` with a CRC written apart from it, by both readings, and times it against a Rust loop with a table of 256 entries.
//!
//! `crc_bench compare` compares the results only; without a word it compares and then times.
use std::hint::black_box;
use std::process::ExitCode;
use std::time::Instant;

/// How many bytes the timed input has.
const AREA: usize = 65_536;
/// From how many bytes on `crc` makes its rows: its own constant of that name.
const LONG: usize = 4_096;

mod verified {
    extern "C" {
        fn crc_walk_bare(r: u16, s: *const u8, len: usize) -> u16;
        fn crc_walk_augmented(r: u16, s: *const u8, len: usize) -> u16;
    }

    pub fn bare(r: u16, s: &[u8]) -> u16 {
        // SAFETY: crc_walk_bare reads s.len() bytes from s.as_ptr() on, and keeps nothing.
        unsafe { crc_walk_bare(r, s.as_ptr(), s.len()) }
    }

    pub fn augmented(r: u16, s: &[u8]) -> u16 {
        // SAFETY: as above.
        unsafe { crc_walk_augmented(r, s.as_ptr(), s.len()) }
    }
}

/// The remainder of r and the bytes behind it by x^16 + x^12 + x^5 + 1, bit by bit: no table.
fn bare_bits(r: u16, s: &[u8]) -> u16 {
    let mut rest = u32::from(r);
    for &c in s {
        for bit in (0..8).rev() {
            rest = rest << 1 | u32::from(c >> bit & 1);
            if rest > 0xFFFF {
                rest ^= 0x11021;
            }
        }
    }
    rest as u16
}

/// The same with each bit added at x^16, as if sixteen zero bits stood behind the last.
fn augmented_bits(r: u16, s: &[u8]) -> u16 {
    let mut rest = u32::from(r);
    for &c in s {
        for bit in (0..8).rev() {
            rest = rest << 1 ^ u32::from(c >> bit & 1) << 16;
            if rest > 0xFFFF {
                rest ^= 0x11021;
            }
        }
    }
    rest as u16
}

static TABLE: [u16; 256] = table();

const fn table() -> [u16; 256] {
    let mut entries = [0; 256];
    let mut i = 0;
    while i < 256 {
        let mut rest = (i as u32) << 8;
        let mut bit = 0;
        while bit < 8 {
            rest <<= 1;
            if rest > 0xFFFF {
                rest ^= 0x11021;
            }
            bit += 1;
        }
        entries[i] = rest as u16;
        i += 1;
    }
    entries
}

/// The Rust loops to be held against.
#[inline(never)]
fn bare_table(s: &[u8]) -> u16 {
    let mut crc = 0;
    for &c in s {
        crc = TABLE[usize::from(crc >> 8)] ^ (crc << 8) ^ u16::from(c);
    }
    crc
}

#[inline(never)]
fn augmented_table(s: &[u8]) -> u16 {
    let mut crc = 0;
    for &c in s {
        crc = TABLE[usize::from(crc >> 8 ^ u16::from(c))] ^ (crc << 8);
    }
    crc
}

/// A reading of the CRC: the walk of `crc`, the one written apart from it, and the Rust loop.
struct Reading {
    name: &'static str,
    walk: fn(u16, &[u8]) -> u16,
    by_bits: fn(u16, &[u8]) -> u16,
    by_table: fn(&[u8]) -> u16,
    /// Of nothing, `A`, `AB`, `ABC`, `123456789` and 65,536 bytes 00 to FF over and over.
    known: [u16; 6],
}

/// The known CRCs: the first four are document 01's, the first two of the other reading request 2026-06's; all others come of a script of the
/// papers' rules, and 12739 is also the check value of CRC-16/XMODEM.
const READINGS: [Reading; 2] = [
    Reading {
        name: "bare",
        walk: verified::bare,
        by_bits: bare_bits,
        by_table: bare_table,
        known: [0, 65, 16_706, 6_822, 48_879, 38_405],
    },
    Reading {
        name: "augmented",
        walk: verified::augmented,
        by_bits: augmented_bits,
        by_table: augmented_table,
        known: [0, 22_757, 22_139, 14_740, 12_739, 58_088],
    },
];

impl Reading {
    /// In pieces too short for the rows, so by the table alone.
    fn in_pieces(&self, r: u16, s: &[u8]) -> u16 {
        s.chunks(LONG - 1).fold(r, self.walk)
    }
}

/// Numbers that look like chance, the same in each run: xorshift.
struct Numbers(u64);

impl Numbers {
    fn next(&mut self) -> u64 {
        self.0 ^= self.0 << 13;
        self.0 ^= self.0 >> 7;
        self.0 ^= self.0 << 17;
        self.0 >> 16
    }

    fn below(&mut self, limit: usize) -> usize {
        (self.next() % limit as u64) as usize
    }

    fn bytes(&mut self, len: usize) -> Vec<u8> {
        (0..len).map(|_| self.next() as u8).collect()
    }
}

struct Comparison {
    inputs: usize,
    wrong: usize,
}

impl Comparison {
    fn expect(&mut self, reading: &str, what: &str, len: usize, r: u16, got: u16, want: u16) {
        if got != want {
            self.wrong += 1;
            eprintln!(
                "DIFFERS: {reading}, {what}, {len} bytes from {r}: {got}, and {want} is right"
            );
        }
    }

    fn compare(&mut self, r: u16, s: &[u8]) {
        self.inputs += 1;
        let n = s.len();
        for q in &READINGS {
            let want = (q.by_bits)(r, s);
            self.expect(q.name, "the whole", n, r, (q.walk)(r, s), want);
            self.expect(q.name, "in pieces", n, r, q.in_pieces(r, s), want);
            if r == 0 {
                self.expect(q.name, "the Rust loop", n, r, (q.by_table)(s), want);
            }
        }
        if r == 0 {
            let want = verified::bare(0, &[s, &[0, 0]].concat());
            let got = verified::augmented(0, s);
            self.expect("augmented", "two zeros behind", n, r, got, want);
        }
    }
}

fn compare() -> Comparison {
    let mut c = Comparison {
        inputs: 0,
        wrong: 0,
    };
    let repeated: Vec<u8> = (0..AREA).map(|i| i as u8).collect();
    let inputs: [&[u8]; 6] = [b"", b"A", b"AB", b"ABC", b"123456789", &repeated];
    for (i, s) in inputs.into_iter().enumerate() {
        c.inputs += 1;
        for q in &READINGS {
            let want = q.known[i];
            c.expect(q.name, "a known CRC", s.len(), 0, (q.walk)(0, s), want);
            c.expect(q.name, "one in pieces", s.len(), 0, q.in_pieces(0, s), want);
        }
    }
    let mut numbers = Numbers(0x9E37_79B9_7F4A_7C15);
    let area = numbers.bytes(AREA);
    for len in (0..=300).chain([LONG - 1, LONG, LONG + 1, AREA - 1, AREA]) {
        c.compare(0, &area[..len]);
        c.compare(0xFFFF, &area[AREA - len..]);
    }
    for _ in 0..6_000 {
        let start = numbers.below(AREA);
        let len = numbers.below((AREA - start).min(3 * LONG) + 1);
        c.compare(numbers.next() as u16, &area[start..start + len]);
    }
    c
}

fn seconds(f: &mut dyn FnMut() -> u16) -> f64 {
    let start = Instant::now();
    black_box(f());
    start.elapsed().as_secs_f64()
}

fn report(what: &str, loops: &[f64], times: &[f64]) {
    let best = |t: &[f64]| t.iter().copied().fold(f64::MAX, f64::min);
    let mut ratios: Vec<f64> = loops.iter().zip(times).map(|(a, b)| a / b).collect();
    ratios.sort_by(f64::total_cmp);
    let at = |percent: usize| ratios[(ratios.len() - 1) * percent / 100];
    println!(
        "{what:<34} {:7.1} us   {:5.2} {:5.2}  [{:.2}..{:.2}]",
        best(times) * 1e6,
        best(loops) / best(times),
        at(50),
        at(10),
        at(90)
    );
}

/// All of them in each round, so that they see the same machine.
fn measure() {
    const ROUNDS: usize = 4_000;
    let area = Numbers(0x2545_F491_4F6C_DD1D).bytes(AREA);
    println!("{AREA} bytes, {ROUNDS} rounds          best    times the speed of the Rust loop: best over best, median [p10..p90]");
    let mut times = [const { [const { vec![] }; 3] }; READINGS.len()];
    for _ in 0..ROUNDS {
        for (q, [loops, rows, tables]) in READINGS.iter().zip(&mut times) {
            loops.push(seconds(&mut || (q.by_table)(black_box(&area))));
            rows.push(seconds(&mut || (q.walk)(0, black_box(&area))));
            tables.push(seconds(&mut || q.in_pieces(0, black_box(&area))));
        }
    }
    for (q, [loops, rows, tables]) in READINGS.iter().zip(&times) {
        println!("{}", q.name);
        report("Rust loop, table of 256 entries", loops, loops);
        report("crc, eight bytes at a time", loops, rows);
        report("crc, byte by byte (pieces of 4095)", loops, tables);
    }
}

fn main() -> ExitCode {
    let words: Vec<String> = std::env::args().skip(1).collect();
    let compares_only = match words.as_slice() {
        [] => false,
        [word] if word == "compare" => true,
        _ => {
            eprintln!("usage: crc_bench [compare]");
            return ExitCode::from(2);
        }
    };
    let c = compare();
    if c.wrong > 0 {
        eprintln!(
            "crc: {} of the results on {} inputs differ",
            c.wrong, c.inputs
        );
        return ExitCode::FAILURE;
    }
    println!(
        "crc: the results on {} inputs, by both readings, are those of a CRC written apart from it",
        c.inputs
    );
    if !compares_only {
        measure();
    }
    ExitCode::SUCCESS
}
