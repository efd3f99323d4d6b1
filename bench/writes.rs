//! Writes the report of a script of broadcasts and does nothing else: as many bytes, and as many
//! integers turned into digits. `bench/run.sh` compares the proved program with it on that script.
//! No part of the product or of the checks.
//!
//! Build it with `rustc --edition 2021 -O bench/writes.rs`.
use std::io::Write;

const THREADS: u64 = 64;
const LINES: u64 = 20_000;
const SLOTS: u64 = 256;
const BUFFER: usize = 1 << 16;

struct Report {
    bytes: Vec<u8>,
    pairs: Vec<u8>,
}

impl Report {
    fn text(&mut self, text: &[u8]) {
        self.bytes.extend_from_slice(text);
    }

    /// The digits, two at a time from a table.
    fn number(&mut self, mut n: u64) {
        let mut digits = [0; 20];
        let mut start = digits.len();
        while n >= 100 {
            let pair = (n % 100) as usize * 2;
            n /= 100;
            start -= 2;
            digits[start..start + 2].copy_from_slice(&self.pairs[pair..pair + 2]);
        }
        if n < 10 {
            start -= 1;
            digits[start] = b'0' + n as u8;
        } else {
            start -= 2;
            let pair = n as usize * 2;
            digits[start..start + 2].copy_from_slice(&self.pairs[pair..pair + 2]);
        }
        self.bytes.extend_from_slice(&digits[start..]);
    }

    fn words(&mut self, words: &[(&[u8], u64)]) {
        for (text, n) in words {
            self.text(text);
            self.number(*n);
        }
        self.text(b"\n");
    }
}

fn main() -> std::io::Result<()> {
    let pairs = (0..100).flat_map(|n| [b'0' + n / 10, b'0' + n % 10]).collect();
    let mut report = Report { bytes: Vec::with_capacity(2 * BUFFER), pairs };
    let mut out = std::io::stdout().lock();
    for line in 1..=THREADS {
        let cred = line - 1;
        let init: [(&[u8], u64); 8] = [
            (b"", line), (b" init t", line), (b" p", 1), (b" ", 0), (b" ", 0), (b" n", 0),
            (b" -> ok c", cred), (b" s", cred),
        ];
        report.words(&init);
    }
    let mut cred = THREADS;
    for line in THREADS + 1..=LINES {
        let begin: [(&[u8], u64); 8] = [
            (b"", line), (b" begin t", 1), (b" setresuid ", 0), (b" ", 0), (b" ", 0),
            (b" -> ok c", cred), (b" s", cred % SLOTS), (b" left ", THREADS - 1),
        ];
        report.words(&begin);
        cred += 1;
        for task in 2..=THREADS {
            let act: [(&[u8], u64); 6] = [
                (b"", line), (b" act ", line), (b" -> ok t", task), (b" c", cred),
                (b" s", cred % SLOTS), (b" left ", THREADS - task),
            ];
            report.words(&act);
            cred += 1;
        }
        if report.bytes.len() > BUFFER {
            out.write_all(&report.bytes)?;
            report.bytes.clear();
        }
    }
    out.write_all(&report.bytes)
}
