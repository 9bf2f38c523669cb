//! Files of cases and answers: little-endian numbers and plain bytes.

use std::fs::File;
use std::io::{BufRead, BufReader, BufWriter, Read, Write};

pub struct Writing {
    output: BufWriter<File>,
}

impl Writing {
    pub fn create(path: &str) -> Writing {
        let file = File::create(path).unwrap_or_else(|error| quit(path, error));
        Writing { output: BufWriter::with_capacity(1 << 20, file) }
    }

    pub fn bytes(&mut self, bytes: &[u8]) {
        self.output.write_all(bytes).unwrap_or_else(|error| quit("writing", error));
    }

    pub fn numbers(&mut self, numbers: &[u64]) {
        for number in numbers {
            self.bytes(&number.to_le_bytes());
        }
    }

    pub fn finish(mut self) {
        self.output.flush().unwrap_or_else(|error| quit("writing", error));
    }
}

pub struct Reading {
    input: BufReader<File>,
}

impl Reading {
    pub fn open(path: &str) -> Reading {
        let file = File::open(path).unwrap_or_else(|error| quit(path, error));
        Reading { input: BufReader::with_capacity(1 << 20, file) }
    }

    pub fn at_end(&mut self) -> bool {
        self.input.fill_buf().unwrap_or_else(|error| quit("reading", error)).is_empty()
    }

    /// The next `length` bytes, or none if the file ends before them.
    pub fn bytes(&mut self, length: u64) -> Option<Vec<u8>> {
        let mut bytes = Vec::new();
        let read = self.input.by_ref().take(length).read_to_end(&mut bytes);
        read.unwrap_or_else(|error| quit("reading", error));
        (bytes.len() as u64 == length).then_some(bytes)
    }

    pub fn number(&mut self) -> Option<u64> {
        let [number] = self.some()?;
        Some(number)
    }

    pub fn some<const N: usize>(&mut self) -> Option<[u64; N]> {
        let mut numbers = [0; N];
        for number in &mut numbers {
            let mut bytes = [0; 8];
            self.input.read_exact(&mut bytes).ok()?;
            *number = u64::from_le_bytes(bytes);
        }
        Some(numbers)
    }

    /// `count` numbers, or none if the file ends before them.
    pub fn many(&mut self, count: u64) -> Option<Vec<u64>> {
        (0..count).map(|_| self.number()).collect()
    }
}

fn quit(what: &str, error: std::io::Error) -> ! {
    eprintln!("second: {what}: {error}");
    std::process::exit(2)
}
