//! The yardstick of bench/audit.py, in plain Rust: reads a report, and then cuts it into lines and each line into words, and
//! reads each word that is a number. Prints the nanoseconds of that pass before what it found.
mod read_file;

use std::time::Instant;

#[derive(Default)]
struct Found {
    lines: u64,
    words: u64,
    numbers: u64,
    sum: u64,
}

impl Found {
    /// Cuts a text into the lines that an LF ends.
    fn take_text(&mut self, text: &[u8]) {
        let mut lines = text.split(|byte| *byte == b'\n');
        // Behind the last LF there is none.
        lines.next_back();
        for line in lines {
            self.take_line(line);
        }
    }

    /// Cuts a line into words.
    fn take_line(&mut self, line: &[u8]) {
        self.lines += 1;
        for word in line.split(|byte| *byte == b' ') {
            self.take_word(word);
        }
    }

    /// Reads a word, and counts it.
    fn take_word(&mut self, word: &[u8]) {
        self.words += 1;
        if word.is_empty() {
            return;
        }
        let mut value: u64 = 0;
        for byte in word {
            if !byte.is_ascii_digit() {
                return;
            }
            value = value.wrapping_mul(10).wrapping_add(u64::from(byte - b'0'));
        }
        self.numbers += 1;
        self.sum = self.sum.wrapping_add(value);
    }
}

fn main() {
    let text = read_file::read_file();
    let start = Instant::now();
    let mut found = Found::default();
    found.take_text(&text);
    let taken = start.elapsed().as_nanos();
    let Found { lines, words, numbers, sum } = found;
    println!("{taken} lines {lines} words {words} numbers {numbers} sum {sum}");
}
