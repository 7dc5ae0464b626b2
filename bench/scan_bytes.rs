//! The yardstick of bench/bytes.py for bytes, in plain Rust: reads a file, and then finds every '=' and every SOH and adds up
//! every byte. Prints the nanoseconds of that pass before what it found.
mod read_file;

use std::time::Instant;

const SOH: u8 = 1;

fn main() {
    let text = read_file::read_file();
    let start = Instant::now();
    let (mut equals, mut ends, mut sum) = (0u64, 0u64, 0u64);
    for byte in &text {
        if *byte == b'=' {
            equals += 1;
        }
        if *byte == SOH {
            ends += 1;
        }
        sum += u64::from(*byte);
    }
    let taken = start.elapsed().as_nanos();
    println!("{taken} equals {equals} ends {ends} sum {sum}");
}
