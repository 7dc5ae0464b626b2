//! What the yardsticks share: the file that the only word names, read whole.
use std::io::ErrorKind;
use std::process::exit;

/// The file's bytes, or the end of the program: status 2 without one word, 4 where the file can't be read, 1 without memory.
pub fn read_file() -> Vec<u8> {
    let words: Vec<_> = std::env::args_os().collect();
    let [_, path] = words.as_slice() else { exit(2) };
    std::fs::read(path).unwrap_or_else(|error| exit(if error.kind() == ErrorKind::OutOfMemory { 1 } else { 4 }))
}
