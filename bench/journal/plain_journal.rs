//! The yardstick of `journal_speed`, in plain Rust: writes the bytes of a journal of Heartbeats, so many a batch: the batch
//! behind the closed gate, a data sync, the gate, a data sync. `plain_journal FILE BATCH COUNT` prints how many nanoseconds
//! COUNT batches took.
use std::fs::{File, OpenOptions};
use std::io;
use std::os::unix::fs::{FileExt, OpenOptionsExt};
use std::process::ExitCode;
use std::time::Instant;

const HEAD: usize = 59;
const BODY: &[u8] = b"35=0\x01";
const RECORD: usize = HEAD + BODY.len();
const LENGTH: usize = 4;
const ADMIN: u8 = 2;
const MORNING: u64 = 1_767_605_400_000;
const OPEN: u8 = 1;
const CLOSED: u8 = 0;

fn put_record(to: &mut [u8], number: u64) {
    to[..HEAD].fill(0);
    to[2] = ADMIN;
    to[3..11].copy_from_slice(&number.to_be_bytes());
    to[43..51].copy_from_slice(&MORNING.to_be_bytes());
    to[51..55].copy_from_slice(&1u32.to_be_bytes());
    to[55..HEAD].copy_from_slice(&(BODY.len() as u32).to_be_bytes());
    to[HEAD..].copy_from_slice(BODY);
}

/// Writes so many batches behind the gate at the file's beginning.
fn write_batches(file: &File, text: &mut [u8], count: u64) -> io::Result<()> {
    let (mut gate, mut number) = (0, 0);
    let records = LENGTH..text.len() - 1;
    for _ in 0..count {
        text[..LENGTH].copy_from_slice(&(records.len() as u32).to_be_bytes());
        for record in text[records.clone()].chunks_exact_mut(RECORD) {
            number += 1;
            put_record(record, number);
        }
        text[records.end] = CLOSED;
        file.write_all_at(text, gate + 1)?;
        file.sync_data()?;
        file.write_all_at(&[OPEN], gate)?;
        file.sync_data()?;
        gate += text.len() as u64;
    }
    Ok(())
}

/// The nanoseconds that so many batches of so many records took.
fn run(path: &str, batch: usize, count: u64) -> io::Result<u128> {
    let mut text = vec![0; LENGTH + batch * RECORD + 1];
    let file = OpenOptions::new().read(true).write(true).create(true).truncate(false).mode(0o644).open(path)?;
    file.write_all_at(&[CLOSED], 0)?;
    file.sync_data()?;
    let start = Instant::now();
    write_batches(&file, &mut text, count)?;
    Ok(start.elapsed().as_nanos())
}

fn main() -> ExitCode {
    let words: Vec<String> = std::env::args().collect();
    let [_, path, batch, count] = words.as_slice() else { return ExitCode::from(2) };
    let (Ok(batch), Ok(count)) = (batch.parse(), count.parse()) else { return ExitCode::from(2) };
    match run(path, batch, count) {
        Ok(taken) => println!("{taken}"),
        Err(error) => {
            eprintln!("plain_journal: {error}");
            return ExitCode::from(1);
        }
    }
    ExitCode::SUCCESS
}
