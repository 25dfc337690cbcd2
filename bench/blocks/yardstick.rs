//! The yardstick: the same blocks by plain `pwrite` and `pread`, with as many rounds as the crate `block_bench`. Each line is a
//! call's name and the processor time of all blocks in nanoseconds, the system's part included.
#[path = "../clock.rs"]
mod clock;

use clock::thread_cpu_time;
use std::fs::OpenOptions;
use std::io;
use std::os::unix::fs::FileExt;

const ROUNDS: u32 = 5;

/// A page's block: its header, and bytes of which the first is the lowest of the block's number.
fn write_blocks(file: &std::fs::File, blocks: u32, block: &mut [u8; 1024]) -> io::Result<()> {
    for at in 0..blocks {
        block[8..12].copy_from_slice(&at.to_le_bytes());
        block[16] = at as u8;
        file.write_all_at(block, u64::from(at) * 1024)?;
    }
    Ok(())
}

fn read_blocks(file: &std::fs::File, blocks: u32, block: &mut [u8; 1024]) -> io::Result<u64> {
    let mut sum = 0;
    for at in 0..blocks {
        file.read_exact_at(block, u64::from(at) * 1024)?;
        sum += u64::from(block[16]);
    }
    Ok(sum)
}

fn main() -> io::Result<()> {
    let words: Vec<String> = std::env::args().skip(1).collect();
    let blocks: u32 = words[1].parse().expect("a number");
    let file = OpenOptions::new().read(true).write(true).create(true).truncate(false).open(&words[0])?;
    file.set_len(u64::from(blocks) * 1024)?;
    let mut block = [7; 1024];
    block[..16].copy_from_slice(b"IQB1\x05\0\0\0\0\0\0\0\0\0\0\0");
    write_blocks(&file, blocks, &mut block)?;
    let start = thread_cpu_time();
    for _ in 0..ROUNDS {
        write_blocks(&file, blocks, &mut block)?;
    }
    let written = thread_cpu_time();
    let mut sum = 0;
    for _ in 0..ROUNDS {
        sum += read_blocks(&file, blocks, &mut block)?;
    }
    let end = thread_cpu_time();
    println!("write {}", written - start);
    println!("read {} ({sum})", end - written);
    Ok(())
}
