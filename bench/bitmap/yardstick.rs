//! The yardstick: plain loops over `u64` words, for the same bitmaps and as many rounds as the crate `bitmap_bench`, and
//! copies of pages of 1,008 bytes. Each line is a call's name and the processor time of one round in nanoseconds.
#[path = "../clock.rs"]
mod clock;

use clock::thread_cpu_time;
use std::hint::black_box;

const WORDS: usize = 2_097_152 / 64;
const ROUNDS: u64 = 200;
const PAGE: usize = 1008;
const PAGES: usize = (WORDS * 8).div_ceil(PAGE);

fn spaced(distance: usize) -> Vec<u64> {
    let mut words = vec![0u64; WORDS];
    for row in (0..WORDS * 64).step_by(distance) {
        words[row / 64] |= 1 << (row % 64);
    }
    words
}

#[inline(never)]
fn and_with(kept: &mut [u64], other: &[u64]) {
    for (word, with) in kept.iter_mut().zip(other) {
        *word &= *with;
    }
}

#[inline(never)]
fn count(words: &[u64]) -> u32 {
    words.iter().map(|word| word.count_ones()).sum()
}

/// Each page through one buffer, as the calls of a bitmap go.
#[inline(never)]
fn load_pages(rows: &mut [u8], page: &[u8; PAGE]) {
    for into in rows.chunks_mut(PAGE) {
        into.copy_from_slice(&black_box(page)[..into.len()]);
    }
}

#[inline(never)]
fn store_pages(rows: &[u8], page: &mut [u8; PAGE]) {
    for from in rows.chunks(PAGE) {
        black_box(&mut *page)[..from.len()].copy_from_slice(from);
    }
}

fn time(name: &str, mut call: impl FnMut()) {
    let from = thread_cpu_time();
    for _ in 0..ROUNDS {
        call();
    }
    println!("{name} {}", (thread_cpu_time() - from) / ROUNDS);
}

fn main() {
    let mut third = spaced(3);
    let fifth = spaced(5);
    time("and_with", || and_with(black_box(&mut third), black_box(&fifth)));
    time("count", || {
        black_box(count(black_box(&third)));
    });
    let mut rows = vec![7u8; PAGES * PAGE];
    let mut page = [5u8; PAGE];
    time("load_page", || load_pages(black_box(&mut rows), &page));
    time("store_page", || store_pages(black_box(&rows), &mut page));
}
