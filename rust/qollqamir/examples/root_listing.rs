//! `cargo run --release --example root_listing` times listings of root signatures through the safe calls, at 1, 4 and 16 MB: judged once, and
//! then item by item, range by range. The time for one stays the same as there are more.

use qollqamir::{RootItem, RootSignature};
use std::hint::black_box;
use std::time::Instant;

/// Data in 1.1 of so many tables, each without ranges, and a last one with so many.
fn data(tables: u32, ranges: u32) -> Vec<u8> {
    let after = 24 + 12 * (tables + 1);
    let mut words = vec![2, tables + 1, 24, 0, 0, 0];
    (0..tables).for_each(|i| words.extend([0, i, 16]));
    words.extend([0, 0, after, ranges, after + 8]);
    words.extend((0..6 * ranges).map(|word| word % 5));
    words.into_iter().flat_map(u32::to_le_bytes).collect()
}

/// The least time of five runs in nanoseconds, and how many were listed.
fn timed(run: impl Fn() -> usize) -> (f64, usize) {
    let times = (0..5).map(|_| {
        let start = Instant::now();
        let count = black_box(run());
        (start.elapsed().as_nanos() as f64, count)
    });
    times.min_by(|a, b| a.0.total_cmp(&b.0)).expect("there are five")
}

fn main() {
    println!("root signatures through the safe Rust calls: ns for one item or range, least of five");
    for (megabytes, tables, ranges) in [(1, 43_000, 21_000), (4, 172_000, 84_000), (16, 690_000, 340_000)] {
        let data = data(tables, ranges);
        let read = || RootSignature::read(&data).expect("it is accepted");
        let (judging, items) = timed(|| read().items().len());
        let root = read();
        let (listing, tables) = timed(|| root.items().filter(|item| matches!(item, RootItem::Table { .. })).count());
        let (ranging, ranges) = timed(|| root.ranges(items - 1).filter(|range| range.flags.is_some()).count());
        let per = |time: f64, count: usize| time / count as f64;
        println!(
            "{megabytes:>3} MB, {tables} tables, {ranges} ranges: judged {:.2}, items {:.2}, ranges {:.2}",
            per(judging, items),
            per(listing, tables),
            per(ranging, ranges)
        );
    }
}
