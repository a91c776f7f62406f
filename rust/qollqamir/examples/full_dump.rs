//! `cargo run --release --example full_dump FILE..` times all that PSV0 shows of each file through the crate: by an opened container, which keeps its
//! places, and by calls that open the bytes each time, as the crate did before it kept them.

use qollqamir::{raw, Container};
use std::hint::black_box;
use std::time::Instant;

const EDITION: usize = 3;

/// Everything by one opening. Answers how many questions were asked.
fn kept(bytes: &[u8]) -> usize {
    let container = Container::open(bytes, EDITION).expect("it opens");
    black_box((container.runtime(), container.stage_union(), container.sections()));
    let lengths = black_box(container.lengths());
    let resources = lengths.resources.unwrap_or(0) as usize;
    let elements = lengths.elements.unwrap_or(0) as usize;
    for i in 0..resources {
        let _ = black_box(container.resource(i));
    }
    for i in 0..elements {
        let _ = black_box((container.element(i), container.element_string(i), container.element_array(i)));
    }
    let _ = black_box(container.entry_name());
    for m in 0..11 {
        let _ = black_box(container.mask(m));
    }
    4 + resources + 3 * elements + 1 + 11 + 6
}

/// The same questions, each with an opening of its own.
fn opened_each_time(bytes: &[u8]) -> usize {
    let opening = raw::open(bytes, EDITION);
    assert_eq!(opening.verdict.number, 0, "it opens");
    let view = |kind, number| black_box(raw::view(bytes, EDITION, kind, number));
    black_box(raw::runtime_info(bytes, EDITION));
    view(0, 0);
    for section in 0..6 {
        black_box(raw::section(bytes, EDITION, section));
    }
    let lengths = black_box(raw::lengths(bytes, EDITION));
    for i in 0..lengths.resources.value as usize {
        black_box(raw::resource(bytes, EDITION, i));
    }
    for i in 0..lengths.elements.value as usize {
        black_box(raw::element(bytes, EDITION, i));
        view(1, i);
        view(2, i);
    }
    view(3, 0);
    for m in 0..11 {
        view(4, m);
    }
    4 + lengths.resources.value as usize + 3 * lengths.elements.value as usize + 1 + 11 + 6
}

/// The median of 15 rounds, ns a run.
fn timed(run: impl Fn() -> usize) -> f64 {
    const RUNS: u32 = 2_000;
    let mut times: Vec<f64> = (0..15)
        .map(|_| {
            let start = Instant::now();
            for _ in 0..RUNS {
                black_box(run());
            }
            start.elapsed().as_nanos() as f64 / f64::from(RUNS)
        })
        .collect();
    times.sort_by(f64::total_cmp);
    times[7]
}

fn main() {
    println!("all that PSV0 shows, through the Rust crate: ns a file");
    for path in std::env::args().skip(1) {
        let bytes = std::fs::read(&path).expect("a file");
        if raw::open(&bytes, EDITION).verdict.number != 0 {
            continue;
        }
        assert_eq!(kept(&bytes), opened_each_time(&bytes));
        let (now, before) = (timed(|| kept(&bytes)), timed(|| opened_each_time(&bytes)));
        let name = path.rsplit('/').next().expect("a name");
        println!("{name:<44} {:>3} questions: one opening {now:>6.0}, one each {before:>6.0}, {:.2}", kept(&bytes), now / before);
    }
}
