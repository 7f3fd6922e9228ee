//! The speed of the library under test against the second reader: the same
//! machine, the same input, one run, turn by turn.

mod c4ds;
mod calls;
mod cobs;
mod figures;
mod measure;
mod rescues;
mod slips;
mod sticks;
mod writers;

use calls::{write, Call, Lent, CALLS};
use measure::{one, Times};
use second::boundary::LINKED;
use std::hint::black_box;

const TURNS: usize = 201;

fn main() {
    if !LINKED {
        println!("*** The library under test is not linked: the right-hand side is the second");
        println!("*** reader behind the boundary (build with --features tds and TDS_LIB_DIR).");
    }
    println!("Median of {TURNS} turns, microseconds; lent rows are made once and not cleared.");
    println!("Copying is the time to copy the file's bytes, the limit for any reading.");
    let lent = &mut Lent::new();
    limit(lent);
    growth(lent);
}

/// All calls over all figures at the limit.
fn limit(lent: &mut Lent) {
    println!("\nfigure of 1,048,576 bytes call      copying    second   library     ratio    ns/B");
    for figure in figures::all(second::LIMIT) {
        let calls = CALLS.map(|call| (name(call), lent.time(call, &figure, TURNS)));
        lines(figure.what, &figure.bytes, &calls);
    }
    for figure in [
        figures::unlisted(second::LIMIT),
        figures::broken(second::LIMIT),
    ] {
        let times = rescues::times(&figure.bytes, TURNS);
        lines(figure.what, &figure.bytes, &[("Rescue", times)]);
    }
    for figure in c4ds::all() {
        let calls = c4ds::times(&figure.bytes, TURNS);
        lines(figure.what, &figure.bytes, &calls);
    }
    for figure in cobs::all() {
        let calls = cobs::times(&figure.bytes, TURNS);
        lines(figure.what, &figure.bytes, &calls);
    }
    let (size, times) = write(second::LIMIT, TURNS);
    lines("a bare figure", &vec![7; size], &[("Write", times)]);
    for (what, rows) in writers::all() {
        let (size, times) = writers::times(&rows, TURNS);
        lines(what, &vec![7; size], &[("Write", times)]);
    }
    slip();
    for (what, size, times) in sticks::times(TURNS / 20) {
        lines(what, &vec![7; size], &[("Judge", times)]);
    }
}

/// The sums of a file, and the slip that takes longest.
fn slip() {
    let bytes: Vec<u8> = (0..second::LIMIT).map(|k| (k * 31 % 251) as u8).collect();
    let times = slips::sums(&bytes, TURNS);
    lines("bytes", &bytes, &[("Sums", times)]);
    let (size, read, written) = slips::worst(TURNS / 20);
    let calls = [("Read", read), ("Write", written)];
    lines("the worst slip", &vec![7; size], &calls);
}

/// A line for each call over a file.
fn lines<Call: AsRef<str>>(what: &str, file: &[u8], calls: &[(Call, Times)]) {
    let copying = copying(file);
    for (call, times) in calls {
        line(what, call.as_ref(), copying, *times, file.len());
    }
}

/// One line: both times, their ratio, and the library's time for each byte.
fn line(what: &str, call: &str, copying: f64, times: Times, size: usize) {
    let Times { left, right } = times;
    let (ratio, each) = (right / left, 1e3 * right / size as f64);
    println!("{what:<26}{call:<8}{copying:>9.1}{left:>10.1}{right:>10.1}{ratio:>10.2}{each:>8.3}");
}

/// The time to copy bytes.
fn copying(bytes: &[u8]) -> f64 {
    let mut to = vec![0; bytes.len()];
    one(TURNS, || {
        black_box(&mut to[..]).copy_from_slice(black_box(bytes));
    })
}

/// The check and the list at growing sizes: nanoseconds for each byte, which
/// stay the same if the cost grows in a straight line.
fn growth(lent: &mut Lent) {
    println!("\nnanoseconds for each byte, second / library, at 2^14 to 2^20 bytes");
    for kind in 0..figures::all(1 << 14).len() {
        for call in CALLS {
            let mut cells = Vec::new();
            let mut what = "";
            for power in 14..=20 {
                let figure = figures::all(1 << power).swap_remove(kind);
                let times = lent.time(call, &figure, TURNS / 3);
                cells.push(each(times, figure.bytes.len()));
                what = figure.what;
            }
            println!("{what:<26}{:<8}{}", name(call), cells.join("  "));
        }
    }
    let sizes = (14..=20).map(|power| {
        let (size, times) = write(1 << power, TURNS / 3);
        each(times, size)
    });
    let cells: Vec<String> = sizes.collect();
    println!("{:<26}{:<8}{}", "a bare figure", "Write", cells.join("  "));
}

fn name(call: Call) -> String {
    format!("{call:?}")
}

/// Both times for each byte.
fn each(times: Times, size: usize) -> String {
    let [left, right] = [times.left, times.right].map(|time| 1e3 * time / size as f64);
    format!("{left:.3}/{right:.3}")
}
