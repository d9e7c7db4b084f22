//! Measures the proved library beside the independent implementation, in one run: compile, check and run, and the oatmeal script over a million texels. Prints a
//! table; ratios are the library's time over the other's.
mod programs;

use std::hint::black_box;
use std::time::Instant;

/// The shortest of several turns, in seconds.
fn best(turns: u32, mut work: impl FnMut()) -> f64 {
    (0..turns)
        .map(|_| {
            let start = Instant::now();
            work();
            start.elapsed().as_secs_f64()
        })
        .fold(f64::MAX, f64::min)
}

fn line(what: &str, unit: &str, plain: f64, ours: f64, count: f64) {
    println!("| {what} | {:.2} | {:.1} | {:.1} | {unit} |", ours / plain, ours * 1e9 / count, plain * 1e9 / count);
}

fn compile(what: &str, table: &[u32], times: u32) {
    let mut a = vec![0u32; 1 << 19];
    let mut b = a.clone();
    let plain = best(9, || {
        for _ in 0..times {
            black_box(plain::compile::compile(black_box(table), &mut a)).ok();
        }
    });
    let ours = best(9, || {
        for _ in 0..times {
            black_box(ribbandage::compile(black_box(table), &mut b)).ok();
        }
    });
    assert!(a == b, "the tapes differ");
    line(what, "table record", plain, ours, times as f64 * (table.len() / 4) as f64);
}

fn check(what: &str, tape: &[u32]) {
    let plain = best(9, || {
        black_box(plain::check::check(black_box(tape))).ok();
    });
    let ours = best(9, || {
        black_box(ribbandage::check(black_box(tape))).ok();
    });
    line(what, "tape record", plain, ours, (tape.len() / 4) as f64);
}

fn run(what: &str, tape: &[u32], bytes: usize) {
    let (mut a, mut b) = (vec![1u8; bytes], vec![1u8; bytes]);
    let steps = ribbandage::check(tape).expect("an accepted tape");
    let plain = best(3, || {
        black_box(plain::machine::run(black_box(tape), &[5], &mut a, u32::MAX));
    });
    let ours = best(3, || {
        black_box(ribbandage::run(black_box(tape), &[5], &mut b, u32::MAX)).ok();
    });
    assert!(a == b, "the bytes differ");
    line(&format!("{what}, {steps} steps"), "counted step", plain, ours, steps as f64);
}

fn texels(tape: &[u32]) {
    const TEXELS: u32 = 1_000_000;
    let plain = best(3, || {
        for p in 0..TEXELS {
            black_box(plain::machine::run(black_box(tape), &[p % 256], &mut [], u32::MAX));
        }
    });
    let ours = best(3, || {
        for p in 0..TEXELS {
            black_box(ribbandage::run(black_box(tape), &[p % 256], &mut [], u32::MAX)).ok();
        }
    });
    line("oatmeal over 1,000,000 texels, tape checked each time", "texel", plain, ours, TEXELS as f64);
}

fn main() {
    println!("| what | ratio | library, ns | safe Rust, ns | for each |");
    println!("|---|---|---|---|---|");
    compile("compile, 40 records", &programs::table_of_40(), 20_000);
    compile("compile, 4,096 records", &programs::table_of_4096(), 200);
    check("check, 131,072 records, 8 loops deep", &programs::full());
    run("run, masked arithmetic in a loop", &programs::masked(), 0);
    run("run, array reads and writes", &programs::arrays(), 8192);
    run("run, calls", &programs::calls(), 0);
    let mut tape = vec![0u32; 4096];
    let compiled = ribbandage::compile(&programs::oatmeal(), &mut tape).expect("the oatmeal script");
    texels(&tape[..compiled.records * 4]);
}
