//! The oatmeal script, compiled and run: what the old fault gave, and what this gives.
use crate::assemble::records;
use crate::commands::tape;
use crate::options::words;
use crate::{Stop, BAD};
use ribbandage::Ran;

pub const OATMEAL: &str = include_str!("../oatmeal.txt");

pub fn demo(given: &[&str]) -> Result<(), Stop> {
    words(given, &[])?.exactly([] as [&str; 0])?;
    let table = records("oatmeal", OATMEAL)?;
    let (tape, steps) = tape("oatmeal", &table)?;
    println!("The oatmeal script, for a colour p:\n");
    println!("    f := p < 128");
    println!("    x := p");
    println!("    if f then (f := FALSE; x := x * 2) else x := x + 100");
    println!("    return x\n");
    println!("Its table has {} records, its tape {}, and each run takes {steps} steps.\n", table.len() / 4, tape.len() / 4);
    println!("The first branch changes f, its own condition. The old compiler read f a second time for the other branch, which then ran as well:");
    println!("10 became 20 and then 120, and oatmeal came out as chalk. Here the condition is worked out once:\n");
    for p in [10, 200] {
        let Ok(Ran::Done { value, steps }) = ribbandage::run(&tape, &[p], &mut [], u32::MAX) else {
            return Err(Stop { line: "the oatmeal tape was not run to its end".into(), status: BAD });
        };
        println!("    {p:3} gives {value:3} in {steps} steps");
    }
    println!("\nBoth runs do the same {steps} steps, record by record. The oatmeal is oatmeal.");
    Ok(())
}
