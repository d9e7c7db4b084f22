//! compile, check and run.
use crate::options::{number, words};
use crate::records::four;
use crate::{files, Stop, BAD, REFUSED, STOPPED};
use ribbandage::{Ran, Refusal};

/// A refusal as one line: number, sentence, record and its four words.
pub fn refused(path: &str, words: &[u32], refusal: Refusal) -> Stop {
    let mut line = format!("{path}: {refusal}");
    if refusal.at_record() {
        if let Some([kind, p, q, r]) = four(words, refusal.place) {
            line += &format!(": {kind} {p} {q} {r}");
        }
    }
    Stop { line, status: REFUSED }
}

/// The tape of a table. A first call with no room tells how much there must be.
pub fn tape(path: &str, table: &[u32]) -> Result<(Vec<u32>, u32), Stop> {
    let mut out = match ribbandage::compile(table, &mut []) {
        Err(Refusal { number: 13, place }) => vec![0; place * 4],
        Err(refusal) => return Err(refused(path, table, refusal)),
        Ok(_) => vec![],
    };
    let compiled = ribbandage::compile(table, &mut out).map_err(|refusal| refused(path, table, refusal))?;
    Ok((out, compiled.steps))
}

pub fn compile(given: &[&str]) -> Result<(), Stop> {
    let words = words(given, &["-o"])?;
    let [from] = words.exactly(["TABLE"])?;
    let to = words.required("-o")?;
    let (out, steps) = tape(from, &files::words(from)?)?;
    files::write_words(to, &out)?;
    println!("{to}: {} records, each run takes {steps} steps", out.len() / 4);
    Ok(())
}

pub fn check(given: &[&str]) -> Result<(), Stop> {
    let words = words(given, &[])?;
    let [path] = words.exactly(["TAPE"])?;
    let tape = files::words(path)?;
    let steps = ribbandage::check(&tape).map_err(|refusal| refused(path, &tape, refusal))?;
    println!("{path}: accepted, {} records, each run takes {steps} steps", tape.len() / 4);
    Ok(())
}

pub fn run(given: &[&str]) -> Result<(), Stop> {
    let words = words(given, &["--memory", "--args", "--limit", "--out"])?;
    let [path] = words.exactly(["TAPE"])?;
    let arguments = match words.option("--args") {
        None | Some("") => vec![],
        Some(list) => list.split(',').map(|n| number(n.trim(), "an argument")).collect::<Result<Vec<u32>, Stop>>()?,
    };
    let limit = words.option("--limit").map_or(Ok(u32::MAX), |n| number(n, "the limit"))?;
    let mut memory = words.option("--memory").map_or(Ok(vec![]), |file| files::bytes(file, 1 << 20))?;
    let tape = files::words(path)?;
    let ran = ribbandage::run(&tape, &arguments, &mut memory, limit).map_err(|r| refused(path, &tape, r))?;
    match ran {
        Ran::Done { value, steps } => {
            if let Some(out) = words.option("--out") {
                files::write(out, &memory)?;
            }
            println!("value {value}, {steps} steps");
            Ok(())
        }
        Ran::Stopped { steps, record } => {
            let [kind, p, q, r] = four(&tape, record).ok_or(Stop { line: "no such record".into(), status: BAD })?;
            Err(Stop {
                line: format!("{path}: stopped by the limit after {steps} steps, before record {record}: {kind} {p} {q} {r}"),
                status: STOPPED,
            })
        }
    }
}
