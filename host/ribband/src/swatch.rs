//! A script over every texel of an image.
use crate::commands::tape;
use crate::image::{png, ppm, read, Image};
use crate::options::words;
use crate::records::four;
use crate::{files, Stop, BAD};
use ribbandage::Ran;
use std::io::{IsTerminal, Write};

pub fn swatch(given: &[&str]) -> Result<(), Stop> {
    let words = words(given, &["-o"])?;
    let [script, from] = words.exactly(["TABLE", "IMAGE"])?;
    let to = words.required("-o")?;
    let table = files::words(script)?;
    let (tape, steps) = tape(script, &table)?;
    let parameters = parameters(&table);
    if parameters != 1 && parameters != 3 {
        return Err(Stop::bad(format!("{script}: takes {parameters} parameters, and a swatch's script takes one, or three for r, g, b")));
    }
    let image = read(from, &files::bytes(from, 1 << 30)?)?;
    let worked = work(&tape, bytes(&table), parameters, &image)?;
    files::write(to, &if to.to_ascii_lowercase().ends_with(".png") { png(&worked) } else { ppm(&worked) })?;
    println!("{to}: {} by {} texels, {steps} steps a run", worked.width, worked.height);
    Ok(())
}

/// Of the last function of a table that was compiled.
fn parameters(table: &[u32]) -> u32 {
    table.chunks_exact(4).rev().find(|x| x[0] == 3).map_or(0, |x| x[1])
}

/// The arrays' lengths together, of a table that was compiled.
fn bytes(table: &[u32]) -> usize {
    let arrays = table[2] as usize;
    (1..=arrays).filter_map(|at| four(table, at)).map(|x| x[1] as usize).sum()
}

fn work(tape: &[u32], bytes: usize, parameters: u32, image: &Image) -> Result<Image, Stop> {
    let mut memory = vec![0u8; bytes];
    let mut texels = Vec::with_capacity(image.texels.len());
    let mut progress = Progress::new(image.height);
    for row in image.texels.chunks_exact(image.width * 3) {
        for texel in row.chunks_exact(3) {
            if parameters == 3 {
                let arguments = [texel[0] as u32, texel[1] as u32, texel[2] as u32];
                let value = value(tape, &arguments, &mut memory)?;
                texels.extend([(value >> 16) as u8, (value >> 8) as u8, value as u8]);
            } else {
                for byte in texel {
                    texels.push(value(tape, &[*byte as u32], &mut memory)? as u8);
                }
            }
        }
        progress.row();
    }
    Ok(Image { width: image.width, height: image.height, texels })
}

fn value(tape: &[u32], arguments: &[u32], memory: &mut [u8]) -> Result<u32, Stop> {
    memory.fill(0);
    match ribbandage::run(tape, arguments, memory, u32::MAX) {
        Ok(Ran::Done { value, .. }) => Ok(value),
        _ => Err(Stop { line: "a compiled tape was not run to its end".into(), status: BAD }),
    }
}

/// A bar on standard error, where that is a terminal.
struct Progress {
    rows: usize,
    done: usize,
    shown: bool,
}

impl Progress {
    fn new(rows: usize) -> Progress {
        Progress { rows, done: 0, shown: std::io::stderr().is_terminal() }
    }

    fn row(&mut self) {
        self.done += 1;
        let (now, before) = (self.done * 40 / self.rows, (self.done - 1) * 40 / self.rows);
        if self.shown && now != before {
            let end = if self.done == self.rows { "\n" } else { "" };
            eprint!("\r[{}{}]{end}", "#".repeat(now), " ".repeat(40 - now));
            let _ = std::io::stderr().flush();
        }
    }
}
