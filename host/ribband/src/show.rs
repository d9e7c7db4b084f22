//! A listing of a table or a tape, record by record, indented by its structure.
use crate::options::words;
use crate::records::{fields, four, name, TABLE, TAPE};
use crate::{files, Stop};

pub fn show(given: &[&str]) -> Result<(), Stop> {
    let words = words(given, &[])?;
    let [path] = words.exactly(["TABLE or TAPE"])?;
    let file = files::words(path)?;
    let Some(table) = is_table(&file) else {
        return Err(Stop::bad(format!("{path}: is neither a table nor a tape: no function stands where one is due")));
    };
    let depths = if table { table_depths(&file) } else { tape_depths(&file) };
    let mut text = String::new();
    for (at, depth) in depths.iter().enumerate() {
        let Some(record) = four(&file, at) else { break };
        let names: &[(u32, &str)] = if table { &TABLE } else { &TAPE };
        let [kind, p, q, r] = record;
        let line = match name(kind, names) {
            Some(name) => format!("{name} {}", fields(table, record)),
            None => format!("? {kind} {p} {q} {r}"),
        };
        text += &format!("{at:6}  {}{}\n", "  ".repeat(*depth), line.trim_end());
    }
    print!("{text}");
    Ok(())
}

/// By the record after the first FUNC or CFUNC: a statement of a table, or a record of a tape.
fn is_table(file: &[u32]) -> Option<bool> {
    let first = file.chunks_exact(4).position(|x| x[0] == 3)?;
    match four(file, first + 1)?[0] {
        30..=37 => Some(true),
        10..=21 => Some(false),
        _ => None,
    }
}

/// Prefix order: a record's parts lie one deeper. Where the structure breaks off, what follows stays where it is.
fn table_depths(file: &[u32]) -> Vec<usize> {
    let mut parameters = vec![];
    let mut due: Vec<u32> = vec![];
    let mut depths = vec![];
    for x in file.chunks_exact(4) {
        while due.last() == Some(&0) {
            due.pop();
        }
        depths.push(due.len());
        if let Some(left) = due.last_mut() {
            *left -= 1;
        }
        let parts = match x[0] {
            3 => {
                parameters.push(x[1]);
                1
            }
            24..=26 | 32 | 33 | 35 | 37 => 1,
            27 | 34 => 2,
            28 => parameters.get(x[1] as usize).copied().unwrap_or(0),
            31 => x[1],
            36 => 3,
            _ => 0,
        };
        due.push(parts);
    }
    depths
}

/// Postfix order: what lies between FOR and END, and between CFUNC and RET, is one deeper.
fn tape_depths(file: &[u32]) -> Vec<usize> {
    let mut depth = 0usize;
    let mut depths = vec![];
    for x in file.chunks_exact(4) {
        if matches!(x[0], 20 | 21) {
            depth = depth.saturating_sub(1);
        }
        depths.push(depth);
        if matches!(x[0], 3 | 19) {
            depth += 1;
        }
    }
    depths
}
