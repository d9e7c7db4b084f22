//! A listing that a person writes, one record a line: a kind by number or name, then its fields; what is left out is 0. An operator may be
//! written as itself. What follows a `#` is a remark.
use crate::options::words;
use crate::records::{OPERATORS, SHARED, TABLE};
use crate::{files, Stop};

pub fn assemble(given: &[&str]) -> Result<(), Stop> {
    let words = words(given, &["-o"])?;
    let [from] = words.exactly(["LISTING"])?;
    let to = words.required("-o")?;
    let text = String::from_utf8(files::bytes(from, 1 << 22)?).map_err(|_| Stop::bad(format!("{from}: is not text")))?;
    let table = records(from, &text)?;
    files::write_words(to, &table)?;
    println!("{to}: {} records", table.len() / 4);
    Ok(())
}

pub fn records(from: &str, text: &str) -> Result<Vec<u32>, Stop> {
    let mut table = vec![];
    for (line, content) in text.lines().enumerate() {
        let content = content.split('#').next().unwrap_or("");
        let mut record = [0u32; 4];
        let mut count = 0;
        for item in content.split_whitespace() {
            let Some(place) = record.get_mut(count) else {
                return Err(Stop::bad(format!("{from}: line {}: a record has four words at most", line + 1)));
            };
            *place = word(item, count).ok_or_else(|| {
                Stop::bad(format!("{from}: line {}: `{item}` is no word, and no name or operator that can stand here", line + 1))
            })?;
            count += 1;
        }
        if count > 0 {
            table.extend(record);
        }
    }
    if table.is_empty() {
        return Err(Stop::bad(format!("{from}: has no record")));
    }
    Ok(table)
}

/// A name as the first word, an operator as the second, or a number.
fn word(item: &str, place: usize) -> Option<u32> {
    let named = SHARED.iter().chain(&TABLE).find(|(_, name)| place == 0 && *name == item).map(|(kind, _)| *kind);
    let operator = OPERATORS.iter().position(|o| place == 1 && *o == item).map(|code| code as u32 + 1);
    named.or(operator).or_else(|| item.parse().ok())
}
