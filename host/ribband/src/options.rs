//! The words of a command line, told apart.
use crate::Stop;

/// The words that are no options, and the options with their values.
pub struct Words<'w> {
    pub plain: Vec<&'w str>,
    options: Vec<(&'w str, &'w str)>,
}

/// Splits a command's words; every option of `known` takes a value.
pub fn words<'w>(given: &[&'w str], known: &[&str]) -> Result<Words<'w>, Stop> {
    let mut plain = vec![];
    let mut options: Vec<(&str, &str)> = vec![];
    let mut rest = given.iter();
    while let Some(word) = rest.next() {
        if !word.starts_with('-') {
            plain.push(*word);
            continue;
        }
        if !known.contains(word) {
            return Err(Stop::bad(format!("no option `{word}` here")));
        }
        let Some(value) = rest.next() else {
            return Err(Stop::bad(format!("`{word}` needs a value")));
        };
        if options.iter().any(|(name, _)| name == word) {
            return Err(Stop::bad(format!("`{word}` is given twice")));
        }
        options.push((word, value));
    }
    Ok(Words { plain, options })
}

impl<'w> Words<'w> {
    pub fn option(&self, name: &str) -> Option<&'w str> {
        self.options.iter().find(|(n, _)| *n == name).map(|(_, value)| *value)
    }

    pub fn required(&self, name: &str) -> Result<&'w str, Stop> {
        self.option(name).ok_or_else(|| Stop::bad(format!("`{name}` is missing")))
    }

    /// Exactly these words, each with a name for the complaint.
    pub fn exactly<const N: usize>(&self, names: [&str; N]) -> Result<[&'w str; N], Stop> {
        <[&str; N]>::try_from(self.plain.as_slice())
            .map_err(|_| Stop::bad(format!("this takes {} and no more: `ribband --help`", names.join(" and "))))
    }
}

/// A number from 0 to 4294967295.
pub fn number(text: &str, what: &str) -> Result<u32, Stop> {
    text.parse().map_err(|_| Stop::bad(format!("{what} is no number from 0 to 4294967295: `{text}`")))
}
