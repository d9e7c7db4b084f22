//! Files of words and bytes. A file is written beside its place and then renamed, so that one that is there is whole or as it was.
use crate::Stop;
use std::fs;
use std::io::Write;
use std::path::{Path, PathBuf};

fn complain(path: &str, error: std::io::Error) -> Stop {
    Stop::bad(format!("{path}: {error}"))
}

/// At most this many bytes; a longer file is not read.
pub fn bytes(path: &str, most: u64) -> Result<Vec<u8>, Stop> {
    let about = fs::metadata(path).map_err(|e| complain(path, e))?;
    if about.is_dir() {
        return Err(Stop::bad(format!("{path}: is a directory")));
    }
    if about.len() > most {
        return Err(Stop::bad(format!("{path}: too large: {} bytes, and {most} at most are taken", about.len())));
    }
    fs::read(path).map_err(|e| complain(path, e))
}

/// Little-endian words. 2,097,152 bytes are the longest tape.
pub fn words(path: &str) -> Result<Vec<u32>, Stop> {
    let bytes = bytes(path, 1 << 22)?;
    if bytes.is_empty() {
        return Err(Stop::bad(format!("{path}: is empty")));
    }
    if bytes.len() % 4 != 0 {
        return Err(Stop::bad(format!("{path}: {} bytes are not whole words of four", bytes.len())));
    }
    Ok(bytes.chunks_exact(4).map(|b| u32::from_le_bytes([b[0], b[1], b[2], b[3]])).collect())
}

pub fn write_words(path: &str, words: &[u32]) -> Result<(), Stop> {
    let bytes: Vec<u8> = words.iter().flat_map(|w| w.to_le_bytes()).collect();
    write(path, &bytes)
}

pub fn write(path: &str, bytes: &[u8]) -> Result<(), Stop> {
    let beside = beside(path);
    let written = fs::File::create(&beside).and_then(|mut f| f.write_all(bytes).and_then(|()| f.sync_all()));
    let done = written.and_then(|()| fs::rename(&beside, path));
    done.map_err(|e| {
        let _ = fs::remove_file(&beside);
        complain(path, e)
    })
}

fn beside(path: &str) -> PathBuf {
    let path = Path::new(path);
    let name = path.file_name().map(|n| n.to_string_lossy().into_owned()).unwrap_or_default();
    path.with_file_name(format!(".{name}.{}.part", std::process::id()))
}
