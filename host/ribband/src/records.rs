//! The records of tables and tapes by name.

/// The kinds of both; 20 and 21 are two records each.
pub const SHARED: [(u32, &str); 2] = [(1, "PROGRAM"), (2, "ARRAY")];

pub const TABLE: [(u32, &str); 18] = [
    (3, "FUNC"),
    (20, "NUM"),
    (21, "TRUE"),
    (22, "FALSE"),
    (23, "VAR"),
    (24, "GET"),
    (25, "LNOT"),
    (26, "BNOT"),
    (27, "BIN"),
    (28, "CALL"),
    (30, "SKIP"),
    (31, "SEQ"),
    (32, "DEF"),
    (33, "SET"),
    (34, "PUT"),
    (35, "FOR"),
    (36, "IF"),
    (37, "RETURN"),
];

pub const TAPE: [(u32, &str); 13] = [
    (3, "CFUNC"),
    (10, "LIT"),
    (11, "VAR"),
    (12, "GET"),
    (13, "NOT"),
    (14, "BIN"),
    (15, "CALL"),
    (16, "DEF"),
    (17, "SET"),
    (18, "PUT"),
    (19, "FOR"),
    (20, "END"),
    (21, "RET"),
];

pub const OPERATORS: [&str; 15] = ["+", "-", "*", "<<", ">>", "&", "|", "==", "!=", ">", "<", ">=", "<=", "&&", "||"];

pub fn name(kind: u32, names: &[(u32, &'static str)]) -> Option<&'static str> {
    SHARED.iter().chain(names).find(|(k, _)| *k == kind).map(|(_, name)| *name)
}

/// A record's four words.
pub fn four(words: &[u32], at: usize) -> Option<[u32; 4]> {
    words.get(at * 4..at * 4 + 4).map(|w| [w[0], w[1], w[2], w[3]])
}

/// The fields of a record in words, `000`'s way: slots as x, arrays as a, functions as f.
pub fn fields(table: bool, [kind, p, q, r]: [u32; 4]) -> String {
    let operator = || OPERATORS.get(p.wrapping_sub(1) as usize).map_or(format!("operator {p}"), |o| o.to_string());
    match (table, kind) {
        (_, 1) => format!("functions {p}, arrays {q}"),
        (_, 2) => format!("bytes {p}"),
        (_, 3) => format!("parameters {p}, slots {q}"),
        (true, 20) | (false, 10) => p.to_string(),
        (true, 23 | 32 | 33) | (false, 11 | 16 | 17 | 21) => format!("x{p}"),
        (true, 24 | 34) | (false, 12 | 18) => format!("a{p}"),
        (true, 27) | (false, 14) => operator(),
        (true, 28) | (false, 15) => format!("f{p}"),
        (true, 31) => format!("of {p}"),
        (true, 35) | (false, 19) => format!("x{p} from {q} to {r}"),
        _ => String::new(),
    }
}
