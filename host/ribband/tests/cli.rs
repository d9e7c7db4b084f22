//! The tool as a shell sees it: what it writes, what it says, and its exit status, on good files and on bad ones.
use std::fs;
use std::path::PathBuf;
use std::process::{Command, Output};

/// A folder of its own for each test.
struct Folder(PathBuf);

impl Folder {
    fn new(name: &str) -> Folder {
        let path = std::env::temp_dir().join(format!("ribband-{name}-{}", std::process::id()));
        fs::create_dir_all(&path).unwrap();
        Folder(path)
    }

    fn write(&self, name: &str, bytes: &[u8]) {
        fs::write(self.0.join(name), bytes).unwrap();
    }

    fn words(&self, name: &str, words: &[u32]) {
        self.write(name, &words.iter().flat_map(|w| w.to_le_bytes()).collect::<Vec<u8>>());
    }

    fn ribband(&self, line: &str) -> Output {
        Command::new(env!("CARGO_BIN_EXE_ribband")).args(line.split(' ')).current_dir(&self.0).output().unwrap()
    }

    /// Ends well, and says this.
    fn says(&self, line: &str, said: &str) {
        let output = self.ribband(line);
        let text = String::from_utf8(output.stdout).unwrap();
        assert!(output.status.success() && text.contains(said), "{line}: {text}");
    }

    /// Ends with this status and one line on standard error that holds this, and leaves no file `x`.
    fn fails(&self, line: &str, status: i32, said: &str) {
        let output = self.ribband(line);
        let text = String::from_utf8(output.stderr).unwrap();
        assert_eq!(output.status.code(), Some(status), "{line}: {text}");
        assert!(text.starts_with("ribband: ") && text.lines().count() == 1 && text.contains(said), "{line}: {text}");
        assert!(!self.0.join("x").exists(), "{line}");
        let left: Vec<_> = fs::read_dir(&self.0).unwrap().filter(|f| f.as_ref().unwrap().file_name().to_string_lossy().ends_with(".part")).collect();
        assert!(left.is_empty());
    }
}

impl Drop for Folder {
    fn drop(&mut self) {
        let _ = fs::remove_dir_all(&self.0);
    }
}

fn oatmeal(name: &str) -> Folder {
    let folder = Folder::new(name);
    folder.write("oatmeal.txt", include_bytes!("../oatmeal.txt"));
    folder.says("assemble oatmeal.txt -o table", "24 records");
    folder.says("compile table -o tape", "86 records, each run takes 70 steps");
    folder
}

#[test]
fn good_files() {
    let f = oatmeal("good");
    f.says("check tape", "accepted, 86 records, each run takes 70 steps");
    f.says("run tape --args 10", "value 20, 70 steps");
    f.says("run tape --args 200 --limit 70", "value 300, 70 steps");
    f.says("show table", "BIN <");
    f.says("show tape", "CFUNC parameters 1, slots 6");
    f.says("demo", "10 gives  20 in 70 steps");
    f.says("--help", "Exit status");
}

#[test]
fn memory_is_written_where_a_run_is_done() {
    let f = Folder::new("memory");
    f.words("table", &[1, 1, 1, 0, 2, 4, 0, 0, 3, 1, 1, 0, 34, 0, 0, 0, 20, 0, 0, 0, 23, 0, 0, 0]);
    f.write("bytes", &[1, 2, 3, 4]);
    f.says("compile table -o tape", "steps");
    f.says("run tape --memory bytes --args 300 --out after", "value 0");
    assert_eq!(fs::read(f.0.join("after")).unwrap(), [44, 2, 3, 4]);
    f.fails("run tape --memory bytes --args 300 --limit 2 --out x", 3, "stopped by the limit after 2 steps, before record");
    f.fails("run tape --args 300 --out x", 1, "refusal 32");
}

#[test]
fn refusals() {
    let f = oatmeal("refused");
    f.fails("compile tape -o x", 1, "refusal 2: a record of another kind is due here, at record 2: 10 0 0 0");
    f.fails("check table", 1, "refusal 22");
    f.fails("run tape --args 1,2", 1, "refusal 31: the exposed function takes another number of arguments");
    f.words("cut", &[1, 1, 0, 0]);
    f.fails("compile cut -o x", 1, "refusal 3: the table ends early (after 1 records)");
}

#[test]
fn bad_files_and_words() {
    let f = oatmeal("bad");
    f.write("odd", b"abc");
    f.write("empty", b"");
    f.write("large", &vec![0; (1 << 22) + 4]);
    f.fails("check nothing", 2, "nothing: ");
    f.fails("check odd", 2, "not whole words");
    f.fails("check empty", 2, "is empty");
    f.fails("check large", 2, "too large");
    f.fails("check .", 2, "directory");
    f.fails("show odd", 2, "not whole words");
    f.fails("compile table", 2, "`-o` is missing");
    f.fails("compile table -o nowhere/x", 2, "nowhere/x: ");
    f.fails("run tape --args ten", 2, "no number");
    f.fails("run tape --args 4294967296", 2, "no number");
    f.fails("run tape --limit -1", 2, "no number");
    f.fails("run tape --depth 3", 2, "no option");
    f.fails("run tape tape", 2, "takes TAPE and no more");
    f.fails("frob", 2, "no command");
    f.write("listing", b"PROGRAM 1\nNOTHING 2\n");
    f.fails("assemble listing -o x", 2, "line 2");
    f.write("listing", b"1 2 3 4 5\n");
    f.fails("assemble listing -o x", 2, "four words at most");
}

#[test]
fn swatches() {
    let f = oatmeal("swatch");
    let mut image = b"P6\n# a remark\n2 1\n255\n".to_vec();
    image.extend([10, 200, 0, 127, 128, 255]);
    f.write("in.ppm", &image);
    f.says("swatch table in.ppm -o out.ppm", "2 by 1 texels, 70 steps a run");
    let out = fs::read(f.0.join("out.ppm")).unwrap();
    assert_eq!(out, [b"P6\n2 1\n255\n".as_slice(), &[20, 44, 0, 254, 228, 99]].concat());
    f.says("swatch table in.ppm -o out.png", "texels");
    assert!(fs::read(f.0.join("out.png")).unwrap().starts_with(b"\x89PNG"));
    f.write("cut.ppm", b"P6\n2 1\n255\nabc");
    f.fails("swatch table cut.ppm -o x", 2, "6 bytes of texels are due, and it has 3");
    f.fails("swatch table table -o x", 2, "not a binary PPM");
    f.write("none.txt", b"PROGRAM 1\nFUNC 0 0\nSKIP\n");
    f.says("assemble none.txt -o none", "3 records");
    f.fails("swatch none in.ppm -o x", 2, "takes 0 parameters");
    f.write("sum.txt", b"PROGRAM 1\nFUNC 3 3\nRETURN\nBIN +\nVAR 0\nBIN +\nVAR 1\nVAR 2\n");
    f.says("assemble sum.txt -o sum", "8 records");
    f.says("swatch sum in.ppm -o sum.ppm", "texels");
    assert!(fs::read(f.0.join("sum.ppm")).unwrap().ends_with(&[0, 0, 210, 0, 1, 254]));
}
