//! What the files say that the programs settle and spell print: for their own input in `rt ci`, and for the sheets of
//! the examples.

use crate::Count;
use crate::sheets::settled;
use crate::spellings::normalised;
use std::path::{Path, PathBuf};

const EXAMPLES: &str = "examples/sheets";

/// A program of sheets.
pub struct Program {
    name: &'static str,
    /// The end of the files beside the examples.
    beside: &'static str,
    /// What it prints of a text.
    prints: fn(&[u8]) -> Vec<u8>,
}

pub const PROGRAMS: [Program; 2] = [
    Program {
        name: "settle",
        beside: "out",
        prints: |text| settled::printed(text).into_bytes(),
    },
    Program {
        name: "spell",
        beside: "spelled",
        prints: normalised::printed,
    },
];

fn contents(path: &Path) -> Vec<u8> {
    std::fs::read(path).unwrap_or_else(|error| panic!("{}: {error}", path.display()))
}

/// The sheets of a folder, in order.
fn sheets(folder: &Path) -> std::io::Result<Vec<PathBuf>> {
    let mut paths = Vec::new();
    for entry in std::fs::read_dir(folder)? {
        let path = entry?.path();
        if path.extension().is_some_and(|end| end == "sheet") {
            paths.push(path);
        }
    }
    paths.sort();
    Ok(paths)
}

impl Program {
    fn file(&self, name: &str) -> PathBuf {
        Path::new("crates").join(self.name).join(name)
    }

    /// What must be printed of its own input.
    fn own(&self) -> Vec<u8> {
        (self.prints)(&contents(&self.file("stdin")))
    }

    /// Each text with what is said to be printed of it.
    fn pairs(&self) -> Vec<(PathBuf, PathBuf)> {
        let folder = Path::new(EXAMPLES);
        let examples = sheets(folder).unwrap_or_else(|error| panic!("{EXAMPLES}: {error}"));
        let beside = |sheet: PathBuf| (sheet.clone(), sheet.with_extension(self.beside));
        let mut pairs: Vec<_> = examples.into_iter().map(beside).collect();
        pairs.push((self.file("stdin"), self.file("stdout")));
        pairs
    }

    fn compare(&self) -> Count {
        let mut total = Count::default();
        for (text, said) in self.pairs() {
            total.compared += 1;
            if (self.prints)(&contents(&text)) != contents(&said) {
                total.differ += 1;
                println!("{} is not what {} prints", said.display(), text.display());
            }
        }
        println!(
            "{:<20} {:>8} files {:>4} differ",
            self.name, total.compared, total.differ
        );
        total
    }
}

/// What the program of a name must print in `rt ci`.
pub fn printed(name: &str) -> Option<Vec<u8>> {
    let program = PROGRAMS.iter().find(|program| program.name == name)?;
    Some(program.own())
}

/// Writes for each NAME.sheet of a folder what the programs print of it, NAME.out and NAME.spelled; how many there are.
pub fn write(folder: &str) -> std::io::Result<usize> {
    let sheets = sheets(Path::new(folder))?;
    for sheet in &sheets {
        let text = std::fs::read(sheet)?;
        for program in &PROGRAMS {
            std::fs::write(
                sheet.with_extension(program.beside),
                (program.prints)(&text),
            )?;
        }
    }
    Ok(sheets.len())
}

pub fn compare() -> Count {
    let mut total = Count::default();
    for program in &PROGRAMS {
        total += program.compare();
    }
    total
}
