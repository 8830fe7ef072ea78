//! A program held to the cases of a folder.

use std::fs::{self, File};
use std::path::{Path, PathBuf};
use std::process::{Command, Stdio};

/// So many cases that differ end a comparison.
const ENOUGH: usize = 20;

/// The number of cases compared, and the names of those that differ.
#[derive(Debug, Default)]
pub struct Compared {
    pub cases: u64,
    pub differ: Vec<String>,
}

/// The inputs of a folder, in order.
fn inputs(dir: &Path) -> Result<Vec<PathBuf>, String> {
    let entries = fs::read_dir(dir).map_err(|error| format!("{}: {error}", dir.display()))?;
    let paths = entries.filter_map(|entry| entry.ok().map(|entry| entry.path()));
    let mut inputs: Vec<PathBuf> =
        paths.filter(|path| path.extension().is_some_and(|suffix| suffix == "in")).collect();
    inputs.sort();
    Ok(inputs)
}

/// What a program prints for an input, and whether it ends with status 0.
fn printed(program: &Path, input: &Path) -> Result<(Vec<u8>, bool), String> {
    let file = File::open(input).map_err(|error| format!("{}: {error}", input.display()))?;
    let output = Command::new(program).stdin(file).stderr(Stdio::inherit()).output();
    let output = output.map_err(|error| format!("{}: {error}", program.display()))?;
    Ok((output.stdout, output.status.success()))
}

/// Saves a case that differs: the input, what is expected, and what was printed.
fn save(input: &Path, expected: &[u8], got: &[u8], saved: &Path) -> Result<(), String> {
    let copy = saved.join(input.file_name().expect("an input has a name"));
    let write = || {
        fs::create_dir_all(saved)?;
        fs::copy(input, &copy)?;
        fs::write(copy.with_extension("out"), expected)?;
        fs::write(copy.with_extension("got"), got)
    };
    write().map_err(|error| format!("{}: {error}", copy.display()))
}

/// Runs a program on each DIR/NNNNN.in and compares what it prints with DIR/NNNNN.out. A case
/// that differs, or that the program does not end with status 0, is saved; twenty are enough.
pub fn compare(program: &Path, dir: &Path, saved: &Path) -> Result<Compared, String> {
    let mut compared = Compared::default();
    for input in inputs(dir)? {
        let output = input.with_extension("out");
        let expected =
            fs::read(&output).map_err(|error| format!("{}: {error}", output.display()))?;
        let (got, ended) = printed(program, &input)?;
        compared.cases += 1;
        if got != expected || !ended {
            save(&input, &expected, &got, saved)?;
            let name = input.file_stem().unwrap_or_default();
            compared.differ.push(name.to_string_lossy().into_owned());
        }
        if compared.differ.len() == ENOUGH {
            break;
        }
    }
    Ok(compared)
}
