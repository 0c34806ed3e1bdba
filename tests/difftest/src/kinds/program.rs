//! The listing program, with each end of its input, and at the edges of its rooms and its limit; the
//! resolving one, on bases of each kind; and the walking one, through files of each kind.

mod bases;
mod inputs;
mod walks;

use crate::compare::Compared;
use crate::run::Run;
use crate::shown::{self, Difference};
use std::ffi::OsStr;
use std::fs;
use std::io::{self, Write};
use std::os::unix::ffi::OsStrExt;
use std::path::Path;
use std::process::{Command, Output, Stdio};
use walks::File;

pub fn compare(run: &mut Run, program: &Path) -> Compared<()> {
    run.begin("program");
    for input in inputs::inputs() {
        let expected = oracle::listing(&input);
        compare_printed(run, program, &[], &input, expected.as_bytes())?;
    }
    Ok(())
}

pub fn compare_resolver(run: &mut Run, program: &Path) -> Compared<()> {
    run.begin("resolving program");
    for (arguments, input) in bases::calls() {
        let expected = oracle::resolving(&arguments, &input);
        compare_printed(run, program, &arguments, &input, &expected)?;
    }
    Ok(())
}

/// The program is run with one file after another under one name.
pub fn compare_walker(run: &mut Run, program: &Path) -> Compared<()> {
    run.begin("walking program");
    let path = std::env::temp_dir().join(format!("difftest-{}", std::process::id()));
    let compared = walks::calls()
        .into_iter()
        .try_for_each(|(file, words)| compare_walk(run, program, &path, &file, words));
    let _ = fs::remove_file(&path);
    compared
}

fn compare_walk(
    run: &mut Run,
    program: &Path,
    path: &Path,
    file: &File,
    words: Vec<Vec<u8>>,
) -> Compared<()> {
    let (octets, name) = match file {
        File::Holding(octets) => (Some(&octets[..]), Some(path.as_os_str().as_bytes())),
        File::Unread(name) => (None, Some(*name)),
        File::Unnamed => (None, None),
    };
    if let Some(octets) = octets {
        fs::write(path, octets).expect("a temporary file can be written");
    }
    let expected = oracle::walking(octets, &words);
    let name = name.map(<[u8]>::to_vec).into_iter();
    let arguments: Vec<Vec<u8>> = name.chain(words).collect();
    let compared = compare_printed(run, program, &arguments, b"", &expected);
    compared.map_err(|difference| {
        let file = shown::octets(octets.unwrap_or_default());
        Difference {
            asked: format!("{}, of a file {file}", difference.asked),
            ..difference
        }
    })
}

fn compare_printed(
    run: &mut Run,
    program: &Path,
    arguments: &[Vec<u8>],
    input: &[u8],
    expected: &[u8],
) -> Compared<()> {
    run.case();
    let (ended, status, printed) = match output(program, arguments, input) {
        Ok(output) => (
            output.status.code(),
            output.status.to_string(),
            output.stdout,
        ),
        Err(error) => (None, error.to_string(), vec![]),
    };
    if ended.is_some() && printed == expected {
        return Ok(());
    }
    let arguments: Vec<String> = arguments
        .iter()
        .map(|octets| shown::octets(octets))
        .collect();
    Err(Difference {
        asked: format!(
            "{} {} with input {}",
            program.display(),
            arguments.join(" "),
            shown::octets(input)
        ),
        library: format!("{}, {status}", shown::octets(&printed)),
        expected: shown::octets(expected),
    })
}

fn output(program: &Path, arguments: &[Vec<u8>], input: &[u8]) -> io::Result<Output> {
    let mut child = Command::new(program)
        .args(arguments.iter().map(|octets| OsStr::from_bytes(octets)))
        .stdin(Stdio::piped())
        .stdout(Stdio::piped())
        .spawn()?;
    let mut stdin = child.stdin.take().expect("it is piped");
    let given = input.to_vec();
    // The program may end before it has read all, and may print before it has.
    let writer = std::thread::spawn(move || stdin.write_all(&given));
    let output = child.wait_with_output()?;
    let _ = writer.join();
    Ok(output)
}
