//! `oracle list`: lists the field value on standard input.
//! `oracle vectors`: the named cases of the headers there, one a line.
//! `oracle resolve BASE`: the targets and contexts of its links on the base.
//! `oracle walk START STEPS`: a walk through the catalogue there.

use std::ffi::OsString;
use std::io::{self, Read, Write};
use std::os::unix::ffi::OsStringExt;
use std::process::ExitCode;

fn main() -> io::Result<ExitCode> {
    let args = std::env::args_os().skip(1).map(OsString::into_vec);
    let args: Vec<Vec<u8>> = args.collect();
    let output: &dyn Fn(&[u8]) -> Vec<u8> = match args.split_first() {
        Some((command, [])) if command == b"list" => &|input| oracle::listing(input).into_bytes(),
        Some((command, [])) if command == b"vectors" => &oracle::vectors,
        Some((command, base)) if command == b"resolve" => &|input| oracle::resolving(base, input),
        Some((command, words)) if command == b"walk" => {
            &|input| oracle::walking(Some(input), words)
        }
        _ => {
            eprintln!("usage: oracle list <FIELD-VALUE | oracle vectors <HEADERS | oracle resolve BASE <FIELD-VALUE | oracle walk START STEPS <CATALOGUE");
            return Ok(ExitCode::from(2));
        }
    };
    let mut input = vec![];
    io::stdin().read_to_end(&mut input)?;
    io::stdout().write_all(&output(&input))?;
    Ok(ExitCode::SUCCESS)
}
