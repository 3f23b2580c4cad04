//! The phrase files that are stored beside the product, sound and damaged.

use std::fs;
use std::io;
use std::path::Path;

const EXAMPLES: [&str; 2] = ["phrase-p.phrase", "etude.phrase"];

/// Programs whose input is stored, and how many bytes stand there before each file; the last two are its length.
const INPUTS: [(&str, usize); 3] = [
    ("reader_examples", 2),
    ("checker_examples", 6),
    ("report_examples", 6),
];

pub struct Stored {
    pub name: String,
    pub file: Vec<u8>,
}

pub fn stored_files() -> io::Result<Vec<Stored>> {
    let folder = Path::new(env!("CARGO_MANIFEST_DIR")).join("..");
    let mut all = Vec::new();
    for name in EXAMPLES {
        all.push(Stored {
            name: name.to_string(),
            file: fs::read(folder.join("examples").join(name))?,
        });
    }
    for (program, head) in INPUTS {
        let input = fs::read(folder.join("crates").join(program).join("stdin"))?;
        let files = split(&input, head).ok_or(io::ErrorKind::InvalidData)?;
        all.extend((0..).zip(files).map(|(number, file): (u32, _)| Stored {
            name: format!("file {number} of {program}"),
            file: file.to_vec(),
        }));
    }
    Ok(all)
}

/// The files of an input, each after a head of so many bytes; none if the last one passes the end.
fn split(mut input: &[u8], head: usize) -> Option<Vec<&[u8]>> {
    let mut files = Vec::new();
    while !input.is_empty() {
        let (before, rest) = input.split_at_checked(head)?;
        let length = u16::from_be_bytes(*before.last_chunk()?);
        let (file, rest) = rest.split_at_checked(length.into())?;
        files.push(file);
        input = rest;
    }
    Some(files)
}
