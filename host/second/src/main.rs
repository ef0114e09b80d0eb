//! Lists calls by the second planner: `second FILE..`, each with a signature in hexadecimal, where `#`
//! starts a comment.

use std::process::ExitCode;

fn main() -> ExitCode {
    let mut files = std::env::args().skip(1).peekable();
    if files.peek().is_none() {
        eprintln!("usage: second FILE..");
        return ExitCode::from(2);
    }
    for file in files {
        match std::fs::read_to_string(&file).map(|text| bytes_of(&text)) {
            Ok(Some(signature)) => print!("{}", second::listing(&signature)),
            Ok(None) => {
                eprintln!("{file}: not hexadecimal");
                return ExitCode::from(2);
            }
            Err(error) => {
                eprintln!("{file}: {error}");
                return ExitCode::from(2);
            }
        }
    }
    ExitCode::SUCCESS
}

fn bytes_of(text: &str) -> Option<Vec<u8>> {
    let code = text
        .lines()
        .map(|line| line.split('#').next().unwrap_or(""));
    let digits: Vec<u8> = code
        .flat_map(str::bytes)
        .filter(|c| !c.is_ascii_whitespace())
        .collect();
    let pairs = digits.chunks(2).map(|pair| {
        let pair = std::str::from_utf8(pair)
            .ok()
            .filter(|pair| pair.len() == 2)?;
        u8::from_str_radix(pair, 16).ok()
    });
    pairs.collect()
}
