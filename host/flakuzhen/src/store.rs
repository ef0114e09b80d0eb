//! Stored plans in files: a file is written whole or not at all, and a check tells what a stored plan
//! is stale in.

use crate::Outcome;
use flakuzhen::Refusal;
use std::ffi::OsString;
use std::fs::{self, File, OpenOptions};
use std::io::{self, ErrorKind, Write};
use std::path::{Path, PathBuf};

/// Checks stored bytes against a signature. The exit status is 1 where they are stale.
pub fn check(stored: &[u8], signature: &[u8]) -> Result<Outcome, Refusal> {
    let place = match flakuzhen::check(stored, signature) {
        Ok(()) => {
            return Ok(Outcome {
                text: "fresh\n".to_string(),
                status: 0,
            })
        }
        Err(Refusal {
            number: 27, place, ..
        }) => place as usize,
        Err(refusal) => return Err(refusal),
    };
    let today = flakuzhen::store(signature)?;
    let part = part_of(&today, place);
    let what = match (stored.get(place), today.get(place)) {
        (Some(old), Some(new)) => format!("{old:02x} stored, {new:02x} today"),
        (None, _) => "the stored plan ends there".to_string(),
        (_, None) => "the stored plan goes on".to_string(),
    };
    Ok(Outcome {
        text: format!("stale at {place}, {part}: {what}\n"),
        status: 1,
    })
}

/// What of a stored plan has the byte at this place, or where the place is its end, what lies behind
/// it.
fn part_of(plan: &[u8], place: usize) -> String {
    let mut at = 0;
    let mut number = 0;
    while let Some(&[tag, high, low]) = plan.get(at..at + 3) {
        let end = at + 3 + usize::from(u16::from_be_bytes([high, low]));
        let inside = place < end;
        match tag {
            0x20 if inside => return "in the signature".to_string(),
            0x21 if inside => return format!("in argument {number}"),
            0x21 => number += 1,
            0x22 if inside => return "in the result".to_string(),
            _ => {}
        }
        at = end;
    }
    "after the result".to_string()
}

/// Puts bytes in a file, whole or not at all: they go to a new file in the same folder, which then
/// takes the name. Nothing is left behind where that fails.
pub fn write_whole(file: &Path, bytes: &[u8]) -> io::Result<()> {
    let (file, permissions) = match fs::metadata(file) {
        Ok(old) if !old.is_file() => {
            return Err(io::Error::new(
                ErrorKind::InvalidInput,
                "not a regular file",
            ))
        }
        // the file that a link leads to is replaced, and not the link
        Ok(old) => (fs::canonicalize(file)?, Some(old.permissions())),
        Err(fault) if fault.kind() == ErrorKind::NotFound => {
            if fs::symlink_metadata(file).is_ok() {
                let told = "a link that leads nowhere";
                return Err(io::Error::new(ErrorKind::InvalidInput, told));
            }
            (file.to_path_buf(), None)
        }
        Err(fault) => return Err(fault),
    };
    let folder = match file.parent() {
        Some(folder) if folder != Path::new("") => folder,
        _ => Path::new("."),
    };
    let (new, mut to) = New::create(folder, &file)?;
    to.write_all(bytes)?;
    if let Some(permissions) = permissions {
        to.set_permissions(permissions)?;
    }
    to.sync_all()?;
    new.rename(&file)?;
    // the name is on the disk once its folder is
    match File::open(folder)?.sync_all() {
        // some file systems have no such call for folders
        Err(fault) if fault.kind() == ErrorKind::InvalidInput => Ok(()),
        synced => synced,
    }
}

/// A file that is removed again unless it takes its name.
struct New {
    path: PathBuf,
    renamed: bool,
}

impl New {
    /// A file of a name that was free.
    fn create(folder: &Path, file: &Path) -> io::Result<(New, File)> {
        let name = file.file_name();
        let name = name.ok_or_else(|| io::Error::new(ErrorKind::InvalidInput, "no file name"))?;
        let mut number = 0;
        loop {
            let mut own = OsString::from(".");
            own.push(name);
            own.push(format!(".{}.{number}.new", std::process::id()));
            let path = folder.join(own);
            match OpenOptions::new().write(true).create_new(true).open(&path) {
                Ok(to) => {
                    let renamed = false;
                    return Ok((New { path, renamed }, to));
                }
                Err(fault) if fault.kind() == ErrorKind::AlreadyExists && number < 100 => {
                    number += 1;
                }
                Err(fault) => return Err(fault),
            }
        }
    }

    fn rename(mut self, to: &Path) -> io::Result<()> {
        fs::rename(&self.path, to)?;
        self.renamed = true;
        Ok(())
    }
}

impl Drop for New {
    fn drop(&mut self) {
        if !self.renamed {
            // what failed before is told
            let _ = fs::remove_file(&self.path);
        }
    }
}

#[cfg(test)]
mod tests {
    use super::*;

    #[test]
    fn every_byte_of_a_plan_is_part_of_something() {
        // Z, result long double, arguments i64 and single
        let signature = [
            1, 0, 1, 2, 2, 0, 4, 0x11, 0, 1, 2, 3, 0, 8, 0x10, 0, 1, 6, 0x11, 0, 1, 0,
        ];
        let plan = flakuzhen::store(&signature).expect("an accepted signature");
        let parts = [
            (25, "in the signature"),
            (8, "in argument 0"),
            (8, "in argument 1"),
            (8, "in the result"),
            (9, "after the result"),
        ];
        let mut place = 0;
        for (length, part) in parts {
            for _ in 0..length {
                assert_eq!(part_of(&plan, place), part, "{place}");
                place += 1;
            }
        }
        assert_eq!(plan.len(), 49);
    }
}
