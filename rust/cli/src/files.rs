//! Files: read whole, and written whole or not at all.

use crate::answer::Fault;
use std::fs::{self, File, OpenOptions};
use std::io::{self, stdin, stdout, Read, Write};
use std::path::{Path, PathBuf};
use std::process;

/// No sheet, bundle or text is nearly as long; what is longer is no such file.
const LONGEST: u64 = 1 << 26;

/// How a file is named in messages.
pub fn shown(path: &Path) -> String {
    match path.as_os_str() == "-" {
        true => "standard input".into(),
        false => path.display().to_string(),
    }
}

/// Reads a file; `-` is standard input.
pub fn read(path: &Path) -> Result<Vec<u8>, Fault> {
    let bytes = match path.as_os_str() == "-" {
        true => bounded(stdin().lock()),
        false => File::open(path).and_then(bounded),
    };
    bytes.map_err(|error| fault("read", &shown(path), &error))
}

fn bounded(source: impl Read) -> io::Result<Vec<u8>> {
    let mut bytes = Vec::new();
    source.take(LONGEST + 1).read_to_end(&mut bytes)?;
    match bytes.len() as u64 > LONGEST {
        true => Err(io::Error::other("longer than 64 MiB")),
        false => Ok(bytes),
    }
}

/// Writes a whole file, or to standard output if none is named.
pub fn write(file: Option<&Path>, bytes: &[u8]) -> Result<(), Fault> {
    let Some(path) = file else {
        let mut out = stdout().lock();
        let written = out.write_all(bytes).and_then(|()| out.flush());
        return written.map_err(|error| fault("write", "standard output", &error));
    };
    put(path, bytes).map_err(|error| fault("write", &path.display().to_string(), &error))
}

/// A regular file is written beside its place and renamed, so that it is never seen in part; a
/// device or a pipe cannot be replaced so, and is written to.
fn put(path: &Path, bytes: &[u8]) -> io::Result<()> {
    let there = fs::metadata(path).ok();
    if there.as_ref().is_some_and(|there| !there.is_file()) {
        let mut file = OpenOptions::new().write(true).open(path)?;
        return file.write_all(bytes).and_then(|()| file.flush());
    }
    // A rename would replace what its owner has locked.
    if there.as_ref().is_some_and(|there| there.permissions().readonly()) {
        return Err(io::Error::new(io::ErrorKind::PermissionDenied, "it is write-protected"));
    }
    // Through a link its file is replaced, not the link.
    let path = if there.is_some() { fs::canonicalize(path)? } else { path.to_path_buf() };
    let beside = beside(&path)?;
    let mut file = OpenOptions::new().write(true).create_new(true).open(&beside)?;
    let written = (|| {
        file.write_all(bytes)?;
        if let Some(there) = there {
            file.set_permissions(there.permissions())?;
        }
        file.sync_all()?;
        fs::rename(&beside, &path)
    })();
    if written.is_err() {
        let _ = fs::remove_file(&beside);
    }
    written
}

/// A name in the same folder that only this process uses.
fn beside(path: &Path) -> io::Result<PathBuf> {
    let name = path.file_name().ok_or_else(|| io::Error::other("no file name"))?;
    let mut hidden = std::ffi::OsString::from(".");
    hidden.push(name);
    hidden.push(format!(".{}.tmp", process::id()));
    Ok(path.with_file_name(hidden))
}

fn fault(verb: &str, name: &str, error: &io::Error) -> Fault {
    Fault::File(format!("zeldrupa: cannot {verb} {name}: {error}"))
}
