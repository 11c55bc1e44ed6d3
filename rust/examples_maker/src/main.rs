//! Writes the examples, and what the program `trials` reads and prints, into the repository, or into the folder given.

use std::path::{Path, PathBuf};
use std::{env, fs, io};

fn main() -> io::Result<()> {
    let root = match env::args_os().nth(1) {
        Some(folder) => PathBuf::from(folder),
        None => PathBuf::from(env!("CARGO_MANIFEST_DIR")).join("../.."),
    };
    for (name, bytes) in reference::trials::files() {
        write(&root, &format!("examples/{name}"), &bytes)?;
    }
    for (name, bytes) in reference::trials::program_files() {
        write(&root, &format!("crates/trials/{name}"), &bytes)?;
    }
    Ok(())
}

fn write(root: &Path, name: &str, bytes: &[u8]) -> io::Result<()> {
    let path = root.join(name);
    fs::create_dir_all(path.parent().expect("a file is in a folder"))?;
    fs::write(path, bytes)?;
    println!("{name}: {} bytes", bytes.len());
    Ok(())
}
