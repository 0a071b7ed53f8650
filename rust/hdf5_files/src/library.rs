//! The HDF5 library, by way of files.py, and a folder for its files that is removed at the end.

use std::path::{Path, PathBuf};
use std::process::Command;
use std::{env, fs, process};

use crate::bytes::Fault;

/// The Python that Debian's h5py is installed for.
const PYTHON: &str = "/usr/bin/python3";

const SCRIPT: &str = concat!(env!("CARGO_MANIFEST_DIR"), "/files.py");

/// A new folder, which is removed with all that is in it.
pub struct Folder(PathBuf);

impl Folder {
    pub fn new() -> Result<Self, Fault> {
        let path = env::temp_dir().join(format!("hdf5_files-{}", process::id()));
        fs::create_dir(&path).map_err(|e| format!("{}: {e}", path.display()))?;
        Ok(Self(path))
    }

    /// A folder in this one.
    pub fn inner(&self, name: &str) -> Result<Folder, Fault> {
        let path = self.0.join(name);
        fs::create_dir(&path).map_err(|e| format!("{}: {e}", path.display()))?;
        Ok(Folder(path))
    }

    pub fn path(&self) -> &Path {
        &self.0
    }
}

impl Drop for Folder {
    fn drop(&mut self) {
        // Nothing can be done about a folder that stays.
        let _ = fs::remove_dir_all(&self.0);
    }
}

/// Runs a command of files.py, which prints what is wrong.
pub fn files_py(command: &str, folders: &[&Folder]) -> Result<(), Fault> {
    let mut run = Command::new(PYTHON);
    run.args(["-B", SCRIPT, command]);
    run.args(folders.iter().map(|folder| folder.path()));
    let status = run.status().map_err(|e| format!("{PYTHON}: {e}"))?;
    match status.success() {
        true => Ok(()),
        false => Err(format!("files.py {command}: {status}")),
    }
}
