//! A program that is given files by their names, and what it prints.

use std::path::{Path, PathBuf};
use std::process::{Command, Output, Stdio};

/// A program, and a folder of its own for the files, which goes with it.
pub struct Program {
    words: Vec<String>,
    folder: PathBuf,
}

impl Program {
    /// The program that the words name.
    pub fn new(words: &[String]) -> Program {
        let folder = std::env::temp_dir().join(format!("otis-bench-{}", std::process::id()));
        std::fs::create_dir_all(&folder).unwrap_or_else(|error| panic!("{}: {error}", folder.display()));
        Program { words: words.to_vec(), folder }
    }

    /// The name of a file of the folder, which need not be there.
    pub fn name(&self, file: &str) -> PathBuf {
        self.folder.join(file)
    }

    /// Writes a file of the folder, and gives back its name.
    pub fn write(&self, file: &str, bytes: &[u8]) -> PathBuf {
        let name = self.name(file);
        std::fs::write(&name, bytes).unwrap_or_else(|error| panic!("{}: {error}", name.display()));
        name
    }

    /// Runs the program on these names.
    pub fn run(&self, names: &[&Path]) -> Output {
        let mut command = Command::new(&self.words[0]);
        let command = command.args(&self.words[1..]).args(names).stdin(Stdio::null());
        command.output().unwrap_or_else(|error| panic!("{:?}: {error}", self.words))
    }
}

impl Drop for Program {
    fn drop(&mut self) {
        // what is left in a folder for such files does no harm
        let _ = std::fs::remove_dir_all(&self.folder);
    }
}
