//! The recorded stages of a folder: each file is a stage, and each file `*.run` a run.

use crate::item::{Item, Reading};
use std::fs;
use std::io;
use std::path::{Path, PathBuf};

pub struct Stage {
    pub name: String,
    pub item: Item,
}

pub struct Stages {
    pub all: Vec<Stage>,
    /// A checksum of names and contents: a run goes on only with the stages that it began with.
    pub hash: u64,
}

impl Stages {
    /// In the order of their names, whatever order the folder is listed in. Hidden files and folders are passed over.
    pub fn of_folder(folder: &Path) -> io::Result<Stages> {
        let mut all = Vec::new();
        for path in files_of(folder)? {
            let name = path.file_name().unwrap_or_default();
            let name = name.to_string_lossy().into_owned();
            let bytes = fs::read(&path)?;
            let reading = reading_of(&name);
            let item = Item { reading, bytes };
            all.push(Stage { name, item });
        }
        if all.is_empty() {
            return Err(io::Error::new(io::ErrorKind::NotFound, "no stage in it"));
        }
        Ok(Stages::of(all))
    }

    pub fn of(all: Vec<Stage>) -> Stages {
        let hash = hash_of(&all);
        Stages { all, hash }
    }
}

fn files_of(folder: &Path) -> io::Result<Vec<PathBuf>> {
    let mut files = Vec::new();
    for entry in fs::read_dir(folder)? {
        let entry = entry?;
        let hidden = entry.file_name().to_string_lossy().starts_with('.');
        if !hidden && entry.path().is_file() {
            files.push(entry.path());
        }
    }
    files.sort();
    Ok(files)
}

fn reading_of(name: &str) -> Reading {
    match name.ends_with(".run") {
        true => Reading::Run,
        false => Reading::Stage,
    }
}

/// FNV-1a over names and contents, each behind its length.
fn hash_of(all: &[Stage]) -> u64 {
    let parts = all
        .iter()
        .flat_map(|stage| [stage.name.as_bytes(), &stage.item.bytes]);
    let mut hash = 0xCBF2_9CE4_8422_2325u64;
    for part in parts {
        for byte in (part.len() as u64).to_le_bytes().iter().chain(part) {
            hash = (hash ^ u64::from(*byte)).wrapping_mul(0x0100_0000_01B3);
        }
    }
    hash
}

#[cfg(test)]
mod tests {
    use super::*;

    fn stage(name: &str, text: &str) -> Stage {
        let item = Item {
            reading: reading_of(name),
            bytes: text.as_bytes().to_vec(),
        };
        let name = name.to_string();
        Stage { name, item }
    }

    #[test]
    fn the_name_tells_the_reading() {
        assert_eq!(reading_of("a.run"), Reading::Run);
        assert_eq!(reading_of("run.jsx"), Reading::Stage);
    }

    #[test]
    fn names_and_contents_are_in_the_checksum() {
        let hashes = [
            vec![stage("a", "<b/>")],
            vec![stage("b", "<b/>")],
            vec![stage("a", "<b />")],
            vec![stage("a", "<b/>"), stage("c", "")],
        ]
        .map(|all| Stages::of(all).hash);
        let mut different = hashes.to_vec();
        different.sort();
        different.dedup();
        assert_eq!(different.len(), hashes.len());
    }
}
