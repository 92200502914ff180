//! Archives for the tests of `batch`.

use std::path::{Path, PathBuf};

pub const NAMES: [&str; 3] = ["protocol.bin", "property.bin", "graph.bin"];

/// A case: its name and its three files.
#[derive(Clone)]
pub struct Files {
    pub name: String,
    pub bytes: [Vec<u8>; 3],
}

impl Files {
    pub fn of(folder: &Path) -> Self {
        let name = folder.file_name().unwrap().to_string_lossy().into_owned();
        let bytes = NAMES.map(|name| std::fs::read(folder.join(name)).unwrap());
        Files { name, bytes }
    }

    pub fn write(&self, folder: &Path) {
        std::fs::create_dir_all(folder).unwrap();
        for (name, bytes) in NAMES.iter().zip(&self.bytes) {
            std::fs::write(folder.join(name), bytes).unwrap();
        }
    }
}

/// Folders of the tree with a graph: attacks, runs and refusals.
pub fn folders() -> Vec<PathBuf> {
    let of = |place: &str| std::fs::read_dir(super::root().join(place)).unwrap();
    let all = of("tests/corpus/real").chain(of("examples"));
    let all = all.map(|entry| entry.unwrap().path());
    let mut all: Vec<PathBuf> = all
        .filter(|folder| folder.join("graph.bin").exists())
        .collect();
    all.sort_by_key(|folder| folder.file_name().unwrap().to_owned());
    all.dedup_by_key(|folder| folder.file_name().unwrap().to_owned());
    all
}

/// So many cases with names in order, the tree's in turn.
pub fn many(count: usize) -> Vec<Files> {
    let all: Vec<Files> = folders().iter().map(|folder| Files::of(folder)).collect();
    let case = |i: usize| Files {
        name: format!("g{i:05}"),
        ..all[i % all.len()].clone()
    };
    (0..count).map(case).collect()
}

/// A member's header and padded bytes. Any path may stand there, of 100 bytes at most.
pub fn member(path: &str, bytes: &[u8]) -> Vec<u8> {
    let mut header = tar::Header::new_ustar();
    header.as_old_mut().name[..path.len()].copy_from_slice(path.as_bytes());
    header.set_size(bytes.len() as u64);
    header.set_cksum();
    let mut member = header.as_bytes().to_vec();
    member.extend_from_slice(bytes);
    member.resize(member.len().next_multiple_of(512), 0);
    member
}

/// An archive without its end mark.
pub fn open_archive(cases: &[Files]) -> Vec<u8> {
    let files = cases.iter().flat_map(|case| {
        let members = NAMES.iter().zip(&case.bytes);
        members.flat_map(|(name, bytes)| member(&format!("{}/{name}", case.name), bytes))
    });
    files.collect()
}

pub fn archive(cases: &[Files]) -> Vec<u8> {
    let mut archive = open_archive(cases);
    archive.extend([0; 1024]);
    archive
}
