//! Files of cases that are copied to a folder.

use super::chunk::FILES;
use super::rule::Files;
use crate::failure::Failure;
use std::path::{Component, Path, PathBuf};

/// Writes a case's files to FOLDER/INPUT/CASE. The same bytes may be there already, others not.
pub fn keep(folder: &Path, input: &str, case: &str, files: &Files) -> Result<(), Failure> {
    let place = folder.join(within(input)).join(within(case));
    std::fs::create_dir_all(&place).map_err(|e| Failure::file(&place, e))?;
    for ((name, _), bytes) in FILES.iter().zip(files) {
        let Some(bytes) = bytes else {
            continue;
        };
        let path = place.join(name);
        match std::fs::read(&path) {
            Ok(there) if there == *bytes => continue,
            // Half a file is what a run that was killed leaves.
            Ok(there) if !bytes.starts_with(&there) => {
                return Err(Failure::file(
                    &path,
                    "other bytes are there already; each run keeps to a folder of its own",
                ));
            }
            _ => std::fs::write(&path, bytes).map_err(|e| Failure::file(&path, e))?,
        }
    }
    Ok(())
}

/// A name as a path that does not lead out of where it is put.
fn within(name: &str) -> PathBuf {
    let parts = Path::new(name).components();
    parts
        .filter(|part| matches!(part, Component::Normal(_)))
        .collect()
}
