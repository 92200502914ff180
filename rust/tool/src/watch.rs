//! Waits for a file to be saved. The system tells of changes in its folder (inotify), so that it is also seen when an editor puts another
//! file in its place; nothing is asked again and again.

use crate::failure::Failure;
use notify::event::{AccessKind, AccessMode, EventKind, ModifyKind};
use notify::{Event, RecommendedWatcher, RecursiveMode, Watcher};
use std::path::{Path, PathBuf};
use std::sync::mpsc::{channel, Receiver};
use std::time::Duration;

/// An editor writes and renames in several strokes; after this much quiet they are one save.
const QUIET: Duration = Duration::from_millis(50);

pub struct Watch {
    told: Receiver<notify::Result<()>>,
    /// It tells as long as it is there.
    _watcher: RecommendedWatcher,
}

impl Watch {
    pub fn new(file: &Path) -> Result<Watch, Failure> {
        let unread = |e: std::io::Error| Failure::File(format!("{}: {e}", file.display()));
        let places = places(file).map_err(unread)?;
        let folders = places.iter().filter_map(|place| place.parent());
        let folders: Vec<PathBuf> = folders.map(Path::to_path_buf).collect();
        let (send, told) = channel();
        let tell = move |event: notify::Result<Event>| {
            let saved = event.map(|event| is_save(&event, &places));
            if !matches!(saved, Ok(false)) {
                // Where no one waits any more, the program ends.
                let _ = send.send(saved.map(|_| ()));
            }
        };
        let mut watcher = notify::recommended_watcher(tell).map_err(unwatched)?;
        for folder in folders {
            let watched = watcher.watch(&folder, RecursiveMode::NonRecursive);
            watched.map_err(unwatched)?;
        }
        Ok(Watch {
            told,
            _watcher: watcher,
        })
    }

    /// Waits for the next save.
    pub fn saved(&self) -> Result<(), Failure> {
        let ended = |_| Failure::File("files are not watched any more".into());
        self.told.recv().map_err(ended)?.map_err(unwatched)?;
        while let Ok(more) = self.told.recv_timeout(QUIET) {
            more.map_err(unwatched)?;
        }
        Ok(())
    }
}

fn unwatched(error: notify::Error) -> Failure {
    Failure::File(format!("files cannot be watched: {error}"))
}

/// The file's whole path, and that of the file that a link leads to.
fn places(file: &Path) -> std::io::Result<Vec<PathBuf>> {
    let real = file.canonicalize()?;
    let folder = match file.parent() {
        Some(folder) if !folder.as_os_str().is_empty() => folder,
        _ => Path::new("."),
    };
    let own = folder
        .canonicalize()?
        .join(file.file_name().unwrap_or_default());
    Ok(match own == real {
        true => vec![own],
        false => vec![own, real],
    })
}

/// A file that was written and closed, put in place, or taken away. Reading is none, for the tool reads; where changes were lost, all may be.
fn is_save(event: &Event, places: &[PathBuf]) -> bool {
    let changed = matches!(
        event.kind,
        EventKind::Access(AccessKind::Close(AccessMode::Write))
            | EventKind::Modify(ModifyKind::Name(_))
            | EventKind::Remove(_)
    );
    let ours = event.paths.iter().any(|path| places.contains(path));
    changed && ours || event.need_rescan()
}
