// A fresh folder for the examples of one document. It looks like the repository's root to the commands of the document:
// copies of the folders that they read, so that nothing they write changes the repository, and links to what was built.

use std::fs;
use std::os::unix::fs::symlink;
use std::path::{Path, PathBuf};
use std::sync::atomic::{AtomicUsize, Ordering};

/// The folders that are copied, where the repository has them.
const COPIED: [&str; 3] = ["examples", "c", "rust"];

/// The folders that are linked, where they are there: what cargo makes, the two programs and the static library.
const BUILT: [&str; 4] = [
    "target",
    "crates/encode/out",
    "crates/expand/out",
    "crates/seeds/out",
];

/// How many folders this process has made.
static MADE: AtomicUsize = AtomicUsize::new(0);

/// A folder that is removed with what is in it at the end.
pub struct Folder {
    pub path: PathBuf,
}

impl Folder {
    pub fn empty() -> Result<Folder, String> {
        let number = MADE.fetch_add(1, Ordering::Relaxed);
        let name = format!("guide-{}-{number}", std::process::id());
        let path = std::env::temp_dir().join(name);
        fs::create_dir(&path).map_err(|why| format!("{}: {why}", path.display()))?;
        Ok(Folder { path })
    }

    /// A folder for the examples of the repository at `root`.
    pub fn like(root: &Path) -> Result<Folder, String> {
        let folder = Folder::empty()?;
        let said = |why: std::io::Error| format!("{}: {why}", folder.path.display());
        for name in COPIED {
            let from = root.join(name);
            if from.is_dir() {
                copy(&from, &folder.path.join(name)).map_err(said)?;
            }
        }
        for name in BUILT {
            let built = root.join(name);
            if built.is_dir() {
                let built = built.canonicalize().map_err(said)?;
                link(&built, &folder.path.join(name)).map_err(said)?;
            }
        }
        Ok(folder)
    }
}

impl Drop for Folder {
    fn drop(&mut self) {
        let _ = fs::remove_dir_all(&self.path);
    }
}

/// Makes a link to what was built, and the folders above it.
fn link(built: &Path, place: &Path) -> std::io::Result<()> {
    fs::create_dir_all(place.parent().unwrap_or(place))?;
    symlink(built, place)
}

/// Copies a folder with what is in it, but for what was built there.
fn copy(from: &Path, to: &Path) -> std::io::Result<()> {
    fs::create_dir(to)?;
    for entry in fs::read_dir(from)? {
        let entry = entry?;
        let target = to.join(entry.file_name());
        if !entry.file_type()?.is_dir() {
            fs::copy(entry.path(), target)?;
        } else if entry.file_name() != "target" {
            copy(&entry.path(), &target)?;
        }
    }
    Ok(())
}
