// The files and folders that a path names in which `*` stands for any characters of a name.

use std::path::{Path, PathBuf};

/// Whether a name matches a pattern in which `*` stands for any characters.
fn matches(pattern: &str, name: &str) -> bool {
    let Some((front, rest)) = pattern.split_once('*') else {
        return pattern == name;
    };
    let Some(left) = name.strip_prefix(front) else {
        return false;
    };
    let mut places = left.char_indices().map(|(place, _)| place);
    rest.is_empty() || places.any(|place| matches(rest, &left[place..])) || matches(rest, "")
}

/// What a folder holds that a part of the path matches.
fn below(folder: &Path, part: &str) -> Vec<PathBuf> {
    if !part.contains('*') {
        return Vec::from([folder.join(part)]);
    }
    let entries = folder.read_dir().into_iter().flatten().flatten();
    let named = entries.filter(|entry| matches(part, &entry.file_name().to_string_lossy()));
    named.map(|entry| entry.path()).collect()
}

/// What a path names below a root; a `/` at its end asks for folders.
pub fn found(root: &Path, path: &str) -> Vec<PathBuf> {
    let mut places = Vec::from([root.to_path_buf()]);
    for part in path.split('/').filter(|part| !part.is_empty()) {
        places = places.iter().flat_map(|place| below(place, part)).collect();
    }
    let folder = path.ends_with('/');
    places.retain(|place| place.exists() && (!folder || place.is_dir()));
    places
}

#[cfg(test)]
mod tests {
    use super::matches;

    #[test]
    fn stars() {
        assert!(matches("load*.rs", "load.rs"));
        assert!(matches("load*.rs", "load_run.rs"));
        assert!(matches("*", "a"));
        assert!(!matches("load*.rs", "load.rs.old"));
        assert!(!matches("load", "loads"));
    }
}
