// Names looked up in files as whole words. A word has letters, digits, `-`, `_`, `'` and every character beyond ASCII.

use std::fs;
use std::path::Path;

fn of_a_word(character: char) -> bool {
    character.is_ascii_alphanumeric() || "-_'".contains(character) || !character.is_ascii()
}

/// Whether a text has a name as a whole word.
pub fn has(text: &str, name: &str) -> bool {
    text.match_indices(name).any(|(place, _)| {
        let before = text[..place].chars().next_back();
        let after = text[place + name.len()..].chars().next();
        !before.is_some_and(of_a_word) && !after.is_some_and(of_a_word)
    })
}

/// Whether a file has a name, or some file of a folder.
pub fn stands_in(path: &Path, name: &str) -> bool {
    if let Ok(entries) = fs::read_dir(path) {
        return entries
            .flatten()
            .any(|entry| stands_in(&entry.path(), name));
    }
    let bytes = fs::read(path).unwrap_or_default();
    has(&String::from_utf8_lossy(&bytes), name)
}

#[cfg(test)]
mod tests {
    use super::has;

    #[test]
    fn whole_words() {
        assert!(has("a step-below b", "step-below"));
        assert!(has("(window_seed)", "window_seed"));
        assert!(has("stepped step", "step"));
        assert!(!has("a step-below b", "step"));
        assert!(!has("step'", "step"));
        assert!(!has("step·x stepλ", "step"));
    }
}
