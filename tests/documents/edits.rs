//! Edits that the check must refuse, as files: each says what it is, and still fits the crate that it changes.

use crate::{text_of, BTreeMap};

/// What is wrong with an edit of a crate: it has no first line that says what it is, or a text that it replaces does not stand just once in its
/// file. The files are changed as `rt must-fail` changes them: by one pair of `old:` and `new:` after another.
pub fn fault(krate: &str, path: &str) -> Option<String> {
    let text = text_of(path);
    if !text.starts_with("# ") {
        return Some("it does not begin with a line that says what it is".to_string());
    }
    let mut files: BTreeMap<String, String> = BTreeMap::new();
    let (mut file, mut old) = (String::new(), "");
    for line in text.lines() {
        if let Some(name) = line.strip_prefix("file: ") {
            file = format!("crates/{krate}/{name}");
            if std::fs::metadata(&file).is_err() {
                return Some(format!("there is no {file}"));
            }
            files.entry(file.clone()).or_insert_with(|| text_of(&file));
        } else if let Some(text) = line.strip_prefix("old: ") {
            old = text;
        } else if let Some(new) = line.strip_prefix("new:") {
            let content = files.get_mut(&file)?;
            let count = content.matches(old).count();
            if count != 1 {
                return Some(format!("{old:?} stands {count} times in {file}"));
            }
            *content = content.replace(old, new.strip_prefix(' ').unwrap_or(new));
        }
    }
    None
}
