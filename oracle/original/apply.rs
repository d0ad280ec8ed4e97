//! Edits as data, and how they are applied. The build scripts of `original` and of `core` share it.

/// Replaces `find`, which must stand exactly once in `file`, by `put`.
pub struct Edit {
    pub file: &'static str,
    pub find: &'static str,
    pub put: &'static str,
    pub why: &'static str,
}

/// An edit, for the lists of wrong readings.
pub const fn edit(
    file: &'static str,
    why: &'static str,
    find: &'static str,
    put: &'static str,
) -> Edit {
    Edit { file, find, put, why }
}

/// The text of `file` with its edits, in order.
pub fn edited<'a>(file: &str, text: String, edits: impl IntoIterator<Item = &'a Edit>) -> String {
    edits.into_iter().filter(|e| e.file == file).fold(text, |text, edit| apply(edit, &text))
}

fn apply(edit: &Edit, text: &str) -> String {
    let found = text.matches(edit.find).count();
    if found != 1 {
        stop(&format!(
            "the edit \"{}\" of {} finds its text {found} times, not once: {:?}",
            edit.why, edit.file, edit.find
        ));
    }
    text.replacen(edit.find, edit.put, 1)
}

/// Ends the build with a plain message.
pub fn stop(message: &str) -> ! {
    println!("cargo::error={}", message.replace('\n', " "));
    std::process::exit(1)
}
