//! Names in a document's backticks: of files, and of the Rust crate's calls.

use std::path::Path;

/// The documents whose names are looked up. A landing's page speaks of its own time, and may name what is gone.
pub const DOCUMENTS: [&str; 7] = [
    "README.md",
    "sheets/README.md",
    "docs/ARCHITECTURE.md",
    "docs/BENCHMARK.md",
    "docs/DECISIONS.md",
    "docs/PROMISES.md",
    "docs/RULES.md",
];

const FOLDERS: [&str; 7] = [
    "crates", "docs", "tests", "include", "rust", "bench", "sheets",
];

/// All that stands between backticks.
pub fn quoted(text: &str) -> impl Iterator<Item = &str> {
    text.split('`').skip(1).step_by(2)
}

/// The files and folders of the project that a text names, from the root, and that are not there.
pub fn lost_files(root: &Path, text: &str) -> Vec<String> {
    let first_words = quoted(text).filter_map(|name| name.split_whitespace().next());
    let names = first_words.map(|name| name.strip_prefix("../").unwrap_or(name));
    let ours = names.filter(|name| {
        let folder = name.split_once('/').map(|(folder, _)| folder);
        folder.is_some_and(|folder| FOLDERS.contains(&folder)) && !name.contains('*')
    });
    let lost = ours.filter(|name| !root.join(name).exists());
    lost.map(|name| format!("there is no {name}")).collect()
}

/// The calls such as `Sheet::open` that a text names and that a Rust source does not declare.
pub fn lost_calls(source: &str, text: &str) -> Vec<String> {
    let calls = quoted(text).filter_map(|name| name.split_once("::"));
    let lost = calls.filter(|(_, call)| !source.contains(&format!("pub fn {call}(")));
    lost.map(|(kind, call)| format!("there is no {kind}::{call}"))
        .collect()
}

#[cfg(test)]
mod tests {
    use super::*;

    #[test]
    fn names_are_looked_up() {
        let root = Path::new(env!("CARGO_MANIFEST_DIR"));
        let text = "`tests/documents`, `bench/run --quick`, `crates/*/src`, `../docs/NONE.md`, docs/NO.md, `a/b`";
        let lost = ["tests/documents", "bench/run", "docs/NONE.md"];
        assert_eq!(
            lost_files(root, text),
            lost.map(|name| format!("there is no {name}"))
        );
        assert_eq!(lost_files(&root.join("../.."), text).len(), 1);
    }

    #[test]
    fn calls_are_looked_up() {
        let lost = lost_calls(
            "pub fn open(&self)",
            "`Sheet::open`, `Sheet::opens`, `wt_open`",
        );
        assert_eq!(lost, ["there is no Sheet::opens"]);
    }
}
