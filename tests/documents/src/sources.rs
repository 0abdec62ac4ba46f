//! The crates' sources: what each file uses, and what the statements in it name.

use std::collections::{BTreeMap, BTreeSet};
use std::fs;
use std::path::Path;

/// A module that a file uses, and the names that it takes from there.
struct Use {
    /// The module's file, from the root.
    file: String,
    names: Vec<String>,
}

/// One file of Rattle (`.rt`) or of its logic (`.antt`).
struct Source {
    text: String,
    uses: Vec<Use>,
}

/// All files of the crates, by their path from the root.
pub struct Sources {
    files: BTreeMap<String, Source>,
}

/// A file's text.
///
/// # Panics
/// Where it can't be read: there is nothing to check then.
pub fn read(root: &Path, name: &str) -> String {
    fs::read_to_string(root.join(name)).unwrap_or_else(|error| panic!("{name}: {error}"))
}

/// The kit's libraries whose modules are used. Their names begin as those of our crates do.
const KIT: [&str; 1] = ["std"];

/// The file of a module such as `Rattle.run.specs.Kinds`. Nothing of the kit's modules, nor of those that `rt` makes of the structs
/// in src/ (`specs.declared`).
fn file_of(module: &str) -> Option<String> {
    let (name, rest) = module.strip_prefix("Rattle.")?.split_once('.')?;
    if KIT.contains(&name) || rest.starts_with("specs.declared.") {
        return None;
    }
    Some(format!("crates/{name}/{}.antt", rest.replace('.', "/")))
}

/// The use that a text begins with. Its names may go on in the lines below; one that is taken as another counts as that other.
fn use_at(text: &str) -> Option<Use> {
    let words = text.trim_start_matches(' ');
    let words = words.strip_prefix("pub ").unwrap_or(words);
    let words = words.strip_prefix("ghost ").unwrap_or(words);
    let (module, names) = words.strip_prefix("use ")?.split_once(".{")?;
    if module.contains(char::is_whitespace) {
        // a module taken whole, and what stands below it
        return None;
    }
    let names = names.split('}').next()?.split(',');
    Some(Use {
        file: file_of(module)?,
        names: names
            .filter_map(|name| name.split(" as ").last())
            .map(|name| name.trim().to_string())
            .collect(),
    })
}

/// All uses of a file.
fn uses_in(text: &str) -> Vec<Use> {
    let mut uses = Vec::new();
    let mut rest = Some(text);
    while let Some(below) = rest {
        uses.extend(use_at(below));
        rest = below.split_once('\n').map(|(_, below)| below);
    }
    uses
}

/// The names in a text, remarks left out.
fn names_in(text: &str) -> BTreeSet<String> {
    text.lines()
        .filter_map(|line| line.split("--").next()?.split("//").next())
        .flat_map(|line| line.split(|c: char| c.is_whitespace() || "(){}.;,@\"«»".contains(c)))
        .map(str::to_string)
        .collect()
}

fn indent(line: &str) -> usize {
    line.len() - line.trim_start().len()
}

/// The name that a line declares for other files, in front of the rest of its statement.
fn declared(line: &str) -> Option<&str> {
    let words = line.trim_start();
    let words = words.strip_prefix("unfoldable ").unwrap_or(words);
    let words = words.strip_prefix("abbrev ").unwrap_or(words);
    let words = words.strip_prefix("pub ")?;
    let words = words.strip_prefix("record ").unwrap_or(words);
    let words = words.strip_prefix("data ").unwrap_or(words);
    words.split([' ', ':']).next()
}

/// The statement that begins at a line: that line and those below it that stand further in; and, as it depends on them, what the
/// modules around it are given, up to their `where`.
fn statement<'a>(lines: &[&'a str], begin: usize) -> Vec<&'a str> {
    let mut depth = indent(lines[begin]);
    let below = lines[begin + 1..].iter();
    let mut found = vec![lines[begin]];
    found.extend(below.take_while(|line| indent(line) > depth));
    for at in (0..begin).rev() {
        let line = lines[at];
        if line.trim().is_empty() || indent(line) >= depth {
            continue;
        }
        depth = indent(line);
        if line.trim_start().starts_with("module ") {
            let end = (at..begin).find(|end| lines[*end].ends_with("where"));
            found.extend(&lines[at..=end.unwrap_or(at)]);
        }
    }
    found
}

impl Source {
    fn new(text: String) -> Source {
        let uses = uses_in(&text);
        Source { text, uses }
    }

    /// The files of the names in a text that are taken from elsewhere.
    fn files_named(&self, text: &str) -> BTreeSet<String> {
        let names = names_in(text);
        let named = |used: &&Use| used.names.iter().any(|name| names.contains(name));
        self.uses
            .iter()
            .filter(named)
            .map(|used| used.file.clone())
            .collect()
    }

    /// The statements of a name that this file declares.
    fn statements_of(&self, name: &str) -> Vec<String> {
        let lines: Vec<&str> = self.text.lines().collect();
        let declares = |at: &usize| declared(lines[*at]) == Some(name);
        let begins = (0..lines.len()).filter(declares);
        begins
            .map(|begin| statement(&lines, begin).join("\n"))
            .collect()
    }

    /// Whether this file declares a function.
    fn has_function(&self, name: &str) -> bool {
        let mut heads = self.text.lines().filter_map(|line| {
            let (before, rest) = line.split_once("fn ")?;
            let is_head = (before.is_empty() || before.ends_with(' ')) && !before.contains("//");
            is_head.then(|| rest.split(['(', '<']).next())?
        });
        heads.any(|head| head == name)
    }

    /// The head of each public call: what stands between its remark `// Public:` and its body.
    fn public_calls(&self) -> Vec<String> {
        let mut calls = Vec::new();
        let mut lines = self.text.lines();
        while lines.by_ref().any(|line| line.starts_with("// Public:")) {
            let head: Vec<&str> = lines.by_ref().take_while(|line| *line != "{").collect();
            calls.push(head.join("\n"));
        }
        calls
    }
}

impl Sources {
    pub fn read(root: &Path) -> Sources {
        let mut files = BTreeMap::new();
        let mut folders = vec![root.join("crates")];
        while let Some(folder) = folders.pop() {
            let entries = fs::read_dir(&folder).expect("a folder of the crates");
            for path in entries.map(|entry| entry.expect("an entry").path()) {
                let name = path.strip_prefix(root).expect("below the root");
                let name = name.to_str().expect("names are text").to_string();
                if path.is_dir() {
                    // what `rt` leaves in a crate is no source
                    if !name.ends_with("/out") {
                        folders.push(path);
                    }
                } else if name.ends_with(".antt") || name.ends_with(".rt") {
                    files.insert(name.clone(), Source::new(read(root, &name)));
                }
            }
        }
        Sources { files }
    }

    /// A file's lines, where there is such a file.
    pub fn lines(&self, file: &str) -> Option<usize> {
        self.files
            .get(file)
            .map(|source| source.text.lines().count())
    }

    /// All files that a file uses.
    pub fn used_by(&self, file: &str) -> Vec<&str> {
        let uses = self.files.get(file).map_or(&[][..], |source| &source.uses);
        uses.iter().map(|used| used.file.as_str()).collect()
    }

    /// The files that the contracts of public calls name.
    pub fn named_by_contracts(&self) -> BTreeSet<String> {
        let sources = self.files.values();
        sources
            .flat_map(|source| {
                let calls = source.public_calls();
                calls.into_iter().flat_map(|call| source.files_named(&call))
            })
            .collect()
    }

    /// The public calls whose declarations begin so, each with the names in its contract: what it requires and ensures.
    fn calls_declared(&self, begin: &str) -> BTreeMap<String, BTreeSet<String>> {
        let calls = self.files.values().flat_map(Source::public_calls);
        let contract = |call: String| {
            let mut lines = call.lines();
            let rest = lines.find_map(|line| line.strip_prefix(begin))?;
            let name = rest.split('(').next()?;
            Some((name.to_string(), names_in(&call)))
        };
        calls.filter_map(contract).collect()
    }

    /// The public calls of the library.
    pub fn calls(&self) -> BTreeMap<String, BTreeSet<String>> {
        self.calls_declared("pub fn ")
    }

    /// The functions of the C boundary.
    pub fn functions(&self) -> BTreeMap<String, BTreeSet<String>> {
        self.calls_declared("pub extern \"C\" fn ")
    }

    /// The files that the statement of a theorem names; nothing where proofs/ declare no such theorem.
    pub fn named_by_theorem(&self, name: &str) -> Option<BTreeSet<String>> {
        let mut found = None;
        for (_, source) in self.files.iter().filter(|(file, _)| is_of_laws(file)) {
            for statement in source.statements_of(name) {
                let named = source.files_named(&statement);
                found.get_or_insert_with(BTreeSet::new).extend(named);
            }
        }
        found
    }

    /// Whether a function of src/ has a name.
    pub fn runs(&self, name: &str) -> bool {
        let sources = self.files.iter().filter(|(file, _)| file.ends_with(".rt"));
        let mut sources = sources.map(|(_, source)| source);
        sources.any(|source| source.has_function(name))
    }

    /// Whether specs/ declare a name.
    pub fn specifies(&self, name: &str) -> bool {
        let mut specs = self
            .files
            .iter()
            .filter(|(file, _)| file.contains("/specs/"));
        specs.any(|(_, source)| !source.statements_of(name).is_empty())
    }
}

/// Whether a file lies in proofs/ itself; in the folders there lies the proof of each function.
fn is_of_laws(file: &str) -> bool {
    file.split_once("/proofs/")
        .is_some_and(|(_, name)| !name.contains('/'))
}

#[cfg(test)]
mod tests {
    use super::*;

    #[test]
    fn modules_have_files() {
        let file = |module| file_of(module).unwrap_or_default();
        assert_eq!(
            file("Rattle.run.specs.Kinds"),
            "crates/run/specs/Kinds.antt"
        );
        assert_eq!(
            file("Rattle.run.proofs.Starts"),
            "crates/run/proofs/Starts.antt"
        );
        assert_eq!(file("Rattle.run.specs.declared.Record"), "");
        assert_eq!(file("Rattle.std.specs.Prelude"), "");
        assert_eq!(file("mathlib.Core.Path"), "");
    }

    #[test]
    fn a_use_may_go_on_and_take_a_name_as_another() {
        let text = "use Rattle.std.specs.Prelude.{ℕ}
use Rattle.run.proofs.due.Goals as goal
pub use Rattle.run.specs.Kinds.{Kind,
    by_kind as chosen}

ghost use Rattle.run.specs.Records.{due};
-- use Rattle.run.specs.Series.{Slice}
";
        let uses = uses_in(text);
        let found: Vec<_> = uses
            .iter()
            .map(|used| (used.file.as_str(), used.names.join(" ")))
            .collect();
        let wanted = [
            ("crates/run/specs/Kinds.antt", "Kind chosen".to_string()),
            ("crates/run/specs/Records.antt", "due".to_string()),
        ];
        assert_eq!(found, wanted);
    }

    const LAWS: &str = "use Rattle.run.specs.Kinds.{Kind, by_kind}
use Rattle.run.specs.Records.{due}
use Rattle.run.specs.Series.{Slice}
use Rattle.grid.specs.Sets.{PointSet}
use Rattle.grid.specs.Points.{Point}
module _ (A : PointSet)
    (x : Point) where
  helper : Slice

  -- a remark on Kind
  pub law_of_rows : (n : Number)
      → due n.rows ≡ A

  law_of_rows n = by_kind n

pub other : Number
other = law_of_rows
";

    #[test]
    fn a_statement_has_its_modules_and_no_proof() {
        let source = Source::new(LAWS.to_string());
        let files = |name: &str| source.files_named(&source.statements_of(name).join("\n"));
        let wanted = [
            "crates/grid/specs/Points.antt",
            "crates/grid/specs/Sets.antt",
            "crates/run/specs/Records.antt",
        ];
        assert_eq!(files("law_of_rows"), wanted.map(String::from).into());
        assert_eq!(files("other"), BTreeSet::new());
    }

    #[test]
    fn a_contract_is_what_stands_before_the_body() {
        let text = "ghost use Rattle.run.specs.Kinds.{Kind, by_kind};
// Public: Kind is no name here
#[unsafe(no_mangle)]
pub extern \"C\" fn call(out: &mut [u8]) -> u32
    ensures { by_kind result.refusal
        out.new }
{
    Kind
}
";
        let source = Source::new(text.to_string());
        let calls = source.public_calls();
        assert_eq!(calls.len(), 1);
        let names = names_in(&calls[0]);
        assert!(
            ["by_kind", "result", "refusal", "out"].map(|name| names.contains(name)) == [true; 4]
        );
        assert!(!names.contains("Kind"));
    }

    #[test]
    fn functions_are_known() {
        let source =
            Source::new("// a fn gone(\nfn kept(n: u32) {\n    pub fn made<T>(\n".to_string());
        let known = ["kept", "made", "gone", "n"].map(|name| source.has_function(name));
        assert_eq!(known, [true, true, false, false]);
    }
}
