//! What `docs/PROMISES.md` names and lists, and what has to be believed.

use std::collections::{BTreeMap, BTreeSet};

use crate::names::quoted;
use crate::sources::Sources;

/// The document: the names in it, and its tables of files.
pub struct Promises {
    /// All words between backticks.
    names: BTreeSet<String>,
    /// Each table's files, with the lines that it gives them.
    tables: Vec<BTreeMap<String, usize>>,
    /// The total that stands below each table.
    pub totals: Vec<usize>,
    /// Each call's contract, by the table of calls.
    contracts: BTreeMap<String, String>,
}

/// The number of a word such as `1,234`.
fn number(word: &str) -> Option<usize> {
    word.replace(',', "").parse().ok()
}

/// All numbers that stand right before a word.
pub fn numbers_before(text: &str, word: &str) -> Vec<usize> {
    let words: Vec<&str> = text.split_whitespace().collect();
    let pairs = words
        .windows(2)
        .filter(|pair| pair[1].trim_matches('.') == word);
    pairs.filter_map(|pair| number(pair[0])).collect()
}

/// A row of a table of files: the path and the lines.
fn row(line: &str) -> Option<(String, usize)> {
    let mut cells = line.strip_prefix("| `crates/")?.split('|');
    let path = cells.next()?.trim().strip_suffix(".antt`")?;
    Some((format!("crates/{path}.antt"), number(cells.next()?.trim())?))
}

/// A row of the table of calls: the call, and the contract that is named first beside it.
fn contract_row(line: &str) -> Option<(String, String)> {
    let (call, rest) = line.strip_prefix("| `")?.split_once("` | `")?;
    let contract = rest.split('`').next()?;
    let is_name = contract.starts_with(|c: char| c.is_ascii_uppercase());
    is_name.then(|| (call.to_string(), contract.to_string()))
}

impl Promises {
    pub fn parse(text: &str) -> Promises {
        let names = quoted(text).map(str::to_string);
        let mut tables = vec![BTreeMap::new()];
        for line in text.lines() {
            if let Some((path, lines)) = row(line) {
                let table = tables.last_mut().expect("there is one");
                assert!(
                    table.insert(path.clone(), lines).is_none(),
                    "{path} is listed twice"
                );
            } else if !tables.last().is_some_and(BTreeMap::is_empty) {
                tables.push(BTreeMap::new());
            }
        }
        tables.retain(|table| !table.is_empty());
        Promises {
            names: names.collect(),
            tables,
            totals: numbers_before(text, "lines"),
            contracts: text.lines().filter_map(contract_row).collect(),
        }
    }

    fn listed(&self) -> impl Iterator<Item = (&String, &usize)> {
        self.tables.iter().flatten()
    }

    /// What the lines of each table add up to.
    pub fn sums(&self) -> Vec<usize> {
        self.tables
            .iter()
            .map(|table| table.values().sum())
            .collect()
    }

    /// The public calls without a row or with another contract, and the rows of no public call.
    pub fn wrong_contracts(&self, sources: &Sources) -> Vec<String> {
        let calls = sources.calls();
        let mut wrong = Vec::new();
        for (call, names) in &calls {
            match self.contracts.get(call) {
                None => wrong.push(format!("`{call}` has no row")),
                Some(contract) if !names.contains(contract) => {
                    wrong.push(format!("the contract of `{call}` is not `{contract}`"));
                }
                Some(_) => {}
            }
        }
        let strange = self
            .contracts
            .keys()
            .filter(|call| !calls.contains_key(*call));
        wrong.extend(strange.map(|call| format!("`{call}` is no public call")));
        wrong
    }

    /// The files that have another number of lines than is given.
    pub fn wrong_counts(&self, sources: &Sources) -> Vec<String> {
        let wrong = self
            .listed()
            .filter(|(file, given)| sources.lines(file) != Some(**given));
        let sentence = |(file, given): (&String, &usize)| match sources.lines(file) {
            Some(lines) => format!("{file} has {lines} lines, and {given} are given"),
            None => format!("there is no {file}"),
        };
        wrong.map(sentence).collect()
    }
}

/// What has to be believed, whatever is listed.
pub struct Belief {
    /// Each file, with what asks for it.
    files: BTreeMap<String, String>,
    /// Theorems that the document names and no file declares.
    pub undeclared: Vec<String>,
    /// Modules that are used and are no file.
    pub unreadable: Vec<String>,
}

impl Belief {
    /// What the contracts of public calls and the theorems that are named cite, and what that uses, and so on.
    pub fn of(sources: &Sources, promises: &Promises) -> Belief {
        let mut found: Vec<(String, String)> = Vec::new();
        for file in sources.named_by_contracts() {
            found.push((file, "a public call's contract".to_string()));
        }
        let mut undeclared = Vec::new();
        for name in &promises.names {
            // A name of words joined by `_` is no word of prose. It may be a function's, or that of a statement's part, as may a
            // name of one word be, and then is no theorem's.
            let joined = name.contains('_') && !name.contains([' ', '/', '.', '-', ':']);
            let part = sources.specifies(name);
            match sources.named_by_theorem(name) {
                Some(files) if joined || !part => {
                    found.extend(files.into_iter().map(|file| (file, name.clone())));
                }
                None if joined && !part && !sources.runs(name) => {
                    undeclared.push(format!("`{name}` is declared nowhere"));
                }
                _ => {}
            }
        }
        let mut files = BTreeMap::new();
        let mut unreadable = Vec::new();
        while let Some((file, why)) = found.pop() {
            if files.contains_key(&file) {
                continue;
            }
            if sources.lines(&file).is_none() {
                unreadable.push(format!("{file}, which {why} uses"));
            }
            let used = sources.used_by(&file).into_iter();
            found.extend(used.map(|next| (next.to_string(), file.clone())));
            files.insert(file, why);
        }
        Belief {
            files,
            undeclared,
            unreadable,
        }
    }

    pub fn missing(&self, promises: &Promises) -> Vec<String> {
        let listed: BTreeSet<&String> = promises.listed().map(|(file, _)| file).collect();
        let missing = self.files.iter().filter(|(file, _)| !listed.contains(file));
        missing
            .map(|(file, why)| format!("{file}, which {why} cites"))
            .collect()
    }

    pub fn needless(&self, promises: &Promises) -> Vec<String> {
        let needless = promises
            .listed()
            .filter(|(file, _)| !self.files.contains_key(*file));
        needless.map(|(file, _)| file.clone()).collect()
    }
}
