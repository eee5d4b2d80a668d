//! What the tree has: its files, crates, functions, definitions, laws and edits.

use crate::{fs, text_of, BTreeMap, BTreeSet};

#[derive(Default)]
pub struct Tree {
    pub files: BTreeSet<String>,
    folders: BTreeSet<String>,
    crates: BTreeSet<String>,
    pub libraries: BTreeSet<String>,
    /// functions by their paths, those of the libraries that are public, and those that C can call, by their names
    pub functions: BTreeSet<String>,
    pub public: BTreeSet<String>,
    pub exported: BTreeMap<String, String>,
    /// the functions that C can call and that have a `requires`
    pub asking: BTreeSet<String>,
    /// the loops of the code, each by its file and its function's name
    pub loops: Vec<(String, String)>,
    /// modules, those that are public, and what a module hands on: the path there, and where it stands
    modules: BTreeSet<String>,
    open: BTreeSet<String>,
    handed_on: Vec<(String, String)>,
    /// modules, types, constants and functions
    items: BTreeSet<String>,
    /// what each file of definitions or laws defines
    defined: BTreeMap<String, Vec<Definition>>,
    /// edits by crate and name, and whether the gate tries them
    pub edits: BTreeMap<(String, String), bool>,
    /// every word of every source
    words: BTreeSet<String>,
}

struct Definition {
    name: String,
    public: bool,
    /// the record that has it as a field
    record: Option<String>,
    /// it is an alternative of a data type
    alternative: bool,
}

const SOURCES: [&str; 9] = [".rt", ".antt", ".rs", ".c", ".h", ".cpp", ".sh", ".md", ".in"];

impl Tree {
    /// The tree of the folder that this is run in.
    pub fn read() -> Tree {
        let mut tree = Tree::default();
        tree.walk("");
        for file in tree.files.clone() {
            tree.read_file(&file);
        }
        tree.settle_public();
        tree
    }

    /// Leaves those functions public that no module hides, and adds those that a module hands on.
    fn settle_public(&mut self) {
        let hidden: BTreeSet<String> = self.modules.iter().filter(|m| m.contains("::") && !self.open.contains(*m)).cloned().collect();
        let hides = |path: &str| hidden.iter().any(|m| path.strip_prefix(m.as_str()).is_some_and(|rest| rest.starts_with("::")));
        for (path, stands) in std::mem::take(&mut self.handed_on) {
            if self.public.contains(&stands) && !hides(&path) {
                self.functions.insert(path.clone());
                self.items.insert(path.clone());
                self.public.insert(path);
            }
        }
        self.public.retain(|path| !hides(path));
    }

    fn walk(&mut self, folder: &str) {
        let entries = fs::read_dir(if folder.is_empty() { "." } else { folder }).unwrap();
        for entry in entries.map(|e| e.unwrap()) {
            let name = entry.file_name().into_string().unwrap();
            let path = if folder.is_empty() { name } else { format!("{folder}/{name}") };
            if !entry.file_type().unwrap().is_dir() {
                self.files.insert(path);
            } else if path != "target" && path != ".git" {
                self.walk(&path);
                self.folders.insert(path);
            }
        }
    }

    fn read_file(&mut self, file: &str) {
        let parts: Vec<&str> = file.split('/').collect();
        let name = parts[parts.len() - 1];
        match parts[..] {
            ["crates", krate, "src", ..] if name.ends_with(".rt") => {
                self.crates.insert(krate.to_string());
                if parts[3..] == ["lib.rt"] {
                    self.libraries.insert(krate.to_string());
                }
                let library = self.files.contains(&format!("crates/{krate}/src/lib.rt"));
                let text = text_of(file);
                self.read_code(&module_of(krate, &parts[3..]), library, &text);
                self.loops.extend(loops(&text).into_iter().map(|function| (file.to_string(), function)));
            }
            ["crates", _, "specs" | "proofs", ..] => {
                self.defined.insert(file.to_string(), definitions(&text_of(file)));
            }
            ["crates", krate, "must-fail", _] | ["tests", "edits", krate, _] => {
                let gate = parts[0] == "crates";
                self.edits.insert((krate.to_string(), name.trim_end_matches(".edit").to_string()), gate);
            }
            _ => {}
        }
        let document = file == "README.md" || file.starts_with("docs/");
        if !document && (SOURCES.iter().any(|s| name.ends_with(s)) || !name.contains('.')) {
            let text = text_of(file);
            let words = text.split(|c: char| !c.is_alphanumeric() && c != '_').filter(|w| !w.is_empty());
            self.words.extend(words.map(str::to_string));
        }
    }

    /// The items of a file of code.
    fn read_code(&mut self, module: &str, library: bool, text: &str) {
        self.items.insert(module.to_string());
        self.modules.insert(module.to_string());
        let mut within = String::new();
        for line in text.lines().filter(|l| !l.trim().starts_with("//")) {
            let mut words = line.trim().split(|c: char| !c.is_alphanumeric() && c != '_' && c != '"').filter(|w| !w.is_empty());
            let first = words.next().unwrap_or("");
            let (public, word) = if first == "pub" { (true, words.next().unwrap_or("")) } else { (false, first) };
            match word {
                "mod" if public => {
                    self.open.insert(format!("{module}::{}", words.next().unwrap()));
                }
                // One item of a module, or a group of them.
                "use" if public => {
                    let path: Vec<&str> = words.collect();
                    let stem = if line.contains('{') { line.matches("::").count() } else { path.len() - 1 };
                    for name in &path[stem..] {
                        self.handed_on.push((format!("{module}::{name}"), format!("{module}::{}::{name}", path[..stem].join("::"))));
                    }
                }
                "impl" => within = format!("::{}", words.next().unwrap()),
                "fn" | "extern" => {
                    let exported = word == "extern";
                    let name = words.nth(if exported { 2 } else { 0 }).unwrap_or("");
                    // A crate NAME_c only exports: its functions stand for those of NAME that they call.
                    let of = if exported { module.trim_end_matches("_c") } else { module };
                    let path = format!("{of}{within}::{name}");
                    self.items.insert(path.clone());
                    self.functions.insert(path.clone());
                    if exported {
                        let head = text.split(&format!("fn {name}(")).nth(1).unwrap_or("").split("\n{").next().unwrap_or("");
                        if head.contains("requires") {
                            self.asking.insert(name.to_string());
                        }
                        self.exported.insert(name.to_string(), path.clone());
                    }
                    if public && library {
                        self.public.insert(path);
                    }
                }
                "enum" | "struct" | "const" => {
                    self.items.insert(format!("{module}{within}::{}", words.next().unwrap()));
                }
                _ if line.starts_with('}') => within.clear(),
                _ => {}
            }
        }
    }

    pub fn has_path(&self, path: &str) -> bool {
        self.files.contains(path) || self.folders.contains(path.trim_end_matches('/'))
    }

    /// Whether a file, or one of a folder, defines a name.
    pub fn defines_in(&self, prefix: &str, name: &str) -> bool {
        self.defined.iter().any(|(file, all)| file.starts_with(prefix) && all.iter().any(|d| d.name == name))
    }

    /// The public laws of a folder.
    pub fn laws(&self, folder: &str) -> Vec<String> {
        let files = self.defined.iter().filter(|(file, _)| file.starts_with(folder));
        files.flat_map(|(_, all)| all).filter(|d| d.public && d.record.is_none()).map(|d| d.name.clone()).collect()
    }

    /// The public definitions of a folder, as `File.name`, without fields and alternatives.
    pub fn definitions(&self, folder: &str) -> Vec<String> {
        let files = self.defined.iter().filter(|(file, _)| file.starts_with(folder) && !file.ends_with("/Lib.antt"));
        let each = files.flat_map(|(file, all)| all.iter().map(move |d| (stem(file), d)));
        each.filter(|(_, d)| d.public && d.record.is_none() && !d.alternative).map(|(file, d)| format!("{file}.{}", d.name)).collect()
    }

    /// Whether what a document has in backquotes is in the tree. What has the form of no name is not asked.
    pub fn knows(&self, text: &str) -> bool {
        let word = text.split(' ').next().unwrap();
        if text.contains("::") {
            self.knows_item(text)
        } else if let Some((first, rest)) = word.split_once('/') {
            self.knows_path(word, first, rest)
        } else if text.contains([' ', '"', '<', '(', ':', '=']) || text.starts_with(['-', '.', '+', '*']) {
            true
        } else if let Some((first, rest)) = text.split_once('.') {
            self.knows_dotted(text, first, rest)
        } else {
            self.knows_word(text)
        }
    }

    /// A module, a type, a constant or a function; `crate::` stands for any.
    fn knows_item(&self, text: &str) -> bool {
        let path = text.trim_end_matches("::*");
        path.starts_with("std::") || path.starts_with("crate::") || self.items.contains(path)
    }

    /// A word with hyphens is a law, a definition or a field. One with underscores or in mixed case is one of these, a crate, an edit, a
    /// file, or a word of some source. Others are not asked.
    fn knows_word(&self, word: &str) -> bool {
        let plain = word.chars().all(|c| c.is_ascii_alphanumeric() || c == '_' || c == '-');
        let mixed = word.contains(|c: char| c.is_ascii_uppercase()) && word.contains(|c: char| c.is_ascii_lowercase());
        let upper = word.starts_with(|c: char| c.is_ascii_uppercase());
        if !plain || upper && !mixed || self.defines_in("crates/", word) {
            return true;
        }
        if word.contains('-') {
            return upper;
        }
        let edit = || self.edits.keys().any(|(_, edit)| edit == word);
        let file = || self.files.iter().any(|f| stem(f) == word);
        !(word.contains('_') || mixed) || self.crates.contains(word) || self.words.contains(word) || edit() || file()
    }

    /// An edit `crate/name`; a file or folder of the top folder; or the end of a file's path.
    fn knows_path(&self, path: &str, first: &str, rest: &str) -> bool {
        if self.crates.contains(first) && !rest.contains(['/', '.']) && !rest.is_empty() {
            return self.edits.contains_key(&(first.to_string(), rest.to_string()));
        }
        if self.folders.contains(first) {
            return self.has_path(path.trim_end_matches('*'));
        }
        !has_extension(path) || self.files.iter().any(|f| f.ends_with(&format!("/{path}")))
    }

    /// A file by its name, or a definition as `File.name` or `Record.field`.
    fn knows_dotted(&self, text: &str, first: &str, rest: &str) -> bool {
        if has_extension(text) {
            return self.files.iter().any(|f| f == text || f.ends_with(&format!("/{text}")));
        }
        if !first.starts_with(|c: char| c.is_ascii_uppercase()) || text == "File.name" {
            return true;
        }
        let all = self.defined.iter().flat_map(|(file, all)| all.iter().map(move |d| (file, d)));
        all.into_iter().any(|(file, d)| d.name == rest && (stem(file) == first || d.record.as_deref() == Some(first)))
    }
}

fn has_extension(path: &str) -> bool {
    SOURCES.iter().any(|s| path.ends_with(s)) || path.ends_with(".txt")
}

/// The name of a file without its folder and what follows the last dot.
fn stem(file: &str) -> &str {
    let name = file.rsplit('/').next().unwrap();
    name.rsplit_once('.').map_or(name, |(stem, _)| stem)
}

/// The path of the module that a file of code is.
fn module_of(krate: &str, path: &[&str]) -> String {
    let mut module = krate.to_string();
    for part in path.iter().map(|p| p.trim_end_matches(".rt")).filter(|p| !["lib", "main", "mod"].contains(p)) {
        module = format!("{module}::{part}");
    }
    module
}

/// The loops of a file of code, comments aside: for each the name of the function that it stands in.
fn loops(text: &str) -> Vec<String> {
    let mut all = Vec::new();
    let (mut function, mut before) = ("", "");
    let code = text.lines().map(|line| line.split("//").next().unwrap());
    for word in code.flat_map(|line| line.split(|c: char| !c.is_alphanumeric() && c != '_')).filter(|w| !w.is_empty()) {
        if before == "fn" {
            function = word;
        }
        if ["while", "loop", "for"].contains(&word) {
            all.push(function.to_string());
        }
        before = word;
    }
    all
}

/// What a file of definitions or laws defines: a name before `:` or after `record` or `data`. What stands further in than a record or a
/// data type is its fields or alternatives.
fn definitions(text: &str) -> Vec<Definition> {
    let mut all = Vec::new();
    let mut inside: Option<(usize, Option<String>)> = None;
    for line in text.lines().filter(|l| !l.trim().is_empty() && !l.trim().starts_with("--")) {
        let indent = line.len() - line.trim_start().len();
        if inside.as_ref().is_some_and(|(of, _)| indent <= *of) {
            inside = None;
        }
        let words: Vec<&str> = line.split_whitespace().collect();
        let start = words.iter().take_while(|w| ["abbrev", "unfoldable", "pub", "record", "data"].contains(w)).count();
        let public = words[..start].contains(&"pub");
        let kind = words[..start].iter().find(|w| ["record", "data"].contains(w));
        let Some(first) = words.get(start) else { continue };
        if ["use", "let", "module", "where", "in", "|"].contains(first) {
            continue;
        }
        let names: Vec<&str> = match kind {
            Some(_) => vec![*first],
            None => words[start..].iter().take_while(|w| **w != ":").copied().collect(),
        };
        let named = |n: &&str| !n.contains(['(', ')', '{', '}', '=', 'λ', ',']) && *n != "→";
        if kind.is_none() && (start + names.len() == words.len() || !names.iter().all(named)) {
            continue;
        }
        let record = inside.as_ref().and_then(|(_, record)| record.clone());
        let alternative = inside.as_ref().is_some_and(|(_, record)| record.is_none());
        all.extend(names.iter().map(|n| Definition { name: n.to_string(), public, record: record.clone(), alternative }));
        if let Some(kind) = kind {
            inside = Some((indent, (*kind == "record").then(|| first.to_string())));
        }
    }
    all
}
