//! Holds README.md and docs/ against the tree: what they name in backquotes or by a link is there, and the lists that they keep of what the
//! tree has leave nothing out. The edits, which documents name, are held to the code that they change, and the code of dates to having no
//! step for each year. docs/TESTING.md says what is checked.
//! Run in the top folder of the repository; docs/CHANGES.md, the history, and docs/PORT.md are held to their links alone.

use std::collections::{BTreeMap, BTreeSet};
use std::fs;

mod document;
mod edits;
mod tree;

use document::{Document, Named};
use tree::Tree;

/// What was found to be wrong, each with its place.
#[derive(Default)]
struct Findings(BTreeSet<String>);

impl Findings {
    fn add(&mut self, place: &str, what: String) {
        self.0.insert(format!("{place}: {what}"));
    }

    fn unless(&mut self, good: bool, place: &str, what: impl FnOnce() -> String) {
        if !good {
            self.add(place, what());
        }
    }
}

const HISTORY: [&str; 4] = ["docs/CHANGES.md", "docs/DESIGN-PASS.md", "docs/LOOK-BACK.md", "docs/PORT.md"];
const PROVED: &str = "docs/PROVED.md";
const RULES: &str = "docs/RULES.md";
const DECISIONS: &str = "docs/DECISIONS.md";
const ARCHITECTURE: &str = "docs/ARCHITECTURE.md";

/// The code of dates, in files and folders, and the loops that it may have, by file and function: at most five parts follow a year.
const DATES: [&str; 2] = ["crates/timestamp/src/", "crates/printing/src/date.rt"];
const LOOPS: [(&str, &str); 1] = [("crates/timestamp/src/form.rt", "read_parts")];

fn main() {
    let tree = Tree::read();
    let mut findings = Findings::default();
    let names = tree.files.iter().filter(|f| *f == "README.md" || f.starts_with("docs/") && f.ends_with(".md"));
    let documents: BTreeMap<&str, Document> = names.map(|f| (f.as_str(), Document::read(f))).collect();
    for (name, document) in &documents {
        check_links(&tree, name, document, &mut findings);
        if !HISTORY.contains(name) {
            check_names(&tree, name, document, &mut findings);
        }
    }
    check_edits_fit(&tree, &mut findings);
    let proved = &documents[PROVED];
    check_statements(&tree, proved, &mut findings);
    check_laws(&tree, proved, &mut findings);
    check_code(&tree, proved, &mut findings);
    let named = check_edits(&tree, proved, &mut findings);
    check_functions_have_edits(&tree, &named, &documents[DECISIONS], &mut findings);
    check_definitions(&tree, &documents[RULES], &mut findings);
    check_specs(&tree, &documents[ARCHITECTURE], &mut findings);
    check_counts(&tree, &documents, &mut findings);
    check_asks_nothing(&tree, &mut findings);
    check_steps(&tree, &mut findings);
    for finding in &findings.0 {
        println!("{finding}");
    }
    println!("{} documents, {} findings", documents.len(), findings.0.len());
    std::process::exit(if findings.0.is_empty() { 0 } else { 1 });
}

/// Every edit, tried by the gate or not, can be applied, and has a name of its own in its crate.
fn check_edits_fit(tree: &Tree, findings: &mut Findings) {
    for path in tree.files.iter().filter(|f| f.ends_with(".edit")) {
        let parts: Vec<&str> = path.split('/').collect();
        let (krate, gate) = if parts[0] == "crates" { (parts[1], true) } else { (parts[2], false) };
        let name = parts[parts.len() - 1].trim_end_matches(".edit");
        let twice = tree.edits.get(&(krate.to_string(), name.to_string())) != Some(&gate);
        findings.unless(!twice, path, || "another edit of the crate has this name".to_string());
        if let Some(fault) = edits::fault(krate, path) {
            findings.add(path, fault);
        }
    }
}

/// Links to files of the repository lead to some.
fn check_links(tree: &Tree, name: &str, document: &Document, findings: &mut Findings) {
    for (line, target) in document.links() {
        let target = target.split('#').next().unwrap();
        let folder = name.rsplit_once('/').map_or("", |(folder, _)| folder);
        let path = match target.strip_prefix("../") {
            Some(rest) => rest.to_string(),
            None if folder.is_empty() => target.to_string(),
            None => format!("{folder}/{target}"),
        };
        findings.unless(target.contains("://") || target.is_empty() || tree.has_path(&path), &format!("{name}:{line}"), || {
            format!("no file {path}")
        });
    }
}

/// What stands in backquotes is in the tree, by the form that it is written in.
fn check_names(tree: &Tree, name: &str, document: &Document, findings: &mut Findings) {
    for named in document.named() {
        let place = format!("{name}:{}", named.line);
        let known = tree.knows(&named.text);
        findings.unless(known, &place, || format!("`{}` is not in the tree", named.text));
        if name == PROVED {
            check_where_tried(tree, named, &place, findings);
        }
    }
}

/// In PROVED an edit `crate/name` is tried by the gate, and one in brackets is not.
fn check_where_tried(tree: &Tree, named: &Named, place: &str, findings: &mut Findings) {
    let Some((krate, edit)) = named.text.split_once('/') else { return };
    if let Some(gate) = tree.edits.get(&(krate.to_string(), edit.to_string())) {
        let due = if named.bracketed { "tests/edits" } else { "must-fail" };
        findings.unless(*gate != named.bracketed, place, || format!("the edit `{}` is not in {due}", named.text));
    }
}

/// The statements that PROVED names beside the demands' sentences are of `demands` or of `rules`, and every law of `demands` is named.
fn check_statements(tree: &Tree, proved: &Document, findings: &mut Findings) {
    for row in proved.rows("Sentence | Statement | Rests on | Wrong programs") {
        for name in row.names(1) {
            let word = name.split([' ', '.']).next().unwrap();
            let known = ["crates/demands/specs/", "crates/rules/specs/"].iter().any(|folder| tree.defines_in(folder, word));
            findings.unless(known || name.contains('.') || word == "requires", &row.place(PROVED), || format!("`{name}` is no statement"));
        }
    }
    let all: BTreeSet<&str> = proved.named().iter().map(|n| n.text.as_str()).collect();
    for law in tree.laws("crates/demands/proofs/") {
        findings.unless(all.contains(law.as_str()), PROVED, || format!("the law `{law}` of `demands` is not named"));
    }
}

/// A law is in the file that stands beside it.
fn check_laws(tree: &Tree, proved: &Document, findings: &mut Findings) {
    for row in proved.rows("Law | File | Says") {
        let file = format!("crates/rules/proofs/{}.antt", row.cells[1].trim());
        for law in row.names(0) {
            findings.unless(tree.defines_in(&file, &law), &row.place(PROVED), || format!("no law `{law}` in {file}"));
        }
    }
}

/// The table of code has every public function of every library, and no function twice. It may have others of a library too.
fn check_code(tree: &Tree, proved: &Document, findings: &mut Findings) {
    let mut listed = BTreeSet::new();
    for row in proved.rows("Function | Contract") {
        for function in row.functions(tree, 0) {
            let known = tree.functions.contains(&function);
            findings.unless(known, &row.place(PROVED), || format!("`{function}` is no function of a library"));
            findings.unless(listed.insert(function.clone()), &row.place(PROVED), || format!("`{function}` stands twice in the table of code"));
        }
    }
    for function in tree.public.difference(&listed) {
        findings.add(PROVED, format!("the public function `{function}` is not in the table of code"));
    }
}

/// The tables of edits by function: each edit is one of the function's crate. Every edit of the tree is named, there or as `crate/name`.
/// Returned is how many edits each function has.
fn check_edits(tree: &Tree, proved: &Document, findings: &mut Findings) -> BTreeMap<String, usize> {
    let mut counts = BTreeMap::new();
    let mut named: BTreeSet<(String, String)> = BTreeSet::new();
    for row in proved.rows("Function | Edits") {
        let functions = row.functions(tree, 0);
        let groups: Vec<&str> = row.cells[1].split(';').collect();
        findings.unless(groups.len() == functions.len(), &row.place(PROVED), || {
            format!("{} functions have {} lists of edits", functions.len(), groups.len())
        });
        for (function, group) in functions.iter().zip(groups) {
            let krate = function.split("::").next().unwrap();
            let edits = document::names_in(group);
            findings.unless(tree.functions.contains(function), &row.place(PROVED), || format!("no function `{function}`"));
            counts.insert(function.clone(), edits.len());
            for edit in edits {
                let edit = (krate.to_string(), edit);
                findings.unless(tree.edits.contains_key(&edit), &row.place(PROVED), || format!("no edit `{}` of `{krate}`", edit.1));
                named.insert(edit);
            }
        }
    }
    for name in proved.named() {
        named.extend(name.text.split_once('/').map(|(krate, edit)| (krate.to_string(), edit.to_string())));
    }
    for (krate, edit) in tree.edits.keys().filter(|edit| !named.contains(edit)) {
        findings.add(PROVED, format!("the edit `{krate}/{edit}` is not named"));
    }
    counts
}

/// Every public function has two edits, but for those that DECISIONS says have fewer.
fn check_functions_have_edits(tree: &Tree, counts: &BTreeMap<String, usize>, decisions: &Document, findings: &mut Findings) {
    let said: BTreeSet<String> = decisions.names_after("Public functions with fewer than two edits:").into_iter().collect();
    let fewer = tree.public.iter().filter(|f| counts.get(*f).map_or(true, |n| *n < 2)).cloned().collect();
    for function in said.symmetric_difference(&fewer) {
        let what = if said.contains(function) { "has two edits, or is no public function" } else { "has fewer than two edits" };
        findings.add(DECISIONS, format!("`{function}` {what}"));
    }
}

/// RULES names every definition of the rules.
fn check_definitions(tree: &Tree, rules: &Document, findings: &mut Findings) {
    let all: BTreeSet<&str> = rules.named().iter().map(|n| n.text.as_str()).collect();
    for definition in tree.definitions("crates/rules/specs/") {
        findings.unless(all.contains(definition.as_str()), RULES, || format!("the definition `{definition}` is not named"));
    }
}

/// ARCHITECTURE's table of the rules' files has each of them, and its table of crates every library that is no bench.
fn check_specs(tree: &Tree, architecture: &Document, findings: &mut Findings) {
    let rows = architecture.rows("File | Heading | Says");
    let listed: BTreeSet<String> =
        rows.iter().flat_map(|row| row.cells[0].split(',')).map(|f| format!("crates/rules/specs/{}.antt", f.trim())).collect();
    let held = tree.files.iter().filter(|f| f.starts_with("crates/rules/specs/") && !f.ends_with("/Lib.antt")).cloned().collect();
    for file in listed.symmetric_difference(&held) {
        findings.add(ARCHITECTURE, format!("{file} is in the table of the rules' files or in the tree, and not in both"));
    }
    let rows = architecture.rows("Crate | Rests on | Holds | State");
    let listed: BTreeSet<String> = rows.iter().flat_map(|row| row.names(0)).collect();
    let held = tree.libraries.iter().filter(|c| !c.ends_with("_bench")).cloned().collect();
    for krate in listed.symmetric_difference(&held) {
        findings.add(ARCHITECTURE, format!("`{krate}` is in the table of crates or in the tree, and not in both"));
    }
}

/// The counts of edits, wherever a document says "The gate tries N of M".
fn check_counts(tree: &Tree, documents: &BTreeMap<&str, Document>, findings: &mut Findings) {
    let due = (tree.edits.values().filter(|gate| **gate).count(), tree.edits.len());
    let mut found = 0;
    for (name, document) in documents.iter().filter(|(name, _)| !HISTORY.contains(*name)) {
        for (line, counts) in document.counts_after("The gate tries") {
            found += 1;
            findings.unless(counts == due, &format!("{name}:{line}"), || format!("{counts:?} edits, and the tree has {due:?}"));
        }
    }
    findings.unless(found > 0, "docs", || "no document says how many edits the gate tries".to_string());
}

/// No exported function of a library asks anything of its caller.
fn check_asks_nothing(tree: &Tree, findings: &mut Findings) {
    for name in tree.exported.keys().filter(|name| tree.asking.contains(*name)) {
        findings.add(PROVED, format!("the exported function `{name}` has a `requires`"));
    }
}

/// The code of dates takes no step for each year: it has no loop but those of the list, each once, and no function that calls itself, by way
/// of others or not. Such functions have one proof together, in a folder named by a `+` before each of them.
fn check_steps(tree: &Tree, findings: &mut Findings) {
    let mut allowed = LOOPS.to_vec();
    for (file, function) in tree.loops.iter().filter(|(file, _)| DATES.iter().any(|d| file.starts_with(d))) {
        match allowed.iter().position(|place| *place == (file.as_str(), function.as_str())) {
            Some(i) => {
                allowed.remove(i);
            }
            None => findings.add(file, format!("a loop in `{function}`, where request A3 asks for none")),
        }
    }
    let cycles = tree.files.iter().filter(|f| f.contains("/proofs/") && f.contains("/+"));
    for file in cycles.filter(|f| f.starts_with("crates/timestamp/") || f.starts_with("crates/printing/") && f.contains("date")) {
        findings.add(file, "a function that calls itself, where request A3 asks for none".to_string());
    }
}

/// A file of the repository as text.
fn text_of(path: &str) -> String {
    String::from_utf8_lossy(&fs::read(path).unwrap_or_else(|e| panic!("{path}: {e}"))).into_owned()
}
