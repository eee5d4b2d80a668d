//! A document as Markdown: what stands in backquotes, links, and the rows of its tables. Blocks of code are passed over.

use crate::tree::Tree;
use crate::{text_of, BTreeMap};

/// What stands in backquotes: its line, from 1 on, and whether there are brackets around it.
pub struct Named {
    pub line: usize,
    pub text: String,
    pub bracketed: bool,
}

/// A row of a table: its line and its cells.
pub struct Row {
    line: usize,
    pub cells: Vec<String>,
}

pub struct Document {
    lines: Vec<String>,
    named: Vec<Named>,
    tables: BTreeMap<String, Vec<Row>>,
}

impl Document {
    pub fn read(path: &str) -> Document {
        let lines = without_code(&text_of(path));
        let named = names(&lines);
        let tables = tables(&lines);
        Document { lines, named, tables }
    }

    pub fn named(&self) -> &[Named] {
        &self.named
    }

    /// The rows of the tables that have this head.
    pub fn rows(&self, head: &str) -> &[Row] {
        self.tables.get(head).unwrap_or_else(|| panic!("no table {head}"))
    }

    /// The links, each with its line.
    pub fn links(&self) -> Vec<(usize, String)> {
        let mut links = Vec::new();
        for (i, line) in self.lines.iter().enumerate() {
            for piece in line.split("](").skip(1) {
                links.extend(piece.split_once(')').map(|(target, _)| (i + 1, target.to_string())));
            }
        }
        links
    }

    /// The names in backquotes from some words on up to the end of their sentence.
    pub fn names_after(&self, words: &str) -> Vec<String> {
        let text = self.lines.join(" ");
        let (_, after) = text.split_once(words).unwrap_or(("", ""));
        names_in(after.split(". ").next().unwrap())
    }

    /// The two counts, N and M, that follow some words as `N of M` or `N of the M`, each pair with the line of the words.
    pub fn counts_after(&self, words: &str) -> Vec<(usize, (usize, usize))> {
        let text = self.lines.join("\n");
        let mut counts = Vec::new();
        for (at, _) in text.match_indices(words) {
            let line = text[..at].matches('\n').count() + 1;
            let after = text[at + words.len()..].split_whitespace().filter(|w| *w != "the");
            if let [Some(n), _, Some(m)] = after.take(3).map(|w| w.replace(',', "").parse().ok()).collect::<Vec<_>>()[..] {
                counts.push((line, (n, m)));
            }
        }
        counts
    }
}

impl Row {
    pub fn place(&self, document: &str) -> String {
        format!("{document}:{}", self.line)
    }

    /// The names in backquotes of a cell.
    pub fn names(&self, cell: usize) -> Vec<String> {
        names_in(&self.cells[cell])
    }

    /// The functions that a cell names, in full: one without a path is exported, or is in the module of the one before it.
    pub fn functions(&self, tree: &Tree, cell: usize) -> Vec<String> {
        let mut module = String::new();
        let mut functions = Vec::new();
        for name in self.names(cell) {
            let full = match tree.exported.get(&name) {
                Some(full) => full.clone(),
                None if name.contains("::") => name,
                None => format!("{module}::{name}"),
            };
            module = full.rsplit_once("::").map_or(String::new(), |(module, _)| module.to_string());
            functions.push(full);
        }
        functions
    }
}

/// The names in backquotes of a text.
pub fn names_in(text: &str) -> Vec<String> {
    text.split('`').skip(1).step_by(2).map(str::to_string).collect()
}

/// The lines, those of blocks of code empty. A block without fences begins after an empty line.
fn without_code(text: &str) -> Vec<String> {
    let (mut fenced, mut apart) = (false, true);
    let mut lines = Vec::new();
    for line in text.lines() {
        let fence = line.starts_with("```");
        fenced = fenced != fence;
        let indented = apart && line.starts_with("    ");
        apart = indented || line.is_empty();
        lines.push(if fence || fenced || indented { String::new() } else { line.to_string() });
    }
    lines
}

/// All that stands in backquotes. They, and brackets, end with their paragraph; brackets end with their cell too.
fn names(lines: &[String]) -> Vec<Named> {
    let mut named = Vec::new();
    let mut open: Option<(usize, String)> = None;
    let mut brackets = 0;
    for (i, line) in lines.iter().enumerate() {
        if line.is_empty() || line.starts_with('|') {
            (open, brackets) = (None, 0);
        }
        for c in line.chars().chain([' ']) {
            match (c, &mut open) {
                ('`', Some((line, text))) => {
                    named.push(Named { line: *line, text: text.trim_end().to_string(), bracketed: brackets > 0 });
                    open = None;
                }
                ('`', None) => open = Some((i + 1, String::new())),
                (c, Some((_, text))) => text.push(c),
                ('(', None) => brackets += 1,
                (')', None) => brackets -= 1,
                ('|', None) => brackets = 0,
                _ => {}
            }
        }
    }
    named
}

/// The tables by their heads. Those with the same head are put end to end.
fn tables(lines: &[String]) -> BTreeMap<String, Vec<Row>> {
    let mut tables: BTreeMap<String, Vec<Row>> = BTreeMap::new();
    let mut head = None;
    for (i, line) in lines.iter().enumerate() {
        let Some(inner) = line.strip_prefix('|').and_then(|l| l.trim_end().strip_suffix('|')) else {
            head = None;
            continue;
        };
        match &head {
            None => head = Some(inner.trim().to_string()),
            Some(_) if inner.chars().all(|c| "-|: ".contains(c)) => {}
            Some(head) => {
                let cells = inner.split('|').map(str::to_string).collect();
                tables.entry(head.clone()).or_default().push(Row { line: i + 1, cells });
            }
        }
    }
    tables
}
