//! One file of the source, and the cutting of items out of it. The source is formatted by rustfmt: an item ends at the first line `}` of its depth.
use crate::alterations::Alteration;
use crate::parts::Parts;
use std::path::Path;

pub struct Text {
    name: String,
    lines: Vec<String>,
}

impl Text {
    /// Reads `pywr-core/src/NAME` of the source folder.
    pub fn read(folder: &Path, name: &str) -> Text {
        let path = folder.join(format!("src--pywr-core--src--{}.txt", name.replace('/', "--")));
        println!("cargo:rerun-if-changed={}", path.display());
        let text = std::fs::read_to_string(&path).unwrap_or_else(|e| {
            panic!(
                "\n\nThe Rust source `{name}` is not at {} ({e}).\nSet PYWR_SOURCE to the folder that holds it.\n\n",
                path.display()
            )
        });
        Text { name: name.to_string(), lines: text.lines().map(str::to_string).collect() }
    }

    pub fn whole(&self) -> String {
        self.lines.join("\n") + "\n"
    }

    /// The whole text with the lines of each alteration replaced.
    pub fn altered(&self, alterations: &[Alteration]) -> String {
        let mut lines = self.lines.clone();
        for alteration in alterations {
            for (old, new) in alteration.lines {
                let at = self.find(|line| line.trim() == *old, &format!("{old}, for {}", alteration.name));
                lines[at] = new.to_string();
            }
        }
        lines.join("\n") + "\n"
    }

    pub fn parts(&self, parts: &Parts) -> String {
        let items = parts.items.iter().map(|header| self.item(header));
        items.chain(parts.methods.iter().map(|(header, names)| self.methods(header, names))).collect()
    }

    /// The item whose first line is `header`, with its comments and attributes.
    fn item(&self, header: &str) -> String {
        let at = self.find(|line| line == header, header);
        self.cut(at, "")
    }

    /// Of the impl block whose first line is `header`, the methods named.
    fn methods(&self, header: &str, names: &[&str]) -> String {
        let start = self.find(|line| line == header, header);
        let end = self.end(start, "");
        let mut text = format!("{header}\n");
        for name in names {
            let heads = ["pub fn ", "fn "].map(|f| format!("    {f}{name}("));
            let found = (start..end).find(|&i| heads.iter().any(|h| self.lines[i].starts_with(h)));
            let at = found.unwrap_or_else(|| panic!("\n\n{}: `{header}` has no method `{name}`\n\n", self.name));
            text += &self.cut(at, "    ");
        }
        text + "}\n"
    }

    fn find(&self, is: impl Fn(&str) -> bool, what: &str) -> usize {
        let found: Vec<usize> = (0..self.lines.len()).filter(|&i| is(&self.lines[i])).collect();
        match found[..] {
            [at] => at,
            _ => panic!("\n\n{}: expected once, found {} times: {what}\n\n", self.name, found.len()),
        }
    }

    fn cut(&self, at: usize, indent: &str) -> String {
        let leads = |line: &str| ["///", "#["].iter().any(|s| line.starts_with(&format!("{indent}{s}")));
        let start = (0..at).rev().take_while(|&i| leads(&self.lines[i])).last().unwrap_or(at);
        self.lines[start..=self.end(at, indent)].join("\n") + "\n\n"
    }

    fn end(&self, at: usize, indent: &str) -> usize {
        if self.lines[at].ends_with(';') {
            return at;
        }
        let close = format!("{indent}}}");
        (at..self.lines.len())
            .find(|&i| self.lines[i] == close)
            .unwrap_or_else(|| panic!("\n\n{}: `{}` has no end\n\n", self.name, self.lines[at]))
    }
}
