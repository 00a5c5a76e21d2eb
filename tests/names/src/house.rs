//! The crates as text, and which names stand in them.

use std::collections::BTreeMap;
use std::fs;
use std::io;
use std::path::{Path, PathBuf};

/// A crate's files of specs and proofs by name, and its code.
#[derive(Default)]
struct Crate {
    laws: BTreeMap<String, String>,
    code: String,
}

/// All crates.
pub struct House {
    root: PathBuf,
    crates: BTreeMap<String, Crate>,
}

/// Where the last name of a row stood: names after it that say no file are looked for there first.
#[derive(Default)]
pub struct Place {
    owner: Option<String>,
    file: Option<String>,
}

/// What stands in code marks in a table and is no name of the house.
pub const WORDS: [&str; 2] = ["requires", "&mut row[k..]"];

impl House {
    pub fn read(root: &Path) -> io::Result<House> {
        let mut crates = BTreeMap::new();
        for entry in fs::read_dir(root.join("crates"))? {
            let folder = entry?.path();
            let mut owner = Crate::default();
            gather(&folder.join("specs"), &mut owner)?;
            gather(&folder.join("proofs"), &mut owner)?;
            gather(&folder.join("src"), &mut owner)?;
            let name = folder.file_name().unwrap_or_default();
            crates.insert(name.to_string_lossy().into_owned(), owner);
        }
        Ok(House {
            root: root.to_path_buf(),
            crates,
        })
    }

    pub fn text(&self, path: &str) -> String {
        fs::read_to_string(self.root.join(path)).unwrap_or_else(|e| panic!("{path}: {e}"))
    }

    pub fn file(&self, owner: &str, name: &str) -> &str {
        &self.crates[owner].laws[name]
    }

    pub fn code(&self, owner: &str) -> &str {
        &self.crates[owner].code
    }

    /// Whether a name in code marks stands where it says.
    pub fn has(&self, name: &str, place: &mut Place) -> bool {
        if self.crates.contains_key(name) {
            *place = Place {
                owner: Some(name.to_string()),
                file: None,
            };
            return true;
        }
        if let Some((owner, function)) = name.split_once("::") {
            return self
                .crates
                .get(owner)
                .is_some_and(|c| function.split("::").all(|part| is_coded(&c.code, part)));
        }
        if name.contains('/') {
            return self.has_path(name);
        }
        if let Some((file, fact)) = name.split_once('.') {
            return self.has_fact(file, fact, place);
        }
        self.has_word(name, place)
    }

    // A path from the top, from crates/ or from tests/, or a crate and its edit
    fn has_path(&self, name: &str) -> bool {
        let edit = name
            .split_once('/')
            .map(|(owner, edit)| format!("crates/{owner}/must-fail/{edit}.edit"));
        [
            name.to_string(),
            format!("crates/{name}"),
            format!("tests/{name}"),
        ]
        .into_iter()
        .chain(edit)
        .any(|path| self.root.join(path).exists())
    }

    // A file and what it declares, in the crate named before it or in any where none was named; or a record and its field
    fn has_fact(&self, file: &str, fact: &str, place: &mut Place) -> bool {
        let found = self.crates.iter().find(|(owner, c)| {
            place.owner.as_ref().is_none_or(|named| named == *owner)
                && c.laws.get(file).is_some_and(|text| is_declared(text, fact))
        });
        if let Some((owner, _)) = found {
            place.owner = Some(owner.clone());
            place.file = Some(file.to_string());
        }
        let mut texts = self.crates.values().flat_map(|c| c.laws.values());
        found.is_some() || texts.any(|text| has_field(text, file, fact))
    }

    // A word alone: declared in the last file named, a file of the last crate named, or declared or coded in that crate;
    // the kernel's where none was named
    fn has_word(&self, name: &str, place: &Place) -> bool {
        let owner = &self.crates[place.owner.as_deref().unwrap_or("kernel")];
        let beside = place.file.as_ref().is_some_and(|file| {
            self.crates
                .values()
                .filter_map(|c| c.laws.get(file))
                .any(|text| is_declared(text, name))
        });
        beside
            || [owner, &self.crates["kernel"]].into_iter().any(|c| {
                c.laws.contains_key(name)
                    || c.laws.values().any(|text| is_declared(text, name))
                    || is_coded(&c.code, name)
            })
    }
}

// The files below a folder; a crate need not have each folder.
fn gather(folder: &Path, owner: &mut Crate) -> io::Result<()> {
    if !folder.is_dir() {
        return Ok(());
    }
    for entry in fs::read_dir(folder)? {
        let path = entry?.path();
        if path.is_dir() {
            gather(&path, owner)?;
            continue;
        }
        let text = fs::read_to_string(&path)?;
        let name = path
            .file_stem()
            .unwrap_or_default()
            .to_string_lossy()
            .into_owned();
        if path.extension().is_some_and(|e| e == "rt") {
            owner.code.push_str(&text);
        } else {
            owner.laws.entry(name).or_default().push_str(&text);
        }
    }
    Ok(())
}

/// Whether a line of a file begins with the name, marks such as `pub` aside.
pub fn is_declared(text: &str, name: &str) -> bool {
    text.lines().any(|line| declared(line) == Some(name))
}

/// The name that a line declares.
pub fn declared(line: &str) -> Option<&str> {
    let mut rest = line.trim_start();
    while let Some(after) = ["pub ", "abbrev ", "unfoldable ", "record ", "data "]
        .iter()
        .find_map(|mark| rest.strip_prefix(mark))
    {
        rest = after;
    }
    let (name, after) = rest.split_once(' ')?;
    (after.contains(':') && name != "--").then_some(name)
}

// Whether the file has the record, and in it the field.
fn has_field(text: &str, record: &str, field: &str) -> bool {
    text.lines()
        .skip_while(|line| !line.starts_with(&format!("pub record {record} ")))
        .skip(1)
        .take_while(|line| line.starts_with(' '))
        .any(|line| declared(line) == Some(field))
}

// Whether the code has a function or a type of this name.
fn is_coded(code: &str, name: &str) -> bool {
    ["fn ", "struct ", "enum "].iter().any(|kind| {
        code.match_indices(&format!("{kind}{name}"))
            .any(|(at, found)| {
                let next = code[at + found.len()..].chars().next();
                next.is_none_or(|c| !c.is_alphanumeric() && c != '_')
            })
    })
}
