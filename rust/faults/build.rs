//! Builds the plain engine once for each edit of edits/, with the edit applied. A module of
//! the engine that an edit leaves as it is, and that uses none it changes, is shared.

#[path = "src/edit.rs"]
mod edit;

use edit::{parse, replace, Edit};
use std::collections::{BTreeMap, BTreeSet};
use std::error::Error;
use std::fmt::Write;
use std::path::{Path, PathBuf};
use std::{env, fs};

/// The engine's folder, from here and in an edit.
const ENGINE: &str = "../engine/src";
const IN_EDITS: &str = "rust/engine/src";
/// The modules with the eight calls.
const CALLS: [&str; 7] = [
    "agree", "board", "book", "events", "panel", "preview", "sheet",
];
/// Shared by all, so that their plants are of one type.
const TYPES: &str = "types";

/// The text of each module that a call needs.
type Modules = BTreeMap<String, String>;

/// The modules that a text uses.
fn used(text: &str) -> impl Iterator<Item = &str> {
    let names = text.split("super::").skip(1);
    let names = names.filter_map(|rest| rest.split("::").next());
    names.filter(|name| *name != TYPES)
}

fn read_modules() -> Result<Modules, Box<dyn Error>> {
    let mut modules = Modules::new();
    let mut left: Vec<String> = CALLS.map(String::from).into();
    while let Some(name) = left.pop() {
        let text = fs::read_to_string(format!("{ENGINE}/{name}.rs"))?;
        left.extend(used(&text).map(String::from));
        modules.insert(name, text);
    }
    Ok(modules)
}

/// The modules with the edit applied.
fn edited(modules: &Modules, edit: &Edit) -> Result<Modules, String> {
    let mut modules = modules.clone();
    for change in &edit.changes {
        let name = Path::new(&change.file).strip_prefix(IN_EDITS).ok();
        let name = name.and_then(|file| file.to_str()?.strip_suffix(".rs"));
        let module = name.and_then(|name| modules.get_mut(name));
        let module = module.ok_or(format!("no module of the eight calls: {}", change.file))?;
        *module = replace(module, change)?;
    }
    Ok(modules)
}

/// The changed modules, and those that use one of them, however far.
fn anew<'a>(before: &Modules, after: &'a Modules) -> BTreeSet<&'a str> {
    let mut anew = BTreeSet::new();
    loop {
        let uses_one = |text| used(text).any(|name| anew.contains(name));
        let more = after
            .iter()
            .filter(|(n, t)| before[*n] != **t || uses_one(t));
        let more: BTreeSet<&str> = more.map(|(name, _)| name.as_str()).collect();
        if more == anew {
            return anew;
        }
        anew = more;
    }
}

/// Writes the modules of one fault that are built anew; gives its engine's declaration.
fn declare(folder: &Path, before: &Modules, after: &Modules) -> Result<String, Box<dyn Error>> {
    fs::create_dir_all(folder)?;
    let anew = anew(before, after);
    let mut text = format!("    use engine::{TYPES};\n");
    for (name, source) in after {
        if anew.contains(name.as_str()) {
            let path = folder.join(name).with_extension("rs");
            fs::write(&path, source)?;
            writeln!(text, "    #[path = {path:?}]\n    pub mod {name};")?;
        } else {
            writeln!(text, "    pub use engine::{name};")?;
        }
    }
    Ok(text)
}

/// Writes every fault's engine, and the table of them.
fn build(edits: &[PathBuf], out: &Path) -> Result<(), Box<dyn Error>> {
    let modules = read_modules()?;
    let (mut engines, mut table) = (String::new(), String::new());
    for path in edits {
        let at = |what| format!("{}: {what}", path.display());
        let edit = parse(&fs::read_to_string(path)?).map_err(at)?;
        let after = edited(&modules, &edit).map_err(at)?;
        let name = path.file_stem().and_then(|name| name.to_str());
        let name = name.ok_or("an edit without a name")?;
        let engine = declare(&out.join(name), &modules, &after)?;
        writeln!(engines, "pub mod {name} {{\n{engine}}}")?;
        writeln!(table, "    fault!({name}, {:?}),", edit.what)?;
    }
    let text = format!("{engines}\npub const FAULTS: &[Fault] = &[\n{table}];\n");
    Ok(fs::write(out.join("faults.rs"), text)?)
}

fn main() -> Result<(), Box<dyn Error>> {
    println!("cargo:rerun-if-changed=edits\ncargo:rerun-if-changed={ENGINE}");
    let mut edits = Vec::new();
    for entry in fs::read_dir("edits")? {
        edits.push(entry?.path());
    }
    edits.sort();
    if let Err(error) = build(&edits, Path::new(&env::var("OUT_DIR")?)) {
        eprintln!("{error}");
        std::process::exit(1);
    }
    Ok(())
}
