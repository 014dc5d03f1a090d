//! Assembles RustyLR's core in the build folder: its files as they are, from the folder that RUSTYLR names, and beside
//! them the few that are missing there (`supplied/`).

use std::env::var;
use std::fs;
use std::path::{Path, PathBuf};

/// The original's files, below `rusty_lr_core/src`.
const ORIGINAL: [&str; 10] = [
    "location.rs",
    "symbol.rs",
    "parser/mod.rs",
    "parser/nonterminal.rs",
    "parser/semantic_value.rs",
    "parser/table.rs",
    "parser/terminalclass.rs",
    "parser/nondeterministic/context.rs",
    "parser/nondeterministic/error.rs",
    "parser/nondeterministic/node.rs",
];

/// What is missing there: our file, and its place in the tree.
const SUPPLIED: [(&str, &str); 4] = [
    ("state.rs", "parser/state.rs"),
    ("deterministic.rs", "parser/deterministic/mod.rs"),
    ("nondeterministic.rs", "parser/nondeterministic/mod.rs"),
    ("readout.rs", "parser/nondeterministic/readout.rs"),
];

fn main() {
    println!("cargo::rerun-if-env-changed=RUSTYLR");
    let Ok(folder) = var("RUSTYLR") else {
        panic!("RUSTYLR must name the folder that holds rusty_lr_core/src");
    };
    let source = Path::new(&folder).join("rusty_lr_core/src");
    let tree = PathBuf::from(var("OUT_DIR").unwrap()).join("rusty_lr_core");
    for path in ORIGINAL {
        copy(&source.join(path), &tree.join(path));
    }
    for (ours, path) in SUPPLIED {
        copy(&Path::new("supplied").join(ours), &tree.join(path));
    }
    write_root(&tree);
}

fn copy(from: &Path, to: &Path) {
    println!("cargo::rerun-if-changed={}", from.display());
    let bytes = fs::read(from).unwrap_or_else(|e| panic!("{}: {e}", from.display()));
    fs::create_dir_all(to.parent().unwrap()).unwrap();
    fs::write(to, bytes).unwrap();
}

/// The modules of the crate's root, with their places in the build folder.
fn write_root(tree: &Path) {
    let module = |name: &str, path: &str| {
        format!("#[path = {:?}]\npub mod {name};\n", tree.join(path).to_str().expect("a readable path"))
    };
    let root = module("location", "location.rs") + &module("symbol", "symbol.rs") + &module("parser", "parser/mod.rs");
    fs::write(tree.join("root.rs"), root).unwrap();
}
