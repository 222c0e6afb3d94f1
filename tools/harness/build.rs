//! Writes the module file that compiles the published Rust sources where they stand, below the
//! directory named by COBRA_SRC, with the stand-ins of this package beside them, and then again in
//! two builds with edited text (edits.rs): `sorted`, whose maps are sorted, and `parted`, which also
//! has document 01's partings and differences 8 and 9. Edited files stand in OUT_DIR.

mod edits;

use edits::{
    Edit, CALLED, DIFFERENCE_8, DIFFERENCE_9, EDITED, PARTING_1, PARTING_2, PARTING_3, PARTING_5,
    SORTED_MAPS,
};
use std::env;
use std::fs;
use std::path::{Path, PathBuf};

/// A module of the published crate: its submodules, and those that have stand-ins.
struct Module {
    name: &'static str,
    folder: &'static str,
    published: &'static [&'static str],
    standins: &'static [&'static str],
}

const MODULES: [Module; 3] = [
    Module {
        name: "core",
        folder: "cobra-core",
        published: &["arith", "expr", "expr_utils", "result"],
        standins: &["compiled", "width"],
    },
    Module {
        name: "ir",
        folder: "cobra-ir",
        published: &[
            "semilinear",
            "semilinear_normalizer",
            "structure_recovery",
            "term_refiner",
        ],
        standins: &["dynamic_mask"],
    },
    Module {
        name: "passes",
        folder: "cobra-passes",
        published: &["bit_partitioner"],
        standins: &[],
    },
];

fn main() {
    println!("cargo:rerun-if-changed=build.rs");
    println!("cargo:rerun-if-changed=edits.rs");
    println!("cargo:rerun-if-env-changed=COBRA_SRC");
    let sources = PathBuf::from(variable("COBRA_SRC")).join("crates");
    let package = PathBuf::from(variable("CARGO_MANIFEST_DIR"));
    let out = PathBuf::from(variable("OUT_DIR"));
    let mut text = module_file(&sources, &package.join("standins"));
    text += &edited_build("sorted", &[&SORTED_MAPS], &[], &sources, &package, &out);
    let edits: [&[Edit]; 7] = [
        &SORTED_MAPS,
        &PARTING_1,
        &PARTING_2,
        &PARTING_3,
        &PARTING_5,
        &DIFFERENCE_8,
        &DIFFERENCE_9,
    ];
    text += &edited_build("parted", &edits, &CALLED, &sources, &package, &out);
    write(&out.join("published.rs"), &text);
}

fn variable(name: &str) -> String {
    env::var(name).unwrap_or_else(|_| panic!("the environment variable {name} is not set"))
}

fn module_file(sources: &Path, standins: &Path) -> String {
    let mut text = String::new();
    for module in MODULES {
        text += &format!("#[allow(dead_code, unused)]\npub mod {} {{\n", module.name);
        let folder = sources.join(module.folder).join("src");
        for name in module.published {
            text += &submodule(name, &folder);
        }
        for name in module.standins {
            text += &submodule(name, standins);
        }
        if module.name == "core" {
            text += "    pub use expr_utils::collect_vars;\n";
        }
        text += "}\n";
    }
    text
}

/// The module of an edited build: its edited files, the stand-in that they need, the files that the
/// edits call, and the bridge over this build's types.
fn edited_build(
    build: &str,
    edits: &[&[Edit]],
    called: &[&str],
    sources: &Path,
    package: &Path,
    out: &Path,
) -> String {
    let folder = out.join(build);
    fs::create_dir_all(&folder).expect("OUT_DIR can be written");
    let mut modules = [("ir", String::new()), ("passes", String::new())];
    for file in EDITED {
        let name = file.name;
        let source = sources.join(file.folder).join(format!("src/{name}.rs"));
        println!("cargo:rerun-if-changed={}", source.display());
        let published = fs::read_to_string(&source).expect("a published file");
        let edited = edit(published, name, edits);
        let edited = edited.replace("crate::ir::", &format!("crate::{build}::ir::"));
        write(&folder.join(format!("{name}.rs")), &edited);
        let module = modules.iter_mut().find(|module| module.0 == file.module);
        module.expect("ir or passes").1 += &submodule(name, &folder);
    }
    modules[0].1 += "    pub use crate::ir::dynamic_mask;\n";
    for name in called {
        modules[0].1 += &submodule(name, &package.join("partings"));
    }
    let mut text = format!("#[allow(dead_code, unused)]\npub mod {build} {{\n");
    for (name, submodules) in modules {
        text += &format!("pub mod {name} {{\n{submodules}}}\n");
    }
    text += &submodule("bridge", &package.join("src"));
    text + "}\n"
}

/// The text of a file with the edits that name it. A text that does not occur is a fault.
fn edit(mut text: String, file: &str, edits: &[&[Edit]]) -> String {
    for edit in edits
        .iter()
        .copied()
        .flatten()
        .filter(|edit| edit.file == file)
    {
        assert!(
            text.contains(edit.old),
            "{file}.rs does not hold {:?}",
            edit.old
        );
        text = text.replace(edit.old, edit.new);
    }
    text
}

fn write(file: &Path, text: &str) {
    fs::write(file, text).expect("OUT_DIR can be written");
}

fn submodule(name: &str, folder: &Path) -> String {
    let file = folder.join(format!("{name}.rs"));
    format!("    #[path = {file:?}]\n    pub mod {name};\n")
}
