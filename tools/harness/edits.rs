//! The edits of the published text that make its two other builds: sorted maps, and on top of them
//! document 01's partings and differences 8 and 9 of docs/DIFFERENCES.md. An edit replaces a text
//! everywhere in its file.

/// A file that is edited: the module that it stands in, its folder and its name.
pub struct File {
    pub module: &'static str,
    pub folder: &'static str,
    pub name: &'static str,
}

const fn file(module: &'static str, folder: &'static str, name: &'static str) -> File {
    File {
        module,
        folder,
        name,
    }
}

/// The files of an edited build, those of a module together.
pub const EDITED: [File; 5] = [
    file("ir", "cobra-ir", "semilinear"),
    file("ir", "cobra-ir", "semilinear_normalizer"),
    file("ir", "cobra-ir", "structure_recovery"),
    file("ir", "cobra-ir", "term_refiner"),
    file("passes", "cobra-passes", "bit_partitioner"),
];

/// The files below partings/ that the edits call.
pub const CALLED: [&str; 3] = ["partings", "parting_1", "parting_5"];

/// A text in a published file, and what stands in its place.
pub struct Edit {
    pub file: &'static str,
    pub old: &'static str,
    pub new: &'static str,
}

const fn edit(file: &'static str, old: &'static str, new: &'static str) -> Edit {
    Edit { file, old, new }
}

/// Sorted maps, and the order of keys that they need. Classes are sorted by bridge.rs.
pub const SORTED_MAPS: [Edit; 5] = [
    edit("semilinear_normalizer", "HashMap", "BTreeMap"),
    edit("structure_recovery", "HashMap", "BTreeMap"),
    edit("term_refiner", "HashMap", "BTreeMap"),
    edit("bit_partitioner", "HashMap", "BTreeMap"),
    edit(
        "semilinear",
        "PartialEq, Eq)]\npub struct AtomKey",
        "PartialEq, Eq, PartialOrd, Ord)]\npub struct AtomKey",
    ),
];

const BASES: &str = "BTreeMap<u64, Arc<Expr>>";
const PARTED_BASES: &str = "BTreeMap<crate::parted::ir::parting_1::Group, Arc<Expr>>";
const MEMBER: &str = "in_group[i] = true;\n";
const PARTED_MEMBER: &str = "in_group[i] = true;\n        \
    let group = crate::parted::ir::parting_1::group(&basis_repr, &decomp, i);\n";
const GROUP: &str = ".entry(decomp.basis_hash)";
const PARTED_GROUP: &str = ".entry(group)";

/// Parting 1: groups and bare atoms by the tree as well as by the hash (partings/parting_1.rs).
pub const PARTING_1: [Edit; 13] = [
    edit("term_refiner", BASES, PARTED_BASES),
    edit("term_refiner", MEMBER, PARTED_MEMBER),
    edit("term_refiner", GROUP, PARTED_GROUP),
    edit(
        "term_refiner",
        "BTreeMap<u64, Vec<RefineTerm>>",
        "BTreeMap<crate::parted::ir::parting_1::Group, Vec<RefineTerm>>",
    ),
    edit("term_refiner", "hashes: Vec<u64>", "hashes: Vec<_>"),
    edit("term_refiner", "keys: Vec<u64>", "keys: Vec<_>"),
    edit("structure_recovery", BASES, PARTED_BASES),
    edit("structure_recovery", MEMBER, PARTED_MEMBER),
    edit("structure_recovery", GROUP, PARTED_GROUP),
    edit(
        "structure_recovery",
        "BTreeMap<u64, Vec<GroupTerm>>",
        "BTreeMap<crate::parted::ir::parting_1::Group, Vec<GroupTerm>>",
    ),
    edit("structure_recovery", "hashes: Vec<u64>", "hashes: Vec<_>"),
    edit("structure_recovery", "keys: Vec<u64>", "keys: Vec<_>"),
    edit(
        "structure_recovery",
        "_ if info.structural_hash == basis_hash => return aid,",
        "_ if crate::parted::ir::parting_1::same(&info.original_subtree, basis) => return aid,",
    ),
];

/// Parting 2: an entry rewritten as Xor neither looks for a partner nor is found as one.
pub const PARTING_2: [Edit; 3] = [
    edit(
        "structure_recovery",
        "        for i in 0..entries_len {\n            if ",
        "        let mut rewritten = vec![false; entries_len];\n        \
         for i in 0..entries_len {\n            if rewritten[i] || ",
    ),
    edit(
        "structure_recovery",
        "                    if entries[j].consumed {",
        "                    if rewritten[j] || entries[j].consumed {",
    ),
    edit(
        "structure_recovery",
        "                entries[dst_idx].consumed = true;\n",
        "                entries[dst_idx].consumed = true;\n                \
         rewritten[src_idx] = crate::parted::ir::partings::held(2);\n",
    ),
];

/// Parting 3: masks are read at w bits.
pub const PARTING_3: [Edit; 1] = [edit(
    "semilinear",
    ", 64) & modmask",
    ", crate::parted::ir::partings::mask_width(modmask)) & modmask",
)];

/// Parting 5 in normalising: refusal 9 (partings/parting_5.rs). In the passes refusal 9 is the
/// harness's (src/pass.rs).
pub const PARTING_5: [Edit; 1] = [edit(
    "semilinear_normalizer",
    "    Ok(ir)\n",
    "    crate::parted::ir::parting_5::refusal_9(&ir)?;\n    Ok(ir)\n",
)];

/// Difference 8: an Add, Mul or Neg below a variable-free And, Or, Xor or Not has its value, not 0.
pub const DIFFERENCE_8: [Edit; 1] = [edit(
    "semilinear_normalizer",
    "        _ => 0,\n",
    "        _ if crate::parted::ir::partings::held(8) => {\n            \
         eval_constant_arith(expr, mask, mask.count_ones())\n        }\n        \
         _ => 0,\n",
)];

/// Difference 9: the split of an atom goes on while the basis is an And with one variable-free side.
pub const DIFFERENCE_9: [Edit; 1] = [edit(
    "semilinear",
    "-> Decomposed<'_> {\n    let atom = &*info.original_subtree;\n",
    "-> Decomposed<'_> {\n    \
     let mut found = decompose_step(&info.original_subtree, modmask);\n    \
     while crate::parted::ir::partings::held(9) {\n        \
     let Some(basis) = found.basis.filter(|basis| matches!(basis.kind, Kind::And)) else {\n            \
     break;\n        };\n        \
     let next = decompose_step(basis, modmask);\n        \
     if !next.valid {\n            break;\n        }\n        \
     found = Decomposed {\n            mask: found.mask & next.mask,\n            ..next\n        };\n    }\n    \
     found\n}\n\n\
     fn decompose_step(atom: &Expr, modmask: u64) -> Decomposed<'_> {\n",
)];
