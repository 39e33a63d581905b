//! Copies of the cut functions, each with its changes: document 01's power in the place of `powf`,
//! a note of every block that is reached, and one slip each.

use cut::blocks::blocks;
use cut::cutting::{Cut, joined};
use cut::edits::Change::{After, Replace};
use cut::edits::{Edit, edited};
use std::fs;
use std::path::Path;

const JOIN: &str = "fn join_selectivity_from_conjuncts_with_config";

const POWER: Edit = Edit {
    item: "fn residual_match_probability",
    path: &["powf"],
    change: Replace("power_of_document_01"),
};

const NOT_NULL: &str = ".filter(|bound| !matches!(bound, ScalarValue::Null(_)))";

/// The slips: a module's name, what it is, and its edits.
const SLIPS: [(&str, &str, &[Edit]); 11] = [
    (
        "null_safe_edges_first",
        "null-safe edges before ordinary ones of the same distinct",
        &[
            Edit {
                item: JOIN,
                path: &["then_with", "a"],
                change: Replace("b"),
            },
            Edit {
                item: JOIN,
                path: &["then_with", "b"],
                change: Replace("a"),
            },
        ],
    ),
    (
        "no_union_when_disjoint",
        "a disjoint edge not united",
        &[Edit {
            item: JOIN,
            path: &["domains_disjoint", "equality_match_probability", ";"],
            change: After(" continue;"),
        }],
    ),
    (
        "nested_ands_split",
        "nested Ands taken apart by the join",
        &[Edit {
            item: JOIN,
            path: &["for", "in", "conjuncts"],
            change: Replace("&all_split(conjuncts, ctx)"),
        }],
    ),
    (
        "self_equality_counted",
        "an equality of a column with itself counted in",
        &[
            Edit {
                item: JOIN,
                path: &["connects_inputs", "="],
                change: After(" edge.left == edge.right ||"),
            },
            Edit {
                item: JOIN,
                path: &["is_some_and", "if"],
                change: After(" edge.left != edge.right &&"),
            },
        ],
    ),
    (
        "null_safe_not_null",
        "the columns of a null-safe equality non-null from the start",
        &[Edit {
            item: JOIN,
            path: &["filter", "!"],
            change: Replace("true || *"),
        }],
    ),
    (
        "not_null_through_classes",
        "non-null columns spread through profile classes",
        &[
            Edit {
                item: JOIN,
                path: &["loop", "for", "in", "&"],
                change: After("with_class_pairs(&"),
            },
            Edit {
                item: JOIN,
                path: &["loop", "for", "in", "equality_pairs"],
                change: After(", left, right)"),
            },
        ],
    ),
    (
        "first_class_kept",
        "the first profile class keeps its distinct",
        &[
            Edit {
                item: "impl EquivalenceClassState",
                path: &["first_root", ";"],
                change: After(
                    " if state.nodes.iter().filter(|node| node.parent == first_root).count() < 2 {",
                ),
            },
            Edit {
                item: "impl EquivalenceClassState",
                path: &["first_root", ";", "first_root", ";"],
                change: After(" }"),
            },
        ],
    ),
    (
        "whole_error",
        "a frequency's whole error added, not half of it",
        &[Edit {
            item: "fn frequent_value_selectivity",
            path: &["0.5"],
            change: Replace("1.0"),
        }],
    ),
    (
        "null_bound_absent",
        "a Null bound read as no bound",
        &[
            Edit {
                item: "fn estimated_distinct_intersection",
                path: &["lower_bound", ")"],
                change: After(NOT_NULL),
            },
            Edit {
                item: "fn estimated_distinct_intersection",
                path: &["upper_bound", ")"],
                change: After(NOT_NULL),
            },
            Edit {
                item: "fn estimated_distinct_intersection",
                path: &["upper_bound", "lower_bound", ")"],
                change: After(NOT_NULL),
            },
            Edit {
                item: "fn estimated_distinct_intersection",
                path: &["upper_bound", "lower_bound", "upper_bound", ")"],
                change: After(NOT_NULL),
            },
        ],
    ),
    (
        "right_fraction",
        "a right column in both profiles takes the right one's fraction",
        &[
            Edit {
                item: "fn equality_edge_estimate",
                path: &["right_non_null", "left"],
                change: Replace("right"),
            },
            Edit {
                item: "fn equality_edge_estimate",
                path: &["right_non_null", "right"],
                change: Replace("left"),
            },
        ],
    ),
    (
        "is_null_at_the_default",
        "IS NULL without a profile takes the default",
        &[Edit {
            item: "fn filter_selectivity_for_predicate",
            path: &["IsNull", "0.1"],
            change: Replace("config.default_predicate_selectivity"),
        }],
    ),
];

fn module(name: &str, about: &str) -> String {
    format!(
        "/// {about}\npub mod {name} {{\n    include!(concat!(env!(\"OUT_DIR\"), \"/{name}.rs\"));\n    \
         include!(concat!(env!(\"CARGO_MANIFEST_DIR\"), \"/src/around.rs\"));\n}}\n"
    )
}

/// The text with insertions, each behind a number of bytes.
fn inserted(text: &str, mut insertions: Vec<(usize, String)>) -> String {
    insertions.sort_by_key(|(at, _)| *at);
    let mut result = String::new();
    let mut from = 0;
    for (at, what) in insertions {
        result.push_str(&text[from..at]);
        result.push_str(&what);
        from = at;
    }
    result.push_str(&text[from..]);
    result
}

/// The text with a call at the start of each block, and the table of the blocks.
fn watched(cut: &Cut) -> (String, String) {
    let mut text = String::new();
    let mut rows = Vec::new();
    for piece in &cut.pieces {
        let mut insertions = Vec::new();
        for block in blocks(&piece.text) {
            let call = format!("crate::watch::reached({});", rows.len());
            match block.end {
                None => insertions.push((block.start, format!(" {call}"))),
                Some(end) => {
                    insertions.push((block.start, format!(" {{ {call}")));
                    insertions.push((end, " }".to_string()));
                }
            }
            let line = piece.line + block.line - 1;
            rows.push(format!(
                "    ({:?}, {:?}, {line}),\n",
                block.function, block.opened_by
            ));
        }
        text.push_str(&inserted(&piece.text, insertions));
        text.push_str("\n\n");
    }
    let table = format!(
        "/// Every block of the cut functions: its function, what opens it, and its line.\n\
         pub const BLOCKS: [(&str, &str, usize); {}] = [\n{}];\n",
        rows.len(),
        rows.concat()
    );
    (text, table)
}

/// Writes the copies, their modules and the tables of slips and blocks.
pub fn write_copies(out: &Path, cut: &Cut) -> Result<(), String> {
    let text = joined(cut);
    if text.matches("powf").count() != 1 {
        return Err("the cut functions take more or fewer than one power".to_string());
    }
    let mut modules = module("with_power", "The functions with document 01's power.");
    let mut rows = String::new();
    let write = |name: &str, text: String| {
        let path = out.join(format!("{name}.rs"));
        fs::write(&path, text).map_err(|e| format!("{}: {e}", path.display()))
    };
    write("with_power", edited(&text, &[POWER])?)?;
    for (name, about, edits) in SLIPS {
        write(name, edited(&text, edits)?)?;
        modules.push_str(&module(name, &format!("A slip: {about}.")));
        rows.push_str(&format!("    ({about:?}, {name}::answers),\n"));
    }
    let (text, blocks) = watched(cut);
    write("watched", text)?;
    modules.push_str(&module(
        "watched",
        "The functions, noting which blocks are reached.",
    ));
    modules.push_str(&format!(
        "/// Each slip and its functions' answers.\npub const SLIPS: [(&str, fn(&sheet::values::Sheet) -> crate::answer::Answers); {}] = [\n{rows}];\n{blocks}",
        SLIPS.len()
    ));
    write("copies", modules)
}
