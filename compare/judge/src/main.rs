//! The supplied Rust, taken in byte for byte, run on a stream of cases (compare/README.md), and its answers compared.
//!   judge answers < CASES > RUST        the Rust's answers, times, ids and texts as the Rust converts them
//!   judge undone < CASES > RUST         the same with these conversions undone, or `- lossy` where they cannot be
//!   judge unguarded < CASES             the walk with no look ahead: an `ri` that leads back to itself ends the process
//!   judge callers < CASES               what the Rust's own callers make of a value list, a walk or value data: results, and log lines
//!   judge compare RUST PAPER RATTLE     holds the Rust's lines and paper.py's to the Rattle program's; writes counts
//!   judge time HIVE TURNS               times `parse_sub_key_list` on the root of a hive (bench/speed)
//!   judge table < COUNTS                adds up such counts and prints the table; exit 1 where a compared case differs
#![allow(dead_code, unused_imports, unexpected_cfgs, macro_expanded_macro_exports_accessed_by_absolute_paths)]

// ---- the Rust, unchanged: each module is the supplied file, and nothing but a child module `probe` is added
macro_rules! taken { ($($m:ident)*) => { $( pub mod $m { include!(concat!(env!("NOTATIN_SRC"), "/", stringify!($m), ".rs")); } )* }; }
mod macros; // stand-in
taken! { field_offset_len base_block cell cell_big_data cell_key_security cell_value err field_serializers file_info
    filter hive_bin_cell hive_bin_header log marvin32 parser parser_recover_deleted progress reg_item_map state
    sub_key_list_lf sub_key_list_lh sub_key_list_li sub_key_list_ri util cell_key_value transaction_log }
pub mod cell_key_node {
    include!(concat!(env!("NOTATIN_SRC"), "/cell_key_node.rs"));
    pub(crate) mod probe {
        use super::*;
        pub(crate) fn from_bytes<'a>(state: &mut State, input: &'a [u8], at: usize) -> IResult<&'a [u8], CellKeyNode> {
            CellKeyNode::from_bytes(state, input, at, "", None)
        }
        pub(crate) fn read_values(node: &mut CellKeyNode, file: &FileInfo, state: &mut State) -> Result<(), Error> {
            node.read_values(file, state, None)
        }
    }
}

mod answers;
mod lines;
mod stream;
mod timed;

use std::io::{BufWriter, Write};

fn run(form: answers::Form) {
    if std::env::var_os("JUDGE_SHOW").is_none() {
        std::panic::set_hook(Box::new(|_| {})); // with JUDGE_SHOW each caught panic is told on standard error
    }
    let mut out = BufWriter::new(std::io::stdout().lock());
    let mut cases = stream::Cases::new(std::io::stdin().lock());
    while let Some(case) = cases.next() {
        writeln!(out, "{} {}", case.tag, answers::answer(&case, &mut cases.file, form)).unwrap();
    }
}

fn main() {
    let args: Vec<String> = std::env::args().skip(1).collect();
    match args.iter().map(|s| s.as_str()).collect::<Vec<_>>()[..] {
        ["answers"] => run(answers::Form::Converted),
        ["undone"] => run(answers::Form::Undone),
        ["unguarded"] => run(answers::Form::Unguarded),
        ["callers"] => run(answers::Form::Callers),
        ["compare", a, b, c] => lines::compare(a, b, c),
        ["time", hive, turns] => timed::list(hive, turns.parse().unwrap()),
        ["table"] => std::process::exit(!lines::table() as i32),
        _ => {
            eprintln!("usage: judge answers | undone | unguarded | callers | compare RUST PAPER RATTLE | time HIVE TURNS | table");
            std::process::exit(2)
        }
    }
}
