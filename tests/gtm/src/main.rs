//! GT.M's pattern operator beside the line tool: see `run`.
//!
//! gtm lines             writes the lines to standard output
//! gtm classes FOLDER    compares the answers, the files `ours` and `theirs`, to the file `lines`

mod classes;
mod generated;

use std::io::Write;

fn main() {
    let words: Vec<String> = std::env::args().skip(1).collect();
    match words.iter().map(String::as_str).collect::<Vec<_>>()[..] {
        ["lines"] => std::io::stdout().write_all(&generated::lines()).unwrap(),
        ["classes", folder] => classes::print(folder.as_ref()),
        _ => panic!("lines, or classes and a folder"),
    }
}
