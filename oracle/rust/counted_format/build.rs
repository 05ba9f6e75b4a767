//! Makes the counted source. Every assignment to the parser's index is known: thirteen move it
//! forward and are counted, one moves it back to where a word began. Any other fails the build.

use std::path::Path;
use std::{env, fs};

const PUBLISHED: &str = "../parse_format/src/lib.rs";
const INDEX: &str = "self.input_vec_index ";

fn main() {
    println!("cargo::rerun-if-changed={PUBLISHED}");
    let published = fs::read_to_string(PUBLISHED).expect("the published file is there");
    let (mut forward, mut back) = (0, 0);
    let mut counted = String::new();
    for line in published.lines() {
        // What may stand only at the head of a crate, and the tests, which are not published.
        if line.starts_with("//!") || line.starts_with("#![") || line == "mod tests;" {
            continue;
        }
        let assigned = line.trim_start().strip_prefix(INDEX);
        match assigned {
            Some("= start_idx;") => back += 1,
            Some(step) if step.starts_with("+= ") => {
                forward += 1;
                let step = step.trim_start_matches("+= ").trim_end_matches(';');
                counted.push_str(&format!("crate::passed({step});\n"));
            }
            Some(other) => panic!("an assignment that is not known: {other}"),
            None => assert!(!line.contains("input_vec_index ="), "hidden in a line: {line}"),
        }
        if line != "#[cfg(test)]" {
            counted.push_str(line);
            counted.push('\n');
        }
    }
    assert_eq!((forward, back), (13, 1), "assignments forward and back");
    let out = env::var_os("OUT_DIR").expect("cargo names a folder");
    fs::write(Path::new(&out).join("counted.rs"), counted).expect("the counted source is written");
}
