//! The generated files: their places, how they are written, and how their numbers are read back.

use crate::table::{self, Table};
use std::fs;
use std::path::Path;

/// The constants of the crate `letters`.
const CONSTANTS: &str = "crates/letters/src/tables.rt";
/// The expected output of the program `scalars`.
const SCALARS: &str = "crates/scalars/stdout";
/// The ranges of the stand-in for rustc_lexer.
const STAND_IN: &str = "oracle/rust/rustc_lexer/src/ranges.rs";

/// Writes every generated file.
pub fn write(root: &Path, tables: &[Table]) -> Result<(), String> {
    save(root, CONSTANTS, &constants(tables))?;
    for table in tables {
        save(root, &definition_file(table), &definition(table))?;
    }
    save(root, STAND_IN, &stand_in(&tables[1..]))?;
    save(root, SCALARS, &scalars(tables))
}

/// The tables with the identifiers that the stand-in has.
pub fn stored(root: &Path) -> Result<[Table; 3], String> {
    let source = load(root, STAND_IN)?;
    let pairs = |name| {
        let numbers = hex_numbers(constant_of(&source, name));
        numbers.chunks_exact(2).map(|pair| (pair[0], pair[1])).collect()
    };
    Ok(table::of(pairs("START"), pairs("CONTINUE")))
}

/// Reads every generated file back and compares its numbers with the tables.
pub fn check(root: &Path, tables: &[Table]) -> Result<(), String> {
    let constants = load(root, CONSTANTS)?;
    let stand_in = load(root, STAND_IN)?;
    for table in tables {
        let numbers = table.numbers();
        let definition = load(root, &definition_file(table))?;
        agree(&hex_numbers(constant_of(&constants, table.constant)), &numbers, CONSTANTS)?;
        agree(&hex_numbers(&definition), &numbers, &definition_file(table))?;
        if table.word != "space" {
            agree(&hex_numbers(constant_of(&stand_in, table.constant)), &numbers, STAND_IN)?;
        }
    }
    if load(root, SCALARS)? != scalars(tables) {
        return Err(format!("{SCALARS} is not the tables' listing"));
    }
    println!("every file has these numbers");
    Ok(())
}

fn definition_file(table: &Table) -> String {
    format!("crates/letters/specs/{}.antt", table.file)
}

/// The three tables as constants of the crate, in the layout that `rt fmt` keeps.
fn constants(tables: &[Table]) -> String {
    let mut text = String::from(
        "// The tables of characters, as flat constants. The definitions of the same numbers are in specs/;\n\
         // `oracle/tables` writes both from the compiler's own lexer and checks that they agree.\n",
    );
    for table in tables {
        let numbers = table.numbers();
        text += &format!(
            "\n// {}\npub static {}: [u32; {}] = [\n{}];\n",
            table.comment,
            table.constant,
            numbers.len(),
            filled(&numbers)
        );
    }
    text
}

/// Indented lines of numbers, each as long as 99 columns allow, where `rt fmt` breaks them.
fn filled(numbers: &[u32]) -> String {
    let mut text = String::new();
    let mut line = String::from("   ");
    for number in numbers {
        let item = format!(" 0x{number:X},");
        if line.len() + item.len() > 99 {
            text += &line;
            text.push('\n');
            line = String::from("   ");
        }
        line += &item;
    }
    text + &line + "\n"
}

/// One table as a list that proofs can compute with.
fn definition(table: &Table) -> String {
    format!(
        "-- {}\n\
         -- Written by `oracle/tables` with the constants of src/tables.rt, which have the same numbers.\n\
         use Rattle.std.specs.Prelude.{{ℕ, List, [], ◌∷◌}}\n\
         \n\
         unfoldable pub {word} : List ℕ\n\
         {word} =\n\
         {}    []\n",
        table.comment,
        lines(&table.numbers(), 8, |n| format!("0x{n:X} ∷")),
        word = table.word,
    )
}

/// The identifier tables for the stand-in.
fn stand_in(tables: &[Table]) -> String {
    let mut text = String::from(
        "//! The identifier ranges of the compiler's own lexer, written by `oracle/tables`.\n",
    );
    for table in tables {
        text += &format!(
            "\n/// {}\n#[rustfmt::skip]\npub const {}: [u32; {}] = [\n{}];\n",
            table.comment,
            table.constant,
            table.numbers().len(),
            lines(&table.numbers(), 8, |n| format!("0x{n:X},"))
        );
    }
    text
}

/// What the program `scalars` must write.
fn scalars(tables: &[Table]) -> String {
    let mut text = String::new();
    for table in tables {
        text += &format!("{} {}\n", table.word, table.ranges.len());
        for (low, high) in &table.ranges {
            text += &format!("{low:X} {high:X}\n");
        }
    }
    text
}

/// Indented lines of `width` numbers.
fn lines(numbers: &[u32], width: usize, item: impl Fn(&u32) -> String) -> String {
    numbers
        .chunks(width)
        .map(|line| format!("    {}\n", line.iter().map(&item).collect::<Vec<_>>().join(" ")))
        .collect()
}

/// The part of a source between the brackets that follow ` NAME: [u32; N] = `.
fn constant_of<'a>(source: &'a str, name: &str) -> &'a str {
    let head = format!(" {name}: [u32; ");
    let Some((_, rest)) = source.split_once(&head) else {
        return "";
    };
    rest.split_once("= [").and_then(|(_, body)| body.split_once("];")).map_or("", |(body, _)| body)
}

/// All hexadecimal numbers, in order.
fn hex_numbers(source: &str) -> Vec<u32> {
    source
        .split("0x")
        .skip(1)
        .filter_map(|rest| {
            let end = rest.find(|c: char| !c.is_ascii_hexdigit()).unwrap_or(rest.len());
            u32::from_str_radix(&rest[..end], 16).ok()
        })
        .collect()
}

fn agree(read: &[u32], expected: &[u32], file: &str) -> Result<(), String> {
    if read == expected { Ok(()) } else { Err(format!("{file} has other numbers")) }
}

fn load(root: &Path, file: &str) -> Result<String, String> {
    fs::read_to_string(root.join(file)).map_err(|error| format!("{file}: {error}"))
}

fn save(root: &Path, file: &str, text: &str) -> Result<(), String> {
    let path = root.join(file);
    let folder = path.parent().expect("a file has a folder");
    fs::create_dir_all(folder)
        .and_then(|()| fs::write(&path, text))
        .map_err(|error| format!("{file}: {error}"))
}
