//! The texts that everyone reads.

/// What a text is measured for.
pub struct Text {
    pub name: &'static str,
    pub bytes: Vec<u8>,
}

/// So many bytes of a part, repeated, with no part cut.
fn repeated(part: &str, size: usize) -> Vec<u8> {
    part.repeat(size / part.len()).into_bytes()
}

/// Template text.
pub fn template(size: usize) -> Text {
    Text { name: "template text", bytes: repeated("Sample {name}: {value:>10.3} {unit} (range {low:.2} to {high:.2})\n", size) }
}

/// The large texts, of about so many bytes. Front inserts take the Rust time that grows with the square of the text.
pub fn large(size: usize) -> Vec<Text> {
    let text = |name, part| Text { name, bytes: repeated(part, size) };
    vec![
        template(size),
        text("literal text", "The sample was stored at room temperature and read twice, as the method asks.\n"),
        text("ASCII names", "{temperature}{pressure_left}{volume}"),
        text("names with ø and 日", "{größe}{målning}{温度計}{øre}"),
        text("type words", "{:hexadecimal}{:scientific}{:money}"),
        text("errors at the back", "{:_}{_}"),
        text("errors at the front", "{,"),
    ]
}

/// Lines with something in them that the lane leaves to other ways, or that is met seldom; no goals are set for them.
pub fn seldom(size: usize) -> Vec<Text> {
    let text = |name, part| Text { name, bytes: repeated(part, size) };
    vec![
        text("doubled braces", "Set {{a, b}} of {name} was read twice.\n"),
        text("stars", "{:.*} {} {}\n"),
        text("whitespace", "Sample {name } of {date : >9 } was read twice.\n"),
        text("counts by argument", "Sample {:1$} of {:.1$} was read twice.\n"),
        text("`0$` as the width", "Sample {:0$} of {name} was read twice.\n"),
        text("counts by name", "Sample {:w$} of {:.p$} was read twice.\n"),
        text("`x?`", "Sample {:x?} of {name} was read twice.\n"),
        text("`.` alone", "Sample {:.} of {name} was read twice.\n"),
        text("a dot and a type", "Sample {:.e} of {name} was read twice.\n"),
        text("five digits", "Sample {12345} of {name} was read twice.\n"),
        text("the name `r`", "Sample {r} of {name} was read twice.\n"),
        text("over range", "Sample {99999} of {name} was read twice.\n"),
        text("names in Thai and Hebrew", "Sample {ก} of {ש} was read twice.\n"),
        text("names in Tamil and Georgian", "Sample {அ} of {ა} was read twice.\n"),
        text("names all in Tamil", "{தமிழ்}{பெயர்}{எடை}"),
        text("raw names", "Sample {r#a} of {name} was read twice.\n"),
        text("fields", "Sample {a.b} of {name} was read twice.\n"),
    ]
}

/// A text of InlineAsm mode.
pub fn asm(size: usize) -> Text {
    Text { name: "InlineAsm mode", bytes: repeated("mov {dst}, {src:e}\n", size) }
}

/// Short templates, of 40 to 200 bytes.
pub fn short() -> Vec<Text> {
    let text = |name, line: &str| Text { name, bytes: line.as_bytes().to_vec() };
    vec![
        text("short, 45 bytes", "{name}: {value:.3} {unit}, limit {limit:.3} ok"),
        text("short, 65 bytes", "Sample {name}: {value:>10.3} {unit} (range {low:.2} to {high:.2})"),
        text(
            "short, 148 bytes",
            "Temperature {t:5.1} C, pressure {p:7.2} hPa, humidity {h:3.0} %, wind {w:4.1} m/s from {dir}, taken at {time} by {who} on the roof of the institute.",
        ),
    ]
}

/// A member template of 60 bytes.
pub fn member() -> Text {
    let line = "Report {number} of {date}: {name:<9} {moisture:>5.1} % water";
    Text { name: "a member template, 60 bytes", bytes: line.as_bytes().to_vec() }
}

/// A text that is refused for its last byte.
pub fn broken(size: usize) -> Text {
    let mut bytes = repeated("The sample was stored at room temperature and read twice.\n", size);
    bytes.push(0xFF);
    Text { name: "refused for its UTF-8", bytes }
}
