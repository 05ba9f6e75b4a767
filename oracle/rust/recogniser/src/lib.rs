//! Every reading of a text under the grammar of docs/RULES.md, section 4, found by trying
//! everything. It rests on those rules alone, whose numbers are given, and on the tables of
//! identifier characters.
//!
//! Two readings are the same when they have the same elements: the same characters as literals, and
//! placeholders with the same characters, place and parts of the spec. Which whitespace belongs to
//! the place and which follows the spec is no part of a reading, and choice 3 leaves one way.

use rustc_lexer::{is_id_continue, is_id_start};
use std::ops::Range;

#[derive(Clone, Copy, Debug, PartialEq, Eq)]
pub enum Mode {
    Format,
    InlineAsm,
    Diagnostic,
}

/// R4.1: a list of elements that spell the text.
pub type Reading = Vec<Element>;

/// R4.1: a run without braces; a doubled brace with the run after it; a placeholder.
#[derive(Clone, Debug, PartialEq, Eq)]
pub enum Element {
    /// R5.2: the characters of the view, from the second brace of a doubled one.
    Literal(Range<usize>),
    /// Its characters from brace to brace, its place and its spec.
    Placeholder(Range<usize>, Place, Spec),
}

/// R5.4. The number of a `Next` is that of the argument it takes.
#[derive(Clone, Debug, PartialEq, Eq)]
pub enum Place {
    Next(usize),
    At(u16),
    Named(String),
}

/// R5.10 and R5.12. A star has the number of its argument.
#[derive(Clone, Debug, Default, PartialEq, Eq)]
pub enum Count {
    #[default]
    Implied,
    Fixed(u16),
    ByName(String),
    ByArgument(u16),
    ByStar(usize),
}

/// The parts of a spec, in order.
#[derive(Clone, Debug, Default, PartialEq, Eq)]
pub struct Spec {
    pub fill: Option<char>,
    pub align: Option<char>,
    pub sign: Option<char>,
    pub alternate: bool,
    pub zero: bool,
    pub width: Count,
    pub precision: Count,
    /// The letter before the `?` in `x?` and `X?`.
    pub hex: Option<char>,
    /// The type as it is written, less that letter; in Diagnostic all that follows the colon.
    pub ty: String,
}

/// The ways to read something from a place in the text, each with the place after it.
type Ways<T> = Vec<(T, usize)>;

/// All readings of a text.
pub fn readings(text: &[char], mode: Mode) -> Vec<Reading> {
    let mut readings = readings_from(text, 0, mode);
    readings.iter_mut().for_each(number_arguments);
    readings
}

/// R4.1: the elements follow one another up to the end. None starts with a lone `}`, so a text
/// where one is met has no reading (R4.3).
fn readings_from(text: &[char], at: usize, mode: Mode) -> Vec<Reading> {
    if at == text.len() {
        return vec![Vec::new()];
    }
    let mut readings = Vec::new();
    for (element, end) in literal(text, at).into_iter().chain(placeholder(text, at, mode)) {
        for rest in readings_from(text, end, mode) {
            readings.push([vec![element.clone()], rest].concat());
        }
    }
    readings
}

/// R5.6: a place takes its number after its spec, so a star comes first.
fn number_arguments(reading: &mut Reading) {
    let mut next = 0;
    let mut count = |number: &mut usize| {
        *number = next;
        next += 1;
    };
    for element in reading {
        let Element::Placeholder(_, place, spec) = element else { continue };
        if let Count::ByStar(number) = &mut spec.precision {
            count(number);
        }
        if let Place::Next(number) = place {
            count(number);
        }
    }
}

/// R4.1 and R4.2: a run, or a doubled brace with the run after it, to the next brace or the end.
fn literal(text: &[char], at: usize) -> Option<(Element, usize)> {
    let run_end = |at| (at..text.len()).find(|&i| "{}".contains(text[i])).unwrap_or(text.len());
    let doubled = text[at..].starts_with(&['{', '{']) || text[at..].starts_with(&['}', '}']);
    let end = if doubled { run_end(at + 2) } else { run_end(at) };
    (end > at).then_some((Element::Literal(at + usize::from(doubled)..end), end))
}

/// R4.4: brace, place, whitespace, perhaps a colon and a spec, whitespace, brace.
fn placeholder(text: &[char], start: usize, mode: Mode) -> Ways<Element> {
    let mut ways = Vec::new();
    let Some(at) = after(text, start, '{') else { return ways };
    for (place, at) in place(text, at) {
        for at in ends(text, at, is_whitespace) {
            for (spec, at) in optional_spec(text, at, mode) {
                let apart = spec.is_some() && mode != Mode::Diagnostic;
                for end in closing(text, at, apart) {
                    let spec = spec.clone().unwrap_or_default();
                    ways.push((Element::Placeholder(start..end, place.clone(), spec), end));
                }
            }
        }
    }
    ways
}

/// R4.4: perhaps a colon and a spec.
fn optional_spec(text: &[char], at: usize, mode: Mode) -> Ways<Option<Spec>> {
    let specs = after(text, at, ':').map_or_else(Vec::new, |at| spec(text, at, mode));
    specs.into_iter().map(|(spec, end)| (Some(spec), end)).chain([(None, at)]).collect()
}

/// R4.4: whitespace and the closing brace. Whitespace may stand here apart from the place and the
/// spec, but not
/// - with no colon: it belongs to the place (R4.15; before a colon there is only one way);
/// - in Diagnostic: the spec is any text, with the whitespace at its end (R4.12).
fn closing(text: &[char], at: usize, apart: bool) -> impl Iterator<Item = usize> {
    let braces = ends(text, at, is_whitespace).filter(move |&brace| apart || brace == at);
    braces.filter_map(|brace| after(text, brace, '}'))
}

/// R4.5: a number, a word, or nothing.
fn place(text: &[char], at: usize) -> Ways<Place> {
    let mut ways = vec![(Place::Next(0), at)];
    ways.extend(number(text, at).into_iter().map(|(number, end)| (Place::At(number), end)));
    ways.extend(word(text, at).into_iter().map(|(word, end)| (Place::Named(word), end)));
    ways
}

/// What may follow the colon.
fn spec(text: &[char], at: usize, mode: Mode) -> Ways<Spec> {
    let typed = |ty| Spec { ty, ..Spec::default() };
    match mode {
        Mode::Format => format_spec(text, at),
        // "InlineAsm spec: a word, or nothing."
        Mode::InlineAsm => {
            let words = word(text, at).into_iter().map(|(word, end)| (typed(word), end));
            words.chain([(Spec::default(), at)]).collect()
        }
        // "Diagnostic spec: any text without braces."
        Mode::Diagnostic => {
            let texts = ends(text, at, |c| !"{}".contains(c));
            texts.map(|end| (typed(text[at..end].iter().collect()), end)).collect()
        }
    }
}

/// R4.6: fill and align, sign, `#`, `0`, width, precision, type, each of which may be missing.
fn format_spec(text: &[char], start: usize) -> Ways<Spec> {
    let parts = [fill_and_align, sign, alternate, zero, width, precision, ty];
    let mut ways = vec![(Spec::default(), start)];
    for part in parts {
        let with_it: Ways<Spec> =
            ways.iter().flat_map(|(before, at)| part(text, *at, before)).collect();
        ways.extend(with_it);
    }
    ways.retain(|(spec, _)| choice_1(text, start, spec) && choice_2(text, start, spec));
    ways
}

/// R4.13, choice 1: if the second character after the colon is an align, the first is the fill.
fn choice_1(text: &[char], start: usize, spec: &Spec) -> bool {
    one_of(text, start + 1, "<>^").is_none() || spec.fill == Some(text[start])
}

/// R4.14, choice 2: a `0` at the flag's place is the flag unless `$` follows directly; then `0$` is
/// the width. Each part before the flag is one character.
fn choice_2(text: &[char], start: usize, spec: &Spec) -> bool {
    let before = [spec.fill.is_some(), spec.align.is_some(), spec.sign.is_some(), spec.alternate];
    let flag = start + before.iter().filter(|&&there| there).count();
    match (text.get(flag), text.get(flag + 1)) {
        (Some('0'), Some('$')) => !spec.zero && spec.width == Count::ByArgument(0),
        (Some('0'), _) => spec.zero,
        _ => true,
    }
}

/// R4.7: an align, alone or after a fill.
fn fill_and_align(text: &[char], at: usize, spec: &Spec) -> Ways<Spec> {
    let alone = one_of(text, at, "<>^").map(|(align, end)| (None, align, end));
    let filled = one_of(text, at + 1, "<>^").map(|(align, end)| (Some(text[at]), align, end));
    let ways = alone.into_iter().chain(filled).map(|(fill, align, end)| {
        let align = Some(align);
        (Spec { fill, align, ..spec.clone() }, end)
    });
    ways.collect()
}

fn sign(text: &[char], at: usize, spec: &Spec) -> Ways<Spec> {
    let ways = one_of(text, at, "+-").into_iter();
    ways.map(|(sign, end)| (Spec { sign: Some(sign), ..spec.clone() }, end)).collect()
}

fn alternate(text: &[char], at: usize, spec: &Spec) -> Ways<Spec> {
    let ways = after(text, at, '#').into_iter();
    ways.map(|end| (Spec { alternate: true, ..spec.clone() }, end)).collect()
}

fn zero(text: &[char], at: usize, spec: &Spec) -> Ways<Spec> {
    let ways = after(text, at, '0').into_iter();
    ways.map(|end| (Spec { zero: true, ..spec.clone() }, end)).collect()
}

fn width(text: &[char], at: usize, spec: &Spec) -> Ways<Spec> {
    let ways = count(text, at).into_iter();
    ways.map(|(width, end)| (Spec { width, ..spec.clone() }, end)).collect()
}

/// R4.9: a width's form, or a star, or nothing, after its dot.
fn precision(text: &[char], at: usize, spec: &Spec) -> Ways<Spec> {
    let Some(at) = after(text, at, '.') else { return Vec::new() };
    let star = after(text, at, '*').map(|end| (Count::ByStar(0), end));
    let ways = count(text, at).into_iter().chain(star).chain([(Count::Implied, at)]);
    ways.map(|(precision, end)| (Spec { precision, ..spec.clone() }, end)).collect()
}

/// R4.8: a number, a number and `$`, or a word and `$`.
fn count(text: &[char], at: usize) -> Ways<Count> {
    let mut ways = Vec::new();
    for (number, end) in number(text, at) {
        ways.push((Count::Fixed(number), end));
        ways.extend(after(text, end, '$').map(|end| (Count::ByArgument(number), end)));
    }
    for (word, end) in word(text, at) {
        ways.extend(after(text, end, '$').map(|end| (Count::ByName(word), end)));
    }
    ways
}

/// R4.10: `?`, `x?`, `X?`, `x`, `X`, or a word that starts with neither letter.
fn ty(text: &[char], at: usize, spec: &Spec) -> Ways<Spec> {
    let fixed = [(None, "?"), (Some('x'), "?"), (Some('X'), "?"), (None, "x"), (None, "X")];
    let fixed = fixed.into_iter().filter_map(|(hex, ty)| {
        let written: Vec<char> = hex.into_iter().chain(ty.chars()).collect();
        text[at..].starts_with(&written).then(|| (hex, ty.to_owned(), at + written.len()))
    });
    let words = word(text, at).into_iter().filter(|(word, _)| !word.starts_with(['x', 'X']));
    let ways = fixed.chain(words.map(|(word, end)| (None, word, end)));
    ways.map(|(hex, ty, end)| (Spec { hex, ty, ..spec.clone() }, end)).collect()
}

/// R3.5: one start and then continuations; every length is tried, for that they go as far as they
/// can must follow from the rest. R4.5: no word is `_`.
fn word(text: &[char], at: usize) -> Ways<String> {
    if !text.get(at).is_some_and(|&c| is_id_start(c)) {
        return Vec::new();
    }
    let words = ends(text, at + 1, is_id_continue).map(|end| (text[at..end].iter().collect(), end));
    words.filter(|(word, _): &(String, usize)| word != "_").collect()
}

/// R3.7: one or more digits; every length is tried. R4.5: no number passes 65,535, which is where a
/// `u16` ends.
fn number(text: &[char], at: usize) -> Ways<u16> {
    let digits = ends(text, at, |c| c.is_ascii_digit()).skip(1);
    let value = |end| text[at..end].iter().collect::<String>().parse().ok();
    digits.filter_map(|end| Some((value(end)?, end))).collect()
}

/// R3.3: the ten ranges of White_Space.
fn is_whitespace(c: char) -> bool {
    matches!(
        u32::from(c),
        0x9..=0xD | 0x20 | 0x85 | 0xA0 | 0x1680 | 0x2000..=0x200A | 0x2028..=0x2029 | 0x202F
            | 0x205F | 0x3000
    )
}

/// The ends of all runs of such characters from a place on, the empty run first.
fn ends(text: &[char], at: usize, such: impl Fn(char) -> bool) -> impl Iterator<Item = usize> {
    let longest = text[at..].iter().take_while(|&&c| such(c)).count();
    at..=at + longest
}

/// The place after a given character, if it stands there.
fn after(text: &[char], at: usize, wanted: char) -> Option<usize> {
    (text.get(at) == Some(&wanted)).then_some(at + 1)
}

/// The character that stands there, if it is one of these, and the place after it.
fn one_of(text: &[char], at: usize, these: &str) -> Option<(char, usize)> {
    let &c = text.get(at)?;
    these.contains(c).then_some((c, at + 1))
}
