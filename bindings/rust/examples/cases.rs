//! A stream of cases on standard input to their full listing on standard output, through the library's C boundary: the same stream and listing as the program
//! `cases`, for the comparison with the Rust. With `--cut 0,1,2,3,5` each text arrives in parts of so many bytes, in turn, and is read by the finish.

use nitarehpu::raw::{self, ERROR, Lists, PIECE, Request};
use std::io::{self, BufWriter, Read, Write};

/// The program's own lists hold so many records each.
const ROOM: usize = 1024;
const LONGEST: usize = 66_560;

fn two(bytes: &[u8]) -> usize {
    usize::from(bytes[0]) + 256 * usize::from(bytes[1])
}

fn three(bytes: &[u8]) -> usize {
    two(bytes) + 65_536 * usize::from(bytes[2])
}

/// Splits off so many bytes, if there are as many and they are not too many.
fn split<'a>(stream: &mut &'a [u8], count: usize) -> Option<&'a [u8]> {
    if count > LONGEST {
        return None;
    }
    let (part, rest) = stream.split_at_checked(count)?;
    *stream = rest;
    Some(part)
}

fn span(words: &[u32]) -> String {
    format!("{}..{}", words[0], words[1])
}

fn maybe(words: &[u32]) -> String {
    if words[0] == 1 { span(&words[1..]) } else { "-".to_owned() }
}

fn count(words: &[u32]) -> String {
    match words[0] {
        0 => "implied".to_owned(),
        1 => format!("fixed {}", words[1]),
        2 => format!("arg {}", words[1]),
        3 => format!("star {}", words[1]),
        5 | 6 => {
            assert!(words[1..5].iter().all(|&word| word == 0), "what a count over range does not tell is 0");
            if words[0] == 5 { "fixed over" } else { "arg over" }.to_owned()
        }
        _ => format!("name {} {} {}", words[1], words[2], span(&words[3..])),
    }
}

fn piece(out: &mut impl Write, words: &[u32]) -> io::Result<()> {
    if words[0] == 0 {
        assert!(words[3..].iter().all(|&word| word == 0), "what a literal does not tell is 0");
        return writeln!(out, "lit {} {}", words[1], words[2]);
    }
    write!(out, "arg {} {} ", words[1], words[2])?;
    match words[3] {
        0 => write!(out, "next {}", words[4])?,
        1 => write!(out, "at {}", words[4])?,
        3 => {
            assert!(words[4..6].iter().all(|&word| word == 0), "what a place over range does not tell is 0");
            write!(out, "over")?;
        }
        _ => write!(out, "name {} {}", words[4], words[5])?,
    }
    let fill = if words[8] == 1 { format!("{} {}", words[9], span(&words[10..])) } else { "-".to_owned() };
    write!(out, " span {} fill {fill}", span(&words[6..]))?;
    write!(out, " align {} sign {} alt {} zero {} hex {}", words[12], words[13], words[14], words[15], words[34])?;
    write!(out, " width {} {}", count(&words[16..]), maybe(&words[21..]))?;
    write!(out, " precision {} {}", count(&words[24..]), maybe(&words[29..]))?;
    writeln!(out, " type {} {} {}", words[32], words[33], maybe(&words[37..]))
}

fn error(out: &mut impl Write, words: &[u32]) -> io::Result<()> {
    writeln!(
        out,
        "err {} {} second {} quoted {} suggestion {} piece {}",
        words[0],
        span(&words[1..]),
        maybe(&words[5..]),
        maybe(&words[9..]),
        maybe(&words[13..]),
        words[3]
    )
}

/// The lists of one case: as many records as it asks for, of the program's own.
struct Store {
    pieces: Vec<u32>,
    errors: Vec<u32>,
    places: Vec<usize>,
    lines: Vec<usize>,
}

impl Store {
    fn new(rooms: [usize; 4]) -> Self {
        let [pieces, errors, places, lines] = rooms.map(|room| room.min(ROOM));
        Store { pieces: vec![0; PIECE * pieces], errors: vec![0; ERROR * errors], places: vec![0; 2 * places], lines: vec![0; 2 * lines] }
    }

    fn is_zero(&self) -> bool {
        self.pieces.iter().chain(&self.errors).all(|&word| word == 0) && self.places.iter().chain(&self.lines).all(|&word| word == 0)
    }
}

/// Reads a text that arrives in parts of such lengths, in turn.
fn read_in_parts(text: &[u8], lengths: &[usize], request: Request<'_>, lists: &mut Lists<'_>) -> raw::Answer {
    let mut state = [0; 3];
    // What the buffer held before is no part of the text.
    let mut buffer = vec![b'{'; raw::LONGEST];
    let mut rest = text;
    for &length in lengths.iter().cycle() {
        let (part, after) = rest.split_at(length.min(rest.len()));
        assert_eq!(raw::part(&mut state, &mut buffer, part), 0, "a state fits the buffer that it came with");
        rest = after;
        if rest.is_empty() {
            break;
        }
    }
    raw::finish(&state, &buffer, request, lists)
}

/// A count of the same call says what was read, and lists made to measure by it, which take a counting run first, hold the same.
fn check_counted(text: &[u8], request: Request<'_>, answer: &raw::Answer, store: &Store) {
    let rooms = |answer: &raw::Answer| [answer.pieces, answer.errors, answer.places, answer.lines];
    let counted = raw::count(text, request);
    assert_eq!(rooms(&counted), rooms(answer), "the count of {text:?}");
    assert_eq!((counted.arguments, counted.moves), (answer.arguments, answer.moves), "the figures of {text:?}");
    let mut tight = Store::new(rooms(answer));
    let mut lists = Lists { pieces: &mut tight.pieces, errors: &mut tight.errors, places: &mut tight.places, lines: &mut tight.lines };
    let again = raw::read(text, request, &mut lists);
    assert_eq!((again.number, rooms(&again)), (0, rooms(answer)), "{text:?} with no room to spare");
    assert_eq!(tight.pieces, store.pieces[..tight.pieces.len()], "the pieces of {text:?}");
    assert_eq!(tight.errors, store.errors[..tight.errors.len()], "the errors of {text:?}");
    assert_eq!(tight.places, store.places[..tight.places.len()], "the argument places of {text:?}");
    assert_eq!(tight.lines, store.lines[..tight.lines.len()], "the lines of {text:?}");
}

fn case(out: &mut impl Write, k: usize, head: &[u8], snippet: &[u8], text: &[u8], cut: Option<&[usize]>) -> io::Result<()> {
    let request = Request {
        mode: head[0],
        style: (head[1] == 1).then(|| two(&head[2..])),
        snippet: (head[4] == 1).then_some(snippet),
        newline: head[5] == 1,
    };
    let mut store = Store::new([6, 8, 10, 12].map(|at| two(&head[at..])));
    let mut lists = Lists { pieces: &mut store.pieces, errors: &mut store.errors, places: &mut store.places, lines: &mut store.lines };
    let answer = match cut {
        None => raw::read(text, request, &mut lists),
        Some(lengths) => read_in_parts(text, lengths, request, &mut lists),
    };
    writeln!(out, "case {k}")?;
    writeln!(
        out,
        "answer {} {} {} {} {} {} arguments {} moves {}",
        answer.number, answer.place, answer.pieces, answer.errors, answer.places, answer.lines, answer.arguments, answer.moves
    )?;
    if answer.number != 0 {
        return if store.is_zero() { Ok(()) } else { writeln!(out, "changed") };
    }
    check_counted(text, request, &answer, &store);
    for words in store.pieces.chunks_exact(PIECE).take(answer.pieces) {
        piece(out, words)?;
    }
    for words in store.errors.chunks_exact(ERROR).take(answer.errors) {
        error(out, words)?;
    }
    for ends in store.places.chunks_exact(2).take(answer.places) {
        writeln!(out, "place {}..{}", ends[0], ends[1])?;
    }
    for ends in store.lines.chunks_exact(2).take(answer.lines) {
        writeln!(out, "line {}..{}", ends[0], ends[1])?;
    }
    Ok(())
}

/// The lengths behind `--cut`, if it is there. One of them is more than 0.
fn cut() -> Option<Vec<usize>> {
    let words: Vec<String> = std::env::args().skip(1).collect();
    match &words[..] {
        [] => None,
        [word, lengths] if word == "--cut" => {
            let lengths: Vec<usize> = lengths.split(',').map(|length| length.parse().expect("a length")).collect();
            assert!(lengths.iter().any(|&length| length > 0), "a text does not arrive in parts of no bytes alone");
            Some(lengths)
        }
        _ => panic!("cases [--cut LENGTH,..]"),
    }
}

fn main() -> io::Result<()> {
    let cut = cut();
    let mut bytes = Vec::new();
    io::stdin().read_to_end(&mut bytes)?;
    let mut stream = &bytes[..];
    let mut out = BufWriter::new(io::stdout().lock());
    let mut k = 0;
    while !stream.is_empty() {
        let parts = split(&mut stream, 20).and_then(|head| {
            let snippet = split(&mut stream, three(&head[14..]))?;
            let text = split(&mut stream, three(&head[17..]))?;
            Some((head, snippet, text))
        });
        let Some((head, snippet, text)) = parts else {
            writeln!(out, "stream")?;
            break;
        };
        case(&mut out, k, head, snippet, text, cut.as_deref())?;
        k += 1;
    }
    out.flush()
}
