//! Measures the reader beside the Rust that it replaces and its peers. All read the same texts in one run, by turns; of many rounds the quickest counts.

mod goals;
mod ours;
mod peers;
mod stack;
mod texts;

use goals::Goals;
use ours::Reader;
use std::hint::black_box;
use std::time::Instant;
use texts::Text;

const SIZE: usize = 60_000;
const ROUNDS: usize = 40;

/// Nanoseconds of one call.
fn once(calls: usize, call: &mut dyn FnMut()) -> f64 {
    let start = Instant::now();
    for _ in 0..calls {
        call();
    }
    start.elapsed().as_secs_f64() * 1e9 / calls as f64
}

/// The quickest of many rounds of each call, taken by turns.
fn quickest<const N: usize>(rounds: usize, calls: usize, mut each: [&mut dyn FnMut(); N]) -> [f64; N] {
    let mut best = [f64::INFINITY; N];
    for _ in 0..rounds {
        for (best, call) in best.iter_mut().zip(each.iter_mut()) {
            *best = best.min(once(calls, call));
        }
    }
    best
}

/// What each took for a text; {fmt} with a list of its own for each text, and with one that is kept.
struct Times {
    ours: f64,
    rust: f64,
    cpp: Option<f64>,
    kept: Option<f64>,
    sum: f64,
}

impl Times {
    /// How many times as long as the reader the Rust took.
    fn rust_to_ours(&self) -> f64 {
        self.rust / self.ours
    }

    /// The reader's part of {fmt}'s time.
    fn ours_to_cpp(&self) -> Option<f64> {
        self.cpp.map(|cpp| self.ours / cpp)
    }
}

/// The head of a table of such rows.
fn head(first: &str, last: &str) {
    println!("| {first} | this | the Rust | {{fmt}} | {{fmt}}, its list kept | sum of bytes | the Rust : this | {last} |");
    println!("|---|---|---|---|---|---|---|---|");
}

/// A row of the table: what each took, and the ratio to the reader.
fn row(name: &str, scale: f64, times: &Times, doubled: Option<f64>) {
    let cell = |x: Option<f64>| x.map_or_else(|| "-".to_owned(), |x| format!("{x:.2}"));
    println!(
        "| {name} | {:.2} | {:.2} | {} | {} | {:.2} | {:.2} | {} |",
        times.ours / scale,
        times.rust / scale,
        cell(times.cpp.map(|x| x / scale)),
        cell(times.kept.map(|x| x / scale)),
        times.sum / scale,
        times.rust_to_ours(),
        cell(doubled),
    );
}

fn measured(text: &Text, reader: &mut Reader, rounds: usize, calls: usize) -> Times {
    let bytes = &text.bytes[..];
    let string = std::str::from_utf8(bytes).expect("the text is UTF-8");
    let (number, pieces, errors) = reader.read(bytes);
    assert_eq!((number, pieces, errors), (0, peers::rust(string).0, peers::rust(string).1), "{}", text.name);
    let reads = peers::cpp(bytes).is_some();
    let [ours, rust, cpp, kept, sum] = quickest(
        rounds,
        calls,
        [
            &mut || {
                black_box(reader.read(black_box(bytes)));
            },
            &mut || {
                black_box(peers::rust(black_box(string)));
            },
            &mut || {
                if reads {
                    black_box(peers::cpp(black_box(bytes)));
                }
            },
            &mut || {
                if reads {
                    black_box(peers::cpp_kept(black_box(bytes)));
                }
            },
            &mut || {
                black_box(peers::sum(black_box(bytes)));
            },
        ],
    );
    Times { ours, rust, cpp: reads.then_some(cpp), kept: reads.then_some(kept), sum }
}

/// The reader by itself: what the others leave in the caches would count against the larger text.
fn alone(text: &Text, reader: &mut Reader) -> f64 {
    let [ours] = quickest(ROUNDS, 1, [&mut || {
        black_box(reader.read(black_box(&text.bytes)));
    }]);
    ours
}

/// Large texts, in nanoseconds a byte, and how much longer the reader by itself takes for twice the text.
fn large_texts(reader: &mut Reader, goals: &mut Goals) {
    head("text, ns a byte", "twice the text");
    for (text, half) in texts::large(SIZE).iter().zip(texts::large(SIZE / 2)) {
        // The Rust takes seconds for a large text with errors at the front.
        let rounds = if text.name == "errors at the front" { 1 } else { ROUNDS };
        let times = measured(text, reader, rounds, 1);
        let doubled = alone(text, reader) / alone(&half, reader);
        row(text.name, text.bytes.len() as f64, &times, Some(doubled));
        goals.large(text.name, times.rust_to_ours(), times.ours_to_cpp(), doubled);
    }
    let text = texts::broken(SIZE);
    assert_eq!(reader.read(&text.bytes).0, 4);
    let [ours, rust, sum] = quickest(
        ROUNDS,
        1,
        [
            &mut || {
                black_box(reader.read(black_box(&text.bytes)));
            },
            &mut || {
                black_box(peers::rust_utf8(black_box(&text.bytes)));
            },
            &mut || {
                black_box(peers::sum(black_box(&text.bytes)));
            },
        ],
    );
    let times = Times { ours, rust, cpp: None, kept: None, sum };
    row(text.name, text.bytes.len() as f64, &times, None);
    goals.at_least(text.name, times.rust_to_ours(), 0.7);
    println!();
}

/// What no goal is set for, in nanoseconds a byte: where the Rust is ahead, it is to be seen.
fn seldom_texts(reader: &mut Reader) {
    head("met seldom, ns a byte", "");
    for text in texts::seldom(SIZE) {
        let times = measured(&text, reader, ROUNDS, 1);
        row(text.name, text.bytes.len() as f64, &times, None);
    }
    println!();
}

/// Calls of other kinds, each beside the Rust's reading of the same text, in nanoseconds a byte: no goal is set for them.
fn other_calls(reader: &mut Reader) {
    println!("| other calls, ns a byte | this | the Rust | the Rust : this |");
    println!("|---|---|---|---|");
    let text = texts::template(SIZE);
    let bytes = &text.bytes[..];
    let string = std::str::from_utf8(bytes).expect("the text is UTF-8");
    let pieces = ours::count(bytes)[2];
    let mut narrow = Reader::narrow(pieces);
    assert_eq!(narrow.read(bytes), (0, pieces, 0));
    let asm = texts::asm(SIZE);
    let asm_string = std::str::from_utf8(&asm.bytes).expect("the text is UTF-8");
    assert_eq!(reader.read_as(&asm.bytes, 1), (0, peers::rust_asm(asm_string).0, 0));
    let [counted, to_measure, rust, asm_read, asm_rust] = quickest(
        ROUNDS,
        1,
        [
            &mut || {
                black_box(ours::count(black_box(bytes)));
            },
            &mut || {
                black_box(narrow.read(black_box(bytes)));
            },
            &mut || {
                black_box(peers::rust(black_box(string)));
            },
            &mut || {
                black_box(reader.read_as(black_box(&asm.bytes), 1));
            },
            &mut || {
                black_box(peers::rust_asm(black_box(asm_string)));
            },
        ],
    );
    let rows = [("template text counted", bytes, counted, rust), ("template text, lists with no room to spare", bytes, to_measure, rust), (asm.name, &asm.bytes, asm_read, asm_rust)];
    for (name, bytes, ours, rust) in rows {
        let scale = bytes.len() as f64;
        println!("| {name} | {:.2} | {:.2} | {:.2} |", ours / scale, rust / scale, rust / ours);
    }
    println!();
}

/// Small texts with errors at the front: where the Rust's time grows with the square, ours must not be more at any size.
fn front_errors(reader: &mut Reader, goals: &mut Goals) {
    head("errors at the front, ns a byte", "");
    for size in [2, 16, 128, 1024, 8192] {
        let text = Text { name: "errors at the front", bytes: "{,".repeat(size / 2).into_bytes() };
        let times = measured(&text, reader, 20, (4096 / size).max(1));
        row(&format!("{size} bytes"), size as f64, &times, None);
        goals.at_least(&format!("errors at the front, {size} bytes"), times.rust_to_ours(), 3.0);
    }
    println!();
}

/// Short templates, in nanoseconds a call.
fn short_texts(reader: &mut Reader, goals: &mut Goals) {
    head("text, ns a call", "");
    for text in texts::short() {
        let times = measured(&text, reader, ROUNDS, 1000);
        row(text.name, 1.0, &times, None);
        goals.short(text.name, times.rust_to_ours(), times.ours_to_cpp());
    }
    let bare = Text { name: "`{}` alone", bytes: b"{}".to_vec() };
    let times = measured(&bare, reader, ROUNDS, 1000);
    row(bare.name, 1.0, &times, None);
    goals.at_most("`{}` alone, ns", times.ours, 20.0);
    println!();
}

/// A member template: its verdict beside its reading, in nanoseconds a call.
fn member_template(reader: &mut Reader) {
    let text = texts::member();
    assert_eq!((text.bytes.len(), ours::verdict(&text.bytes)), (60, [0; 4]));
    let [verdict, reading] = quickest(
        ROUNDS,
        1000,
        [
            &mut || {
                black_box(ours::verdict(black_box(&text.bytes)));
            },
            &mut || {
                black_box(reader.read(black_box(&text.bytes)));
            },
        ],
    );
    println!("| text, ns a call | its verdict | its reading |");
    println!("|---|---|---|");
    println!("| {} | {verdict:.2} | {reading:.2} |", text.name);
    println!();
}

/// The stack that a call takes: the most over the texts.
fn stack_of_a_call(reader: &mut Reader) {
    let mut texts = texts::large(SIZE);
    texts.extend(texts::short());
    texts.extend(texts::seldom(SIZE));
    let most = texts.iter().map(|text| stack::of(&mut || { black_box(reader.read(&text.bytes)); })).max();
    println!("stack of a call: {} bytes at most over these texts", most.unwrap_or(0));
}

/// Writes the texts that Python reads too, for the script that times it.
fn write_texts(folder: &str) -> std::io::Result<()> {
    for text in texts::large(SIZE).into_iter().chain(texts::short()) {
        std::fs::write(format!("{folder}/{}.txt", text.name), text.bytes)?;
    }
    Ok(())
}

fn main() -> std::io::Result<()> {
    if let Some(folder) = std::env::args().nth(1) {
        write_texts(&folder)?;
    }
    let mut reader = Reader::new(1 << 16);
    let mut goals = Goals::default();
    large_texts(&mut reader, &mut goals);
    short_texts(&mut reader, &mut goals);
    front_errors(&mut reader, &mut goals);
    seldom_texts(&mut reader);
    other_calls(&mut reader);
    member_template(&mut reader);
    stack_of_a_call(&mut reader);
    goals.print();
    Ok(())
}
