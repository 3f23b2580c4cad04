//! Times the product's library against this checker on the same phrases; prints markdown tables. Each row ends with the same
//! phrase in version 3, where every bell has a rest.

use std::hint::black_box;
use std::ops::RangeInclusive;
use std::time::{Duration, Instant};

use reference::check::check;
use reference::dispatch::Scenario;
use reference::draft::{Draft, DraftBell, DraftNote, playing_bytes};
use reference::events::by_events;
use reference::examples::P;
use reference::foreign::{self, HostPhrase};
use reference::playing::{Played, literally, play_by};
use reference::random::{Generator, Shape, accepted_words, draft, longest, scenario};
use reference::reading::{MOST_STROKES, Phrase, Refusal, read};
use reference::report::report;
use reference::walk::{Walk, walk, words_per_state};
use reference::writing::{EditedPhrase, write_into};

const SEED: u64 = 1;
/// Rests have draws of their own, so that all else is drawn as it would be without them.
const REST_SEED: u64 = 3;
const STROKES: [u64; 4] = [8, 16, 32, 64];
const DRIVERS: [u64; 3] = [1, 4, 8];
const DRIVERS_PLAYED: [u64; 4] = [1, 2, 4, 8];
const TEXT_BYTES: usize = 32_768;

fn main() {
    print_reading_tables();
    print_playing_table();
    print_analysis_tables();
    print_growth_table();
}

fn print_reading_tables() {
    println!(
        "Phrases with one state a level: reading, the text, and a whole report (µs; ratio: library / this)\n"
    );
    let columns = ["reading", "text", "report"].map(library_and_this).concat();
    print_head("| K | m |", &columns, &of_version_3(&columns));
    each(&DRIVERS, |strokes, drivers| {
        print_reading_and_report(&clockwork(strokes, drivers));
    });

    println!("\nA phrase read from its file, and written to a lent buffer (µs)\n");
    let columns = ["reading", "writing"].map(library_and_this).concat();
    let version_3 = of_version_3(&format!(" bytes |{columns}"));
    print_head("| bells | K | bytes |", &columns, &version_3);
    print_reading_and_writing(&P);
    print_reading_and_writing(&clockwork(16, 4));
    print_reading_and_writing(&longest(&mut Generator::new(SEED)).bytes());
}

fn print_playing_table() {
    println!(
        "\nA playing worked out: whole calls, this one's millisecond by millisecond and by events; and without reading \
         the phrase (µs)\n"
    );
    let without_reading = " without reading, library | by events | ratio |";
    let columns = format!(" library | literal | ratio | by events | ratio |{without_reading}");
    let version_3 = format!(" last end, ms | library | by events | ratio |{without_reading}");
    let version_3 = of_version_3(&version_3);
    print_head("| run | K | m | last end, ms |", &columns, &version_3);
    each(&DRIVERS_PLAYED, |strokes, drivers| {
        print_playing("dense", &dense(strokes, drivers));
    });
    each(&DRIVERS_PLAYED, |strokes, drivers| {
        print_playing("long gaps", &long_gaps(strokes, drivers));
    });
}

fn print_analysis_tables() {
    println!("\nAnalysis, in a table just long enough and in one of half that length\n");
    print_analysis_head();
    each(&DRIVERS, |strokes, drivers| {
        let (file, words) = crowded(strokes, drivers, 100..=400);
        print_analysis(&file, words, 1);
        print_analysis(&file, words, 2);
    });

    println!("\nAnalysis, with more and more states in a level\n");
    print_analysis_head();
    for states in [10, 40, 160, 640, 2560] {
        let (file, words) = crowded(32, 4, states..=2 * states);
        print_analysis(&file, words, 1);
    }
}

/// Strokes that may go in any order: their widest level has as many states as there are ways to choose half of them.
fn print_growth_table() {
    println!("\nAnalysis of strokes that may go in any order, in a table just long enough\n");
    let columns = " ms, library | this | ratio | ns/edge, library | this |";
    println!("| K | states in the widest level | words | states | edges |{columns}");
    println!("|--:|--:|--:|--:|--:|--:|--:|--:|--:|--:|");
    for strokes in [10, 12, 14, 16, 18, 20] {
        print_growth(strokes);
    }
}

/// This checker is left out where it would take minutes; then the library's count of states is all that is compared.
fn print_growth(strokes: u8) {
    const MOST_STROKES_TIMED: u8 = 16;
    let file = any_order(strokes);
    let count = u64::from(strokes);
    let (states, edges) = (1u64 << count, count << (count - 1));
    let widest = (1..=count / 2).fold(1, |ways, i| ways * (count / 2 + i) / i);
    let words = pair_words(&file) * widest as usize;
    let mut table = vec![0xA5A5_A5A5; words];
    if strokes <= MOST_STROKES_TIMED {
        agree(&file, words);
        let walk = walk(&phrase(&file), words);
        assert_eq!(
            (walk.states, walk.edges, walk.peak),
            (states, edges, widest)
        );
    }
    assert_eq!(library_states(&file, &mut table), Some(states));
    let library = few_rounds(&mut || foreign::phrase_check_with(black_box(&file), &mut table));
    let per_edge = |time: f64| format!("{:.0}", time / edges as f64);
    let (own_time, ratio, own_edge) = if strokes <= MOST_STROKES_TIMED {
        let own = few_rounds(&mut || check(black_box(&file), words).host_number());
        (
            format!("{:.3}", own / 1e6),
            format!("{:.2}", library / own),
            per_edge(own),
        )
    } else {
        Default::default()
    };
    println!(
        "| {strokes} | {widest} | {words} | {states} | {edges} | {:.3} | {own_time} | {ratio} | {} | {own_edge} |",
        library / 1e6,
        per_edge(library)
    );
}

/// The best of a few calls: those of wide levels take long.
fn few_rounds(call: &mut dyn FnMut() -> u64) -> f64 {
    const ROUNDS: u32 = 5;
    let [time] = best_of(ROUNDS, [call]);
    time
}

/// The count of states in the library's text.
fn library_states(file: &[u8], table: &mut [u32]) -> Option<u64> {
    let mut text = vec![0; TEXT_BYTES];
    let length = foreign::phrase_report_with(file, table, &mut text);
    let text = std::str::from_utf8(&text[..length]).ok()?;
    let (_, after) = text.split_once(" states ")?;
    after.split([' ', '\n']).next()?.parse().ok()
}

/// Strokes on bells of their own, all called at 0..400, on two drivers.
fn any_order(strokes: u8) -> Vec<u8> {
    let bells = (0..strokes).map(|i| DraftBell {
        written: 60 + i,
        transposition: 0,
        ca: 10,
        cb: 20,
        rest: None,
        rank: 1,
    });
    let notes = (0..strokes).map(|i| DraftNote::new(60 + i, 0, 400, 3_600_000, Vec::new()));
    Draft::new(2, bells.collect(), notes.collect()).bytes()
}

/// The heads of three columns.
fn library_and_this(what: &str) -> String {
    format!(" {what}, library | this | ratio |")
}

/// The same heads, the first of them named for version 3.
fn of_version_3(columns: &str) -> String {
    format!(" version 3:{columns}")
}

/// A table's head: all columns but those of what is not a number are set to the right.
fn print_head(first: &str, columns: &str, version_3: &str) {
    let head = format!("{first}{columns}{version_3}");
    println!("{head}");
    let names = head.trim_matches('|').split('|').map(str::trim);
    let rules = names.map(|name| match name {
        "run" | "answer" => ":--|",
        _ => "--:|",
    });
    println!("|{}", rules.collect::<String>());
}

fn print_analysis_head() {
    let columns = " library ms | this ms | ratio \
                   | library ns/edge | this ns/edge | library states/s | this states/s |";
    let version_3 = of_version_3(" words | answer | states | library ms | this ms | ratio |");
    let first = "| K | m | words | answer | states | edges |";
    print_head(first, columns, &version_3);
}

fn each(drivers: &[u64], mut print: impl FnMut(u64, u64)) {
    for strokes in STROKES {
        for &drivers in drivers {
            print(strokes, drivers);
        }
    }
}

/// Nothing uncertain, so that the walk is short and what surrounds it can be told apart.
fn clockwork(strokes: u64, drivers: u64) -> Vec<u8> {
    let shape = Shape {
        strokes: (strokes, strokes),
        drivers: (drivers, drivers),
        bells: (20, 20),
        ranks: 8,
        hold: (5, 20),
        hold_spread: 0,
        gap: (5, 20),
        call_spread: 0,
        waiting: 30,
    };
    draft(&mut Generator::new(SEED), &shape).bytes()
}

/// All called within a short time, so that strokes wait for a driver where there are more of them.
fn dense(strokes: u64, drivers: u64) -> Shape {
    Shape {
        strokes: (strokes, strokes),
        drivers: (drivers, drivers),
        bells: (60, 60),
        ranks: 8,
        hold: (20, 60),
        hold_spread: 20,
        gap: (0, 1),
        call_spread: 4,
        waiting: 30,
    }
}

/// Calls over the whole hour, so that hardly any stroke waits for another.
fn long_gaps(strokes: u64, drivers: u64) -> Shape {
    let gap = 3_500_000 / strokes;
    Shape {
        gap: (gap, gap),
        ..dense(strokes, drivers)
    }
}

/// A phrase accepted with so many states in some level, or the nearest that is found, and the fewest words for it.
fn crowded(strokes: u64, drivers: u64, states: RangeInclusive<u64>) -> (Vec<u8>, usize) {
    const TRIES: u32 = 2_000;
    let mut random = Generator::of_case(SEED, strokes * 100 + drivers);
    let mut best: Option<(Vec<u8>, usize)> = None;
    for _ in 0..TRIES {
        let shape = Shape {
            strokes: (strokes, strokes),
            drivers: (drivers, drivers),
            bells: (random.range(4, 20), 40),
            ranks: random.range(2, 30),
            hold: (random.range(1, 5), random.range(5, 40)),
            hold_spread: random.range(2, 20),
            gap: (0, random.range(0, 30)),
            call_spread: random.range(2, 60),
            waiting: random.range(0, 60),
        };
        let file = draft(&mut random, &shape).bytes();
        let pair = pair_words(&file);
        let Some(words) = accepted_words(&file, pair * *states.end() as usize) else {
            continue;
        };
        if best.as_ref().is_none_or(|(_, most)| words > *most) {
            best = Some((file, words));
        }
        if states.contains(&((words / pair) as u64)) {
            break;
        }
    }
    best.expect("some phrase is accepted")
}

/// The same phrase in version 3, every bell with a rest.
fn rested(file: &[u8]) -> Vec<u8> {
    let mut random = Generator::new(REST_SEED);
    let draft = Draft::of(&EditedPhrase::from(&phrase(file)));
    let draft = draft.expect("what was read fits its bytes");
    draft.rested(|| random.range(1, 50) as u16).bytes()
}

fn pair_words(file: &[u8]) -> usize {
    2 * words_per_state(&phrase(file)) as usize
}

fn phrase(file: &[u8]) -> Phrase {
    read(file).expect("drawn phrases are valid")
}

/// Nanoseconds of one side's calls: with no words (only reading), the check, the report.
struct Times {
    reading: f64,
    check: f64,
    report: f64,
}

impl Times {
    fn analysis(&self) -> f64 {
        self.check - self.reading
    }

    fn text(&self) -> f64 {
        self.report - self.check
    }
}

/// The library's times and this checker's, on one file and a table of so many words.
fn times(file: &[u8], words: usize) -> (Times, Times) {
    let mut table = vec![0; words];
    let mut table_again = vec![0; words];
    let mut text = vec![0; TEXT_BYTES];
    let mut text_again = vec![0; TEXT_BYTES];
    let [a, b, c, d, e, f] = nanoseconds([
        &mut || foreign::phrase_check_with(black_box(file), &mut []),
        &mut || foreign::phrase_check_with(black_box(file), &mut table),
        &mut || foreign::phrase_report_with(black_box(file), &mut table_again, &mut text) as u64,
        &mut || check(black_box(file), 0).host_number(),
        &mut || check(black_box(file), words).host_number(),
        &mut || report(black_box(file), words, &mut text_again).1 as u64,
    ]);
    let side = |reading, check, report| Times {
        reading,
        check,
        report,
    };
    (side(a, b, c), side(d, e, f))
}

/// The best time of each call in several rounds; calls take turns, so that load meets all alike.
fn nanoseconds<const N: usize>(calls: [&mut dyn FnMut() -> u64; N]) -> [f64; N] {
    const ROUNDS: u32 = 24;
    best_of(ROUNDS, calls)
}

/// The same for so many rounds after a first one, which finds how often to repeat each call.
fn best_of<const N: usize>(rounds: u32, calls: [&mut dyn FnMut() -> u64; N]) -> [f64; N] {
    const LONG_ENOUGH: Duration = Duration::from_millis(4);
    let batch = |call: &mut dyn FnMut() -> u64, repeats: u32| {
        let start = Instant::now();
        for _ in 0..repeats {
            black_box(call());
        }
        start.elapsed()
    };
    let each = |time: Duration, repeats: u32| time.as_nanos() as f64 / f64::from(repeats);
    let mut repeats = [1; N];
    let mut best = [f64::INFINITY; N];
    for n in 0..N {
        let mut time = batch(calls[n], repeats[n]);
        while time < LONG_ENOUGH {
            repeats[n] *= 2;
            time = batch(calls[n], repeats[n]);
        }
        best[n] = each(time, repeats[n]);
    }
    for _ in 0..rounds {
        for n in 0..N {
            let time = batch(calls[n], repeats[n]);
            best[n] = best[n].min(each(time, repeats[n]));
        }
    }
    best
}

fn agree(file: &[u8], words: usize) {
    let found = foreign::phrase_check_with(file, &mut vec![0; words]);
    assert_eq!(found, check(file, words).host_number(), "answers differ");
}

/// The cells of the library's time, this one's and their ratio, in µs with so many digits.
fn compared(library: f64, own: f64, digits: usize) -> String {
    let (ratio, library, own) = (library / own, library / 1e3, own / 1e3);
    format!(" {library:.digits$} | {own:.digits$} | {ratio:.2} |")
}

fn print_reading_and_report(file: &[u8]) {
    let phrase = phrase(file);
    println!(
        "| {} | {} |{}{}",
        phrase.strokes.len(),
        phrase.drivers,
        reading_and_report(file),
        reading_and_report(&rested(file))
    );
}

fn reading_and_report(file: &[u8]) -> String {
    let words = pair_words(file);
    agree(file, words);
    let (library, own) = times(file, words);
    [
        compared(library.reading, own.reading, 2),
        compared(library.text(), own.text(), 2),
        compared(library.report, own.report, 2),
    ]
    .concat()
}

fn print_reading_and_writing(file: &[u8]) {
    let phrase = phrase(file);
    let rested = rested(file);
    println!(
        "| {} | {} | {} |{} {} |{}",
        phrase.bells.len(),
        phrase.strokes.len(),
        file.len(),
        reading_and_writing(file),
        rested.len(),
        reading_and_writing(&rested)
    );
}

fn reading_and_writing(file: &[u8]) -> String {
    let edited = EditedPhrase::from(&phrase(file));
    let mut host = HostPhrase::of(&edited, || 0);
    let mut read_host = HostPhrase::zero();
    let mut buffer = vec![0; file.len()];
    let mut buffer_again = vec![0; file.len()];
    agree_on_writing(file, &edited, &mut host);
    let [library_read, own_read, library_write, own_write] = nanoseconds([
        &mut || foreign::phrase_read(black_box(file), black_box(&mut read_host)),
        &mut || match black_box(read(black_box(file))) {
            Ok(phrase) => phrase.strokes.len() as u64,
            Err(refusal) => refusal.host_number(),
        },
        &mut || foreign::phrase_write(black_box(&mut host), black_box(&mut buffer)),
        &mut || written(black_box(&edited), black_box(&mut buffer_again)),
    ]);
    compared(library_read, own_read, 3) + &compared(library_write, own_write, 3)
}

/// This writer's answer, as the host's call gives it.
fn written(phrase: &EditedPhrase, buffer: &mut [u8]) -> u64 {
    write_into(phrase, buffer).map_or_else(Refusal::host_number, |length| length as u64)
}

fn agree_on_writing(file: &[u8], phrase: &EditedPhrase, host: &mut HostPhrase) {
    let mut found = [vec![0; file.len()], vec![0; file.len()]];
    let answers = [
        foreign::phrase_write(host, &mut found[0]),
        written(phrase, &mut found[1]),
    ];
    assert_eq!(answers, [file.len() as u64; 2], "answers differ");
    assert!(found.iter().all(|found| found == file), "files differ");
}

fn print_playing(name: &str, shape: &Shape) {
    let mut random = Generator::new(SEED);
    let file = draft(&mut random, shape).bytes();
    let phrase = phrase(&file);
    let playing = playing_bytes(&scenario(&mut random, &phrase));
    let by_events_times = PlayingTimes::new(&file, &playing);
    let last_end = by_events_times.last_end;
    // Millions of milliseconds one by one take long, and so need no repetition.
    let literal_rounds = if last_end < 100_000 { 12 } else { 0 };
    let [literal] = best_of(literal_rounds, [&mut || played(&file, &playing, literally)]);
    // Rests alter no range, so the playing is one of the phrase with rests too.
    let version_3 = PlayingTimes::new(&rested(&file), &playing);
    println!(
        "| {name} | {} | {} | {last_end} | {:.3} | {:.1} | {} | {:.3} | {:.2} |{} {} |{}{}",
        phrase.strokes.len(),
        phrase.drivers,
        by_events_times.library / 1e3,
        literal / 1e3,
        two_digits(by_events_times.library / literal),
        by_events_times.own / 1e3,
        by_events_times.library / by_events_times.own,
        by_events_times.without_reading(),
        version_3.last_end,
        compared(version_3.library, version_3.own, 3),
        version_3.without_reading()
    );
}

/// Nanoseconds of a playing worked out by the library and by events here, and of what is read before it.
struct PlayingTimes {
    last_end: u64,
    library_reading: f64,
    library: f64,
    own_reading: f64,
    own: f64,
}

impl PlayingTimes {
    fn new(file: &[u8], playing: &[u8]) -> PlayingTimes {
        let last_end = agree_on_playing(file, playing);
        // An empty playing is refused as soon as the phrase is read.
        let [library_reading, library, own_reading, own] = nanoseconds([
            &mut || library_played(file, &[]),
            &mut || library_played(file, playing),
            &mut || played(file, &[], by_events),
            &mut || played(file, playing, by_events),
        ]);
        PlayingTimes {
            last_end,
            library_reading,
            library,
            own_reading,
            own,
        }
    }

    fn without_reading(&self) -> String {
        let library = self.library - self.library_reading;
        compared(library, self.own - self.own_reading, 3)
    }
}

fn library_played(file: &[u8], playing: &[u8]) -> u64 {
    let (mut starts, mut ends) = ([0; MOST_STROKES], [0; MOST_STROKES]);
    let (starts, ends) = (black_box(&mut starts), black_box(&mut ends));
    foreign::phrase_play(black_box(file), black_box(playing), starts, ends)
}

/// This player's answer, as the host's call gives it.
fn played(file: &[u8], playing: &[u8], run: fn(&Phrase, &Scenario) -> Played) -> u64 {
    let played = black_box(play_by(black_box(file), black_box(playing), run));
    played.map_or_else(Refusal::host_number, |_| 0)
}

/// The library has the starts and ends of the run by events, which tests hold against the literal one; gives the last end.
fn agree_on_playing(file: &[u8], playing: &[u8]) -> u64 {
    let expected = play_by(file, playing, by_events).expect("drawn playings are in range");
    let (mut starts, mut ends) = ([0; MOST_STROKES], [0; MOST_STROKES]);
    let answer = foreign::phrase_play(file, playing, &mut starts, &mut ends);
    assert_eq!(answer, 0, "answers differ");
    let found = Played {
        starts: starts.map(u64::from),
        ends: ends.map(u64::from),
    };
    assert!(found == expected, "runs differ");
    expected.ends.into_iter().max().unwrap_or(0)
}

/// A ratio far below 1, with two digits that say something.
fn two_digits(ratio: f64) -> String {
    let places = 1 - ratio.log10().floor() as i32;
    format!("{ratio:.*}", places.max(2) as usize)
}

/// A phrase in a table of so many words, or of a part of them; in version 3 in one that is as long for what that phrase takes.
fn print_analysis(file: &[u8], words: usize, part: usize) {
    let phrase = phrase(file);
    let rested = rested(file);
    let rested_words = rested_words(&rested, words) / part;
    let words = words / part;
    let row = Analysis::new(file, words);
    let (edges, states) = (row.walk.edges as f64, row.walk.states as f64);
    let version_3 = Analysis::new(&rested, rested_words);
    println!(
        "| {} | {} | {words} | {} | {} | {} |{} {:.0} | {:.0} | {:.0} | {:.0} | {rested_words} | {} | {} |{}",
        phrase.strokes.len(),
        phrase.drivers,
        row.answer,
        row.walk.states,
        row.walk.edges,
        row.milliseconds(),
        row.library / edges,
        row.own / edges,
        states * 1e9 / row.library,
        states * 1e9 / row.own,
        version_3.answer,
        version_3.walk.states,
        version_3.milliseconds()
    );
}

/// The fewest words with which the phrase with rests is accepted. Levels of many more states than without rests take too long:
/// then so many as have room for those timed here.
fn rested_words(file: &[u8], words_without: usize) -> usize {
    const MOST_STATES: usize = 3_000;
    let most = words_without.max(MOST_STATES * pair_words(file));
    accepted_words(file, most).unwrap_or(most)
}

/// An answer, what the walk took for it, and nanoseconds of the library and of this checker.
struct Analysis {
    answer: String,
    walk: Walk,
    library: f64,
    own: f64,
}

impl Analysis {
    fn new(file: &[u8], words: usize) -> Analysis {
        agree(file, words);
        let (library, own) = times(file, words);
        Analysis {
            answer: match check(file, words).host_number() {
                0 => "accepted".to_string(),
                number => format!("{} at {}", number >> 32, number as u32),
            },
            walk: walk(&phrase(file), words),
            library: library.analysis(),
            own: own.analysis(),
        }
    }

    fn milliseconds(&self) -> String {
        let (library, own) = (self.library / 1e6, self.own / 1e6);
        format!(" {library:.3} | {own:.3} | {:.2} |", library / own)
    }
}
