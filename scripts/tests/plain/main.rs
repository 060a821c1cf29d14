//! What `mte_tool` does, in plain Rust and not proved: for a machine without the toolchain, and the
//! yardstick of `scripts/bench`.
//!
//! The commands, the formats, the algorithms, the heap and its options are those of `mte_tool`, and
//! so is each output and each fault byte for byte, but for help and refused words. Besides there is
//! `events`, which writes a million seeded events:
//!
//!     rustc -O --edition 2021 scripts/tests/plain/main.rs -o plain
//!     ./plain events --seed 1 > million.trace
//!     ./plain run --limit 8 < million.trace

mod allocator;
mod checker;
mod faults;
mod fitter;
mod formats;
mod generator;
mod heap;
mod history;
mod history_spans;
mod lines;
mod memory;
mod options;
mod profile;
mod replay;
mod score;
mod sheet;
mod spans;
mod text;
mod timeline;
mod trace;
mod tuner;

use faults::{Fault, WRITE_FAULT};
use generator::Generator;
use heap::Settings;
use history::History;
use lines::each_line;
use options::{is_help, Options};
use profile::Profile;
use replay::Replay;
use score::read_classes;
use sheet::{push_line, Sheet, FOOTPRINT, WASTE};
use std::io::Write;
use std::process::ExitCode;
use text::{push_number, read_all, read_first, Scanner, PIECE};
use timeline::{is_timeline, read_moments, Found, Timeline};
use trace::Event;

#[global_allocator]
static ALLOCATOR: allocator::OrEnds = allocator::OrEnds;

const EVENTS: usize = 1_000_000;

const COMMANDS: [&str; 11] = [
    "events",
    "score",
    "tune",
    "check",
    "footprint",
    "fit",
    "check-fit",
    "peaks",
    "profile",
    "replay",
    "run",
];

const NO: ExitCode = ExitCode::FAILURE;

const HELP: &str = "\
The commands of mte_tool in plain Rust: the same outputs, and nothing is proved of them.

Usage: plain COMMAND [--NAME N ..] < INPUT

  score      a class line and a profile: how many bytes the table wastes
  tune       a profile: the best table, as a sheet; --limit K (1 to 32), --step S (1, 2, 4 or 8),
             --largest-class L (1: with class 1024)
  check      a sheet and a profile: whether the sheet proves its table a best one; --claim (one
             more line: what was shown of what)
  footprint  a class line and a history or a timeline: how many bytes the table takes at its most
  fit        a history or a timeline: the table of least footprint, as a fit; the options of tune
  check-fit  a fit and a history or a timeline: whether the fit proves its table one of least
             footprint; --claim
  peaks      a class line and a timeline: the most live blocks of each class, and when; the most
             bytes of live blocks, and the most freed blocks
  profile    a trace: its profile
  replay     a class line and a trace: the tagged heap's report; --granules, --seed, --quarantine
  run        a trace: its best table, and the report with it; --limit, --step, those of replay
  events     a million events, from no input; --seed

--first-lines N (1 to 64), of score, check, footprint, check-fit and peaks: so many lines are the
first text.

Exit status: 0 done; 1 the verdict is no; 2 words or input are refused; 3 a read or a write failed.
docs/FORMATS.md has the formats and the codes of faults, `error CODE NAME line L`.
";

fn main() -> ExitCode {
    let words = std::env::args_os().skip(1).map(|word| word.into_string());
    let not_text = |_| Fault::Words("a word of the command line is not UTF-8".to_string());
    let words = words.collect::<Result<Vec<String>, _>>().map_err(not_text);
    let mut out = std::io::stdout().lock();
    words
        .and_then(|words| answer(words, &mut out))
        .unwrap_or_else(|fault| {
            eprintln!("{fault}");
            ExitCode::from(fault.status())
        })
}

fn answer(words: Vec<String>, out: &mut impl Write) -> Result<ExitCode, Fault> {
    let mut words = words.into_iter();
    let command = match words.next() {
        Some(command) => command,
        None => {
            eprint!("{HELP}");
            return Ok(ExitCode::from(2));
        }
    };
    if command == "-V" || command == "--version" {
        return written(out, b"plain 1.0.0\n");
    }
    let is_of_help = match words.as_slice() {
        [] => command == "help",
        [of] => command == "help" && (of == "help" || COMMANDS.contains(&of.as_str())),
        _ => false,
    };
    if is_help(&command) || is_of_help {
        return written(out, HELP.as_bytes());
    }
    if !COMMANDS.contains(&command.as_str()) {
        return Err(Fault::Words(format!("there is no command {command:?}")));
    }
    let options = match Options::new(&command, words)? {
        Some(options) => options,
        None => return written(out, HELP.as_bytes()),
    };
    match command.as_str() {
        "events" => events(&options, out),
        "score" => score(&options, out),
        "tune" => tune(&options, out),
        "check" => check(&options, out),
        "footprint" => footprint(&options, out),
        "fit" => fit(&options, out),
        "check-fit" => check_fit(&options, out),
        "peaks" => peaks(&options, out),
        "profile" => profile(out),
        "replay" => replay(&options, out),
        _ => run(&options, out),
    }
}

fn written(out: &mut impl Write, text: &[u8]) -> Result<ExitCode, Fault> {
    write(out, text)?;
    Ok(ExitCode::SUCCESS)
}

fn write(out: &mut impl Write, text: &[u8]) -> Result<(), Fault> {
    out.write_all(text).map_err(|_| WRITE_FAULT)
}

fn events(options: &Options, out: &mut impl Write) -> Result<ExitCode, Fault> {
    let mut generator = Generator::new(options.seed()?);
    let mut text = Vec::new();
    for _ in 0..EVENTS {
        generator.next_event().write(&mut text);
        if text.len() >= PIECE {
            write(out, &text)?;
            text.clear();
        }
    }
    written(out, &text)
}

fn score(options: &Options, out: &mut impl Write) -> Result<ExitCode, Fault> {
    let lines = options.first_lines()?;
    let input = read_all()?;
    let read = read_first(&input, lines, read_classes)
        .and_then(|(classes, mut text)| Some((classes, Profile::read(&mut text)?)));
    let (classes, profile) = read.ok_or_else(|| faults::in_scored(&input, lines))?;
    write_cost(WASTE, score::waste(&classes, &profile), out)
}

fn footprint(options: &Options, out: &mut impl Write) -> Result<ExitCode, Fault> {
    let lines = options.first_lines()?;
    let input = read_all()?;
    let read = read_first(&input, lines, read_classes).and_then(|(classes, mut text)| {
        if is_timeline(text.rest()) {
            return Some(Timeline::read(&mut text)?.footprint(&classes));
        }
        Some(History::read(&mut text)?.footprint(&classes))
    });
    write_cost(
        FOOTPRINT,
        read.ok_or_else(|| faults::in_footprint(&input, lines))?,
        out,
    )
}

fn peaks(options: &Options, out: &mut impl Write) -> Result<ExitCode, Fault> {
    let lines = options.first_lines()?;
    let input = read_all()?;
    let read = read_first(&input, lines, read_classes)
        .and_then(|(classes, mut text)| Some(Timeline::read(&mut text)?.table_peaks(&classes)));
    match read.ok_or_else(|| faults::in_peaks(&input, lines))? {
        Ok(lines) => written(out, &lines),
        Err(size) => write_cost(b"", Err(size), out),
    }
}

// the cost of a table with its word, or the least counted size that the table does not serve
fn write_cost(
    word: &[u8],
    cost: Result<u64, usize>,
    out: &mut impl Write,
) -> Result<ExitCode, Fault> {
    let (word, number, status) = match cost {
        Ok(cost) => (word, cost, ExitCode::SUCCESS),
        Err(size) => (&b"not serving"[..], size as u64, NO),
    };
    let mut line = word.to_vec();
    line.push(b' ');
    push_number(&mut line, number);
    line.push(b'\n');
    write(out, &line)?;
    Ok(status)
}

fn tune(options: &Options, out: &mut impl Write) -> Result<ExitCode, Fault> {
    let (limit, step) = (options.limit()?, options.step()?);
    let forced = options.largest_class()?;
    let input = read_all()?;
    let profile = Profile::read(&mut Scanner::new(&input));
    let profile = profile.ok_or_else(|| faults::in_profile(&input))?;
    let mut text = Vec::new();
    tuner::tune(&profile, limit, step, forced).write(&mut text, WASTE);
    written(out, &text)
}

fn fit(options: &Options, out: &mut impl Write) -> Result<ExitCode, Fault> {
    let (limit, step) = (options.limit()?, options.step()?);
    let forced = options.largest_class()?;
    let input = read_all()?;
    if is_timeline(&input) {
        let timeline = Timeline::read(&mut Scanner::new(&input));
        let timeline = timeline.ok_or_else(|| faults::in_history(&input))?;
        return write_found(timeline.fit(limit, step, forced), out);
    }
    let history = History::read(&mut Scanner::new(&input));
    let history = history.ok_or_else(|| faults::in_history(&input))?;
    let mut text = Vec::new();
    fitter::fit(&history, limit, step, forced).write(&mut text, FOOTPRINT);
    written(out, &text)
}

fn write_found(found: Found, out: &mut impl Write) -> Result<ExitCode, Fault> {
    let mut text = Vec::new();
    match found {
        Found::Least(fit, moments) => {
            fit.write(&mut text, FOOTPRINT);
            let numbers: Vec<u64> = moments.iter().map(|moment| *moment as u64).collect();
            push_line(&mut text, b"moments", &numbers);
            written(out, &text)
        }
        Found::Between(classes, takes, bound) => {
            let classes: Vec<u64> = classes.iter().map(|class| u64::from(*class)).collect();
            push_line(&mut text, b"classes", &classes);
            push_line(&mut text, FOOTPRINT, &[takes]);
            push_line(
                &mut text,
                b"not shown least: no table takes less than",
                &[bound],
            );
            write(out, &text)?;
            Ok(NO)
        }
    }
}

fn check(options: &Options, out: &mut impl Write) -> Result<ExitCode, Fault> {
    let lines = options.first_lines()?;
    let has_claim = options.claim()?;
    let input = read_all()?;
    let read = read_first(&input, lines, |text| Sheet::read(text, WASTE))
        .and_then(|(sheet, mut text)| Some((sheet, Profile::read(&mut text)?)));
    let (sheet, profile) = read.ok_or_else(|| faults::in_checked(&input, lines))?;
    let claim = has_claim.then(|| sheet.claim("waste", &profile.counted()));
    write_verdict(checker::refusal(&profile, &sheet), claim, out)
}

fn check_fit(options: &Options, out: &mut impl Write) -> Result<ExitCode, Fault> {
    let lines = options.first_lines()?;
    let has_claim = options.claim()?;
    let input = read_all()?;
    let read_fit = |text: &mut Scanner| Some((Sheet::read(text, FOOTPRINT)?, read_moments(text)?));
    let read = read_first(&input, lines, read_fit).and_then(|((fit, moments), mut text)| {
        let (refusal, counted) = match moments {
            Some(moments) => {
                let timeline = Timeline::read(&mut text)?;
                (timeline.refusal(&moments, &fit), timeline.counted_words())
            }
            None => {
                let history = History::read(&mut text)?;
                (fitter::refusal(&history, &fit), history.counted())
            }
        };
        let claim = has_claim.then(|| fit.claim("footprint", &counted));
        Some((refusal, claim))
    });
    let (refusal, claim) = read.ok_or_else(|| faults::in_checked_fit(&input, lines))?;
    write_verdict(refusal, claim, out)
}

// the verdict, and after `optimal` the line of the claim, if it is asked for
fn write_verdict(
    refusal: Option<&str>,
    claim: Option<String>,
    out: &mut impl Write,
) -> Result<ExitCode, Fault> {
    match refusal {
        Some(refusal) => {
            write(out, format!("refused {refusal}\n").as_bytes())?;
            Ok(NO)
        }
        None => written(
            out,
            format!("optimal\n{}", claim.unwrap_or_default()).as_bytes(),
        ),
    }
}

fn profile(out: &mut impl Write) -> Result<ExitCode, Fault> {
    let mut profile = Profile::new();
    let take = |event: Event| {
        if let Some(n) = event.request() {
            profile.add(n);
        }
    };
    each_event(take)?;
    let mut text = Vec::new();
    profile.write(&mut text);
    written(out, &text)
}

fn replay(options: &Options, out: &mut impl Write) -> Result<ExitCode, Fault> {
    let settings = options.heap()?;
    let mut classes = None;
    let mut events = Vec::new();
    each_line(
        |text, number| {
            if number == 1 {
                let mut text = Scanner::new(text);
                classes = Some(read_classes(&mut text)?);
                return Some(text.passed());
            }
            let (event, len) = Event::read(text)?;
            events.push(event);
            (number <= EVENTS + 1).then_some(len)
        },
        |line, number| match number {
            1 => {
                faults::in_class_line(Some(line)).expect("a class line that was refused is faulty")
            }
            _ => faults::in_trace(line, number, 1),
        },
    )?;
    let classes = classes.ok_or(faults::BAD_CLASS_LINE)?;
    write_report(&classes, &settings, &events, out)
}

fn run(options: &Options, out: &mut impl Write) -> Result<ExitCode, Fault> {
    let settings = options.heap()?;
    let (limit, step) = (options.limit()?, options.step()?);
    let mut events = Vec::new();
    each_event(|event| events.push(event))?;
    let mut profile = Profile::new();
    for n in events.iter().filter_map(Event::request) {
        profile.add(n);
    }
    let sheet = tuner::tune(&profile, limit, step, false);
    let mut text = Vec::new();
    sheet.write(&mut text, WASTE);
    write(out, &text)?;
    write_report(&sheet.classes, &settings, &events, out)
}

// hands out the events of standard input
fn each_event(mut take: impl FnMut(Event)) -> Result<(), Fault> {
    each_line(
        |text, number| {
            let (event, len) = Event::read(text)?;
            take(event);
            (number <= EVENTS).then_some(len)
        },
        |line, number| faults::in_trace(line, number, 0),
    )
}

fn write_report(
    classes: &[u32],
    settings: &Settings,
    events: &[Event],
    out: &mut impl Write,
) -> Result<ExitCode, Fault> {
    let mut replay = Replay::new(classes, settings);
    let mut report = Vec::with_capacity(2 * PIECE);
    for event in events {
        replay.step(event, &mut report);
        if report.len() >= PIECE {
            write(out, &report)?;
            report.clear();
        }
    }
    replay.write_totals(&mut report);
    written(out, &report)
}
