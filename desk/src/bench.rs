//! `desk bench`: the time of the proved and the second engine on the same models and tapes.

use crate::args::*;
use crate::files;
use crate::proved::{self, Engine};
use crate::random::{command_for, fullest, Rng};
use crate::second::*;
use crate::text::model_parse::parse_model;
use std::hint::black_box;
use std::time::Instant;

/// The commands of a tape that is run as a whole, and of one that is walked by public steps.
const TAPE: usize = 100_000;
const WALK: usize = 10_000;
/// How often a file is loaded and written and a configuration copied in one run.
const LOADS: usize = 200;
const WRITES: usize = 200;
const COPIES: usize = 100_000;

/// The row of the full model in which the checks of its blocks are timed in place of the second engine.
const CHECKS: &str = "write / 43 checks";

/// As large as model P of the rules, but it never ends.
const SMALL: &str = "
subject scheduler starts
  state measure internal
    -> measure
    -> report
  state report send reading to valve
    -> look
    cancel -> measure
  state look ask-empty any from any
    empty -> measure
    not-empty -> measure
subject valve starts
  limit any from scheduler 1
  state wait receive
    reading from scheduler -> act
    timeout 3 -> act
  state act internal
    -> wait
";

/// A model with its bytes and its file, where it starts, and the tapes for it.
struct Course {
    name: &'static str,
    model: Vec<u8>,
    file: Vec<u8>,
    start: Config,
    tapes: Vec<(&'static str, Vec<u8>)>,
}

/// One thing that is timed: for both engines what runs it once and gives the nanoseconds, and what it gave so far.
struct Row<'a> {
    model: &'static str,
    what: String,
    proved: Box<dyn Fn() -> f64 + 'a>,
    second: Box<dyn Fn() -> f64 + 'a>,
    times: Vec<Times>,
}

/// The nanoseconds of one run for both engines, and for a plain copy right before and right after the proved one.
struct Times {
    proved: f64,
    second: f64,
    copy: f64,
}

/// Times both engines and prints a table in Markdown.
pub fn main(given: &[String]) -> Outcome {
    let args = Args::sort(given, &["--runs", "--only"], &[])?;
    args.expect(&[])?;
    let runs = args.number("--runs")?.unwrap_or(10);
    if !(1..=1000).contains(&runs) {
        return usage(format!("--runs: '{runs}' is no number from 1 to 1000"));
    }
    let engine = proved::engine()?;
    let only = args.option("--only").unwrap_or("");
    let all = [small(), middle(), large(), full()];
    let of = |course| rows_of(engine.as_ref(), course);
    let mut rows: Vec<Row> = all.iter().flat_map(of).collect();
    rows.push(checks_row(engine.as_ref(), &all[3]));
    rows.retain(|row| format!("{} {}", row.model, row.what).contains(only));
    if rows.is_empty() {
        return usage(format!("--only: no row has '{only}' in 'MODEL WHAT'"));
    }
    if cfg!(debug_assertions) {
        files::print(
            "This is a debug build: the numbers say little. Use 'cargo build --release'.\n\n",
        )?;
    }
    for run in 0..runs {
        for row in &mut rows {
            let times = one_time(row, &all[0].start, run % 2 == 1);
            row.times.push(times);
        }
    }
    files::print(&table(&rows, runs))
}

impl<'a> Row<'a> {
    /// A row that has not been timed yet.
    fn of(
        s: &Course,
        what: &str,
        proved: impl Fn() -> f64 + 'a,
        second: impl Fn() -> f64 + 'a,
    ) -> Row<'a> {
        Row {
            model: s.name,
            what: what.to_string(),
            proved: Box::new(proved),
            second: Box::new(second),
            times: Vec::new(),
        }
    }
}

/// What is timed with a model: loading, writing, and every tape as a whole and by public steps.
fn rows_of<'a>(engine: &'a dyn Engine, s: &'a Course) -> Vec<Row<'a>> {
    let mut rows = vec![
        Row::of(s, "load", || load_proved(engine, s), || load_second(s)),
        Row::of(s, "write", || write_proved(engine, s), || write_second(s)),
    ];
    for (name, tape) in &s.tapes {
        rows.push(Row::of(
            s,
            &format!("tape step, {name}"),
            || run_proved(engine, s, tape),
            || run_second(s, tape),
        ));
    }
    for (name, tape) in &s.tapes {
        let tape = &tape[..WALK * 8];
        rows.push(Row::of(
            s,
            &format!("public step, {name}"),
            || walk_proved(engine, s, tape),
            || walk_second(s, tape),
        ));
    }
    rows
}

/// Writing by the proved engine beside the checks of all blocks alone in plain Rust.
fn checks_row<'a>(engine: &'a dyn Engine, s: &'a Course) -> Row<'a> {
    Row::of(s, CHECKS, || write_proved(engine, s), || checks_alone(s))
}

/// Times both engines once, in either order, and copies of a configuration around the proved one.
fn one_time(row: &Row, config: &Config, second_first: bool) -> Times {
    let mut second = 0.0;
    if second_first {
        second = (row.second)();
    }
    let before = copy_time(config);
    let proved = (row.proved)();
    let copy = (before + copy_time(config)) / 2.0;
    if !second_first {
        second = (row.second)();
    }
    Times {
        proved,
        second,
        copy,
    }
}

/// Nanoseconds for each of `count` parts of some work.
fn time(count: usize, work: impl FnOnce()) -> f64 {
    let began = Instant::now();
    work();
    began.elapsed().as_nanos() as f64 / count as f64
}

fn load_proved(engine: &dyn Engine, s: &Course) -> f64 {
    let mut room = vec![0; MODEL_BYTES];
    time(LOADS, || {
        for _ in 0..LOADS {
            black_box(engine.load(black_box(&s.file), &mut room));
        }
    })
}

/// The second engine loads and writes the same bytes.
fn load_second(s: &Course) -> f64 {
    time(LOADS, || {
        for _ in 0..LOADS {
            let model = load(black_box(&s.file)).unwrap_or_default();
            black_box(model.to_bytes());
        }
    })
}

fn write_proved(engine: &dyn Engine, s: &Course) -> f64 {
    let mut room = vec![0; s.file.len()];
    time(WRITES, || {
        for _ in 0..WRITES {
            black_box(engine.write(black_box(&s.model), &mut room));
        }
    })
}

/// The second engine reads the same bytes; it writes the model, loads what it wrote and compares.
fn write_second(s: &Course) -> f64 {
    let mut room = vec![0; s.file.len()];
    time(WRITES, || {
        for _ in 0..WRITES {
            let model = Model::from_bytes(black_box(&s.model)).unwrap_or_default();
            let _ = black_box(write(&model, &mut room));
        }
    })
}

/// The checks of all blocks of the file and nothing else.
fn checks_alone(s: &Course) -> f64 {
    time(WRITES, || {
        for _ in 0..WRITES {
            for block in black_box(&s.file).chunks_exact(BLOCK) {
                black_box(check(&block[..508]));
            }
        }
    })
}

fn run_proved(engine: &dyn Engine, s: &Course, tape: &[u8]) -> f64 {
    let count = tape.len() / 8;
    let mut lines = vec![0; numbers_of(tape)];
    let mut config = s.start.to_bytes();
    time(count, || {
        black_box(engine.run(&s.file, &mut config, tape, &mut lines));
    })
}

/// The second engine loads the file too, as the proved one does.
fn run_second(s: &Course, tape: &[u8]) -> f64 {
    let mut config = s.start;
    time(tape.len() / 8, || {
        let model = load(&s.file).unwrap_or_default();
        let _ = black_box(run_tape(&model, &mut config, tape, numbers_of(tape)));
    })
}

fn walk_proved(engine: &dyn Engine, s: &Course, tape: &[u8]) -> f64 {
    let mut config = s.start.to_bytes();
    time(tape.len() / 8, || {
        black_box(engine.walk(&s.file, &mut config, tape));
    })
}

fn walk_second(s: &Course, tape: &[u8]) -> f64 {
    let mut config = s.start;
    time(tape.len() / 8, || {
        let model = load(&s.file).unwrap_or_default();
        for piece in tape.chunks_exact(8) {
            let mut bytes = [0; 8];
            bytes.copy_from_slice(piece);
            black_box(step_coded(&model, &mut config, bytes));
        }
    })
}

/// Nanoseconds for a plain copy of a configuration.
fn copy_time(config: &Config) -> f64 {
    let mut to = *config;
    time(COPIES, || {
        for _ in 0..COPIES {
            to = *black_box(config);
            black_box(&mut to);
        }
    })
}

/// The small model at its fresh start.
fn small() -> Course {
    let model = parse_model(SMALL).map_or_else(|e| panic!("{e}"), |named| named.model);
    let start = fresh(&model).1;
    course("small", model, start, &[0])
}

/// Four subjects of ten states: two schedulers, each with its valve.
fn middle() -> Course {
    let text = scheduler("1") + &valve("1") + &scheduler("2") + &valve("2");
    let model = parse_model(&text).map_or_else(|e| panic!("{e}"), |named| named.model);
    let start = fresh(&model).1;
    course("middle", model, start, &[0, 2])
}

/// A scheduler that measures, reports and looks three times, and rests.
fn scheduler(name: &str) -> String {
    let mut text = format!("subject scheduler{name} starts\n");
    for (i, next) in [(1, "measure2"), (2, "measure3"), (3, "rest")] {
        text += &format!(
            "  state measure{i} internal\n    -> measure{i}\n    -> report{i}\n\
             \x20 state report{i} send reading to valve{name}\n    -> look{i}\n    cancel -> measure{i}\n\
             \x20 state look{i} ask-empty any from any\n    empty -> {next}\n    not-empty -> {next}\n"
        );
    }
    text + "  state rest internal\n    -> measure1\n"
}

/// A valve that waits and acts five times.
fn valve(name: &str) -> String {
    let mut text = format!("subject valve{name} starts\n  limit any from scheduler{name} 1\n");
    for (i, next) in [(1, 2), (2, 3), (3, 4), (4, 5), (5, 1)] {
        text += &format!(
            "  state wait{i} receive\n    reading from scheduler{name} -> act{i}\n    timeout 3 -> act{i}\n\
             \x20 state act{i} internal\n    -> wait{next}\n"
        );
    }
    text
}

/// Sixteen subjects of thirty states whose pools are full but for one place.
fn large() -> Course {
    let mut model = Model {
        start: u16::MAX,
        subjects: Vec::new(),
    };
    for s in 0..16u8 {
        model.subjects.push(Subject {
            initial: 0,
            states: (0..5)
                .flat_map(|group| large_states(s, group * 6))
                .collect(),
            limits: large_limits(s),
        });
    }
    let mut start = fresh(&model).1;
    for (s, actor) in (0u8..).zip(&mut start.subjects) {
        for i in 0..15 {
            let sender = (s + 16 - 1 - i % 3) % 16;
            actor.pool.push(Entry {
                sender,
                typ: sender % 4,
                message: true,
                content: u32::from(i),
            });
        }
    }
    let all: Vec<u8> = (0..16).collect();
    course("large", model, start, &all)
}

/// The model with the longest file there is, 43 blocks; it is only loaded and written.
fn full() -> Course {
    let model = fullest(0);
    Course {
        name: "full",
        model: model.to_bytes(),
        file: file_of(&model),
        start: fresh(&model).1,
        tapes: Vec::new(),
    }
}

/// Six states from number `at` on: internal, send, receive, ask-empty, close, open.
fn large_states(s: u8, at: u8) -> Vec<State> {
    let exit = |target: u8, sender: u8, typ: u8| Exit {
        target: target % 30,
        sender,
        typ,
    };
    let plain = |kind: u8, exits: Vec<Exit>| State {
        exits,
        ..State::plain(kind)
    };
    let next = |step: u8| exit(at + step, ANY, ANY);
    let from = |back: u8| (s + 16 - back) % 16;
    let receives = (1..4).map(|back| exit(at + 3, from(back), from(back) % 4));
    let to = |ahead: u8| bit(usize::from((s + ahead) % 16));
    vec![
        plain(INTERNAL, vec![next(6), next(1), next(2)]),
        State {
            receivers: to(1) | to(2) | to(3),
            duration: 5,
            timeout: at,
            cancel: at,
            ..plain(SEND, vec![exit(at + 2, ANY, s % 4)])
        },
        State {
            duration: 2,
            timeout: at + 3,
            cancel: at + 3,
            ..plain(RECEIVE, receives.collect())
        },
        plain(ASK_EMPTY, vec![next(4), next(4)]),
        State {
            sender: from(1),
            ..plain(CLOSE, vec![next(5)])
        },
        plain(OPEN, vec![next(6)]),
    ]
}

/// Eight rows: two for each of the three senders, one for a type, one for all.
fn large_limits(s: u8) -> Vec<Limit> {
    let mut limits = Vec::new();
    for back in 1..4 {
        let sender = (s + 16 - back) % 16;
        for typ in [sender % 4, ANY] {
            let limit = 6;
            limits.push(Limit { sender, typ, limit });
        }
    }
    for typ in [0, ANY] {
        let (sender, limit) = (ANY, 16);
        limits.push(Limit { sender, typ, limit });
    }
    limits.sort_by_key(|l| (l.sender, l.typ));
    limits
}

/// The commands of one subject that does, reserves and cancels.
fn send_and_cancel(subject: u8) -> Vec<Command> {
    let (exit, word) = (1, 35);
    vec![
        Command::Do {
            subject,
            exit,
            word,
        },
        Command::Reserve { subject },
        Command::Cancel { subject },
    ]
}

/// The command of one subject that only does.
fn do_only(subject: u8) -> Vec<Command> {
    let (exit, word) = (0, 7);
    vec![Command::Do {
        subject,
        exit,
        word,
    }]
}

/// A tape in which the subjects take turns.
fn turns(subjects: &[u8], turn: fn(u8) -> Vec<Command>) -> Vec<u8> {
    let commands = subjects.iter().cycle().flat_map(|s| turn(*s));
    commands.take(TAPE).flat_map(|c| c.encode()).collect()
}

/// A model with its four tapes; the actors take turns in two of them.
fn course(name: &'static str, model: Model, start: Config, actors: &[u8]) -> Course {
    let tapes = vec![
        ("ticks", Command::Tick.encode().repeat(TAPE)),
        ("do", turns(actors, do_only)),
        ("do/reserve/cancel", turns(actors, send_and_cancel)),
        ("mix", mixed_tape(&model, &start)),
    ];
    Course {
        name,
        model: model.to_bytes(),
        file: file_of(&model),
        start,
        tapes,
    }
}

/// A tape of all commands, each accepted where it stands. Takes leave the pools nearly as full as they were.
fn mixed_tape(model: &Model, start: &Config) -> Vec<u8> {
    let mut rng = Rng::new(1);
    let full = |c: &Config, s: u8| {
        let s = usize::from(s);
        c.subjects[s].pool.count + 3 >= start.subjects[s].pool.count
    };
    let mut config = *start;
    let mut tape = Vec::with_capacity(TAPE * 8);
    while tape.len() < TAPE * 8 {
        let mut command = Command::Tick;
        if rng.chance(90) {
            let subject = rng.below(model.n()) as u8;
            command = command_for(&mut rng, model, &config, subject);
        }
        if matches!(command, Command::Take { subject, .. } if !full(&config, subject)) {
            continue;
        }
        if step_valid(model, &mut config, command).refusal() == 0 {
            tape.extend(command.encode());
        }
    }
    tape
}

/// The middle of some numbers, and the least and the most.
fn spread(times: &[f64]) -> (f64, f64, f64) {
    let mut sorted = times.to_vec();
    sorted.sort_by(f64::total_cmp);
    let half = sorted.len() / 2;
    let median = match sorted.len() % 2 {
        0 => (sorted[half - 1] + sorted[half]) / 2.0,
        _ => sorted[half],
    };
    (median, sorted[0], sorted[sorted.len() - 1])
}

/// The table in Markdown.
fn table(rows: &[Row], runs: u64) -> String {
    let bytes = std::mem::size_of::<Config>();
    let mut text = format!(
        "Median of {runs} runs (least to most). A copy is a plain copy of a configuration ({bytes} bytes), timed right before \
         and after every time of the proved engine. In the row '{CHECKS}' the second time is that of computing these checks \
         alone, in plain Rust.\n\n"
    );
    text += "| model | what | proved, ns | second, ns | proved / second | a copy, ns | proved / copy |\n";
    text += "|---|---|---:|---:|---:|---:|---:|\n";
    for row in rows {
        let cell = |show: fn(f64) -> String, of: fn(&Times) -> f64| {
            let times: Vec<f64> = row.times.iter().map(of).collect();
            let (median, least, most) = spread(&times);
            format!("{} ({} to {})", show(median), show(least), show(most))
        };
        text += &format!(
            "| {} | {} | {} | {} | {} | {} | {} |\n",
            row.model,
            row.what,
            cell(ns, |t| t.proved),
            cell(ns, |t| t.second),
            cell(ratio, |t| t.proved / t.second),
            cell(ns, |t| t.copy),
            cell(ratio, |t| t.proved / t.copy),
        );
    }
    text
}

/// A ratio with two places.
fn ratio(value: f64) -> String {
    format!("{value:.2}")
}

/// Nanoseconds: with one place below 100.
fn ns(value: f64) -> String {
    if value < 99.95 {
        format!("{value:.1}")
    } else {
        format!("{value:.0}")
    }
}

#[cfg(test)]
mod tests {
    use super::*;
    use crate::compare::stand_in::{Fault, StandIn};

    #[test]
    fn models_and_starts_are_valid_and_every_command_is_accepted() {
        for s in [small(), middle(), large()] {
            let model = load(&s.file).unwrap();
            assert!(config_valid(&model, &s.start), "{}", s.name);
            for (name, tape) in &s.tapes {
                assert_eq!(tape.len(), TAPE * 8);
                let mut config = s.start;
                let lines = run_tape(&model, &mut config, tape, numbers_of(tape)).unwrap();
                assert!(lines.iter().all(|l| l.refusal == 0), "{} {name}", s.name);
                let codes = |c: u8| lines.iter().filter(|l| l.code == c).count();
                let counts: Vec<usize> = (1..9).map(codes).collect();
                println!("{} {name}: {counts:?}", s.name);
                assert!(*name != "mix" || counts.iter().all(|c| *c > 1_000));
                let pools: usize = config.subjects.iter().map(|a| a.pool.used().len()).sum();
                println!("entries at the end {pools}");
                assert!(s.name != "large" || pools >= 170, "{name}: {pools}");
            }
        }
    }

    #[test]
    fn the_full_model_has_43_blocks() {
        let s = full();
        assert!(load(&s.file).is_ok_and(|m| m.to_bytes() == s.model));
        let kinds = |kind: u8| s.file.chunks(BLOCK).filter(|b| b[2] == kind).count();
        let blocks = [HEADER_BLOCK, STATE_BLOCK, EXIT_BLOCK, LIMIT_BLOCK].map(kinds);
        assert_eq!(blocks, [1, 13, 25, 4]);
    }

    #[test]
    fn the_full_model_is_written_beside_its_checks() {
        let (engine, s) = (StandIn(Fault::Whole), full());
        let mut rows = rows_of(&engine, &s);
        rows.push(checks_row(&engine, &s));
        for row in &mut rows {
            let times = one_time(row, &s.start, false);
            row.times.push(times);
        }
        let text = table(&rows, 1);
        for what in ["load", "write", CHECKS] {
            assert!(text.contains(&format!("\n| full | {what} | ")), "{text}");
        }
    }

    #[test]
    fn a_configuration_has_its_size() {
        assert_eq!(std::mem::size_of::<Config>(), 3_328);
    }

    #[test]
    fn the_middle_of_some_numbers() {
        assert_eq!(spread(&[3.0, 1.0, 2.0]), (2.0, 1.0, 3.0));
        assert_eq!(spread(&[4.0, 1.0, 2.0, 3.0]), (2.5, 1.0, 4.0));
    }
}
