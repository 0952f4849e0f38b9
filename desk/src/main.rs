//! The test desk: builds, shows, runs and explores the models of the controller.

mod args;
mod bench;
mod build;
mod compare;
mod explore;
mod files;
#[cfg(test)]
mod properties;
mod proved;
mod random;
mod run;
mod second;
mod show;
mod tape;
mod text;

use args::{usage, Outcome, Stop};
use std::process::ExitCode;

/// One subcommand: its name, how it is used, what it does, an example, and its function.
struct Subcommand {
    name: &'static str,
    form: &'static str,
    does: &'static str,
    example: &'static str,
    main: fn(&[String]) -> Outcome,
}

#[rustfmt::skip]
const SUBCOMMANDS: &[Subcommand] = &[
    Subcommand { name: "build", form: "MODEL.txt -o MODEL.bin", does: BUILD, example: "desk build greenhouse.txt -o greenhouse.bin", main: build::main },
    Subcommand { name: "show", form: "MODEL.bin [--records]", does: SHOW, example: "desk show greenhouse.bin", main: show::main },
    Subcommand { name: "tape", form: "TAPE.txt -o TAPE.bin [--model MODEL] | TAPE.bin [--model MODEL]", does: TAPE, example: "desk tape morning.txt -o morning.bin --model greenhouse.txt", main: tape::main },
    Subcommand { name: "run", form: "MODEL TAPE [--plain]", does: RUN, example: "desk run greenhouse.txt morning.txt", main: run::main },
    Subcommand { name: "explore", form: "MODEL [--words 0,1] [--most N] [--dot FILE]", does: EXPLORE, example: "desk explore greenhouse.txt --words 0,1 --dot greenhouse.dot", main: explore::main },
    Subcommand { name: "compare", form: "[--seed N] [--cases K] [--seconds S]", does: COMPARE, example: "desk compare --seed 7 --cases 500", main: compare::main },
    Subcommand { name: "bench", form: "[--runs N] [--only WORDS]", does: BENCH, example: "desk bench --runs 10", main: bench::main },
    Subcommand { name: "help", form: "[NAME]", does: HELP, example: "desk help build", main: help },
];

const BUILD: &str = "\
Writes the model file of a model text. Subjects and states are numbered in order of appearance; types by
'type NAME NUMBER' or in order of first use; the first state is the initial one unless 'initial STATE' says otherwise.

  type reading 0                      # may be left out
  subject scheduler starts
    state measure internal            # also: receive, end
      -> report
    state report send reading to valve
      -> done
      cancel -> measure
    state done end
  subject valve starts
    limit any from scheduler 1
    state wait receive
      reading from scheduler -> done
      timeout 3 -> done
    state done end

  Other states: 'state NAME close TYPE from SENDER' and 'open' with '-> STATE'; 'ask-empty TYPE from SENDER' with
  'empty -> STATE' and 'not-empty -> STATE'. 'any' stands for every type or sender and may be left out there.

Where the desk has the proved engine, that writes the model too; where its bytes are others, no file is written.";

const SHOW: &str = "\
Prints a model file as text that 'desk build' reads back to the same file. Of a damaged file it prints the refusal,
the block, record and byte where it goes wrong, what was expected there, and every record that can still be read.
With --records it prints the records of any file as they stand.";

const TAPE: &str = "\
With -o, writes the commands of a text as a tape; without, prints a tape as text. With --model (text or binary) names
stand for subjects, and an exit may be the name of the state it leads to.

  do scheduler report 35              # subject, exit, word
  reserve scheduler
  deliver scheduler
  take valve 0
  run valve
  expire valve
  cancel scheduler
  tick 3                              # three ticks
  code 9 subject 3 exit 1 ignored 0 word 7    # any eight bytes; what is not said is 0
  cut 1 2 3                           # a last piece of 1 to 7 bytes";

const RUN: &str = "\
Steps a model through a tape with the second engine: a line a command, and every pool at the end. Model and tape may
each be text or binary. With --plain it prints the lines of the controller's printing program.";

const EXPLORE: &str = "\
Tries every order of steps from the fresh start, Do with each of the given words (0 alone unless said otherwise), and
counts configurations, steps, finished ones and dead ends. Waits from the largest duration on count as equal. --most
bounds the configurations (100000 unless said otherwise); --dot writes a picture for Graphviz of a small search.";

const COMPARE: &str = "\
Compares the second engine with the proved one: random models, their files whole and damaged, the yes/no for each pool,
fresh starts, tapes step by step and as a whole, from configurations disturbed and bytes that are none, models written as
they are and edited, buffers too short or longer than needed. Answers and every byte of the buffers are compared, so a
refused call has to leave them all; every file that loads is written back and has to come out the same. The same seed
gives the same cases; --seconds stops earlier. At the end a table says how often each command, refusal and answer came, and
how many models were written, refused and still valid after an edit. The first difference is printed in its shortest form,
with what each engine said, and ends with status 1.";

const BENCH: &str = "\
Times the proved and the second engine side by side, on a small model, a middle one, and a large one with full pools:
loading, writing, tape steps (a whole tape judged once) and public steps (validity decided for each command). A full one,
whose file has 43 blocks, is only loaded and written; the row 'write / 43 checks' has the proved engine's write beside
the time of computing these checks alone in plain Rust, and their ratio. Prints a table in Markdown, in nanoseconds, as a
ratio and in copies of a configuration, with the median and the spread over the runs (10 unless said otherwise). A copy is
timed right before and after every time of the proved engine. --only keeps the rows that have the words in them, as 'middle
public step'. Loading includes writing out the model's bytes in both, and writing reading them; the second engine decides
validity by loading what it wrote.";

const HELP: &str = "Prints this, or what one subcommand does.";

/// Runs the subcommand named first.
fn main() -> ExitCode {
    let given: Vec<String> = std::env::args_os()
        .skip(1)
        .map(|a| a.to_string_lossy().into_owned())
        .collect();
    match dispatch(&given) {
        Ok(()) => ExitCode::SUCCESS,
        Err(Stop::Refused(message)) => {
            eprintln!("{message}");
            ExitCode::from(1)
        }
        Err(Stop::Usage(message)) => {
            eprintln!("desk: {message}");
            ExitCode::from(2)
        }
    }
}

/// Finds the subcommand and runs it; wrong use shows how it is used.
fn dispatch(given: &[String]) -> Outcome {
    let Some(name) = given.first() else {
        return usage(format!("say which: {}; see 'desk help'", names()));
    };
    let name = match name.as_str() {
        "--help" | "-h" => "help",
        name => name,
    };
    let asks_help = given[1..].iter().any(|a| a == "--help" || a == "-h");
    if asks_help {
        return help(&[name.to_string()]);
    }
    (find(name)?.main)(&given[1..])
}

/// The subcommand of this name.
fn find(name: &str) -> Result<&'static Subcommand, Stop> {
    match SUBCOMMANDS.iter().find(|s| s.name == name) {
        Some(found) => Ok(found),
        None => usage(format!("there is no '{name}'; there is: {}", names())),
    }
}

fn names() -> String {
    let names: Vec<&str> = SUBCOMMANDS.iter().map(|s| s.name).collect();
    names.join(", ")
}

/// `desk help`: all subcommands with an example each, or one in full.
fn help(given: &[String]) -> Outcome {
    match given {
        [] => {
            let mut text = String::from("desk: the test desk of the controller\n");
            for s in SUBCOMMANDS {
                text += &format!("\n  desk {} {}\n      {}\n", s.name, s.form, s.example);
            }
            files::print(&(text + "\n'desk help NAME' says more. Status 0 done, 1 refused input, 2 wrong use.\n"))
        }
        [name] => {
            let s = find(name)?;
            files::print(&format!(
                "desk {} {}\n\n{}\n\nExample: {}\n",
                s.name, s.form, s.does, s.example
            ))
        }
        _ => usage("help takes one name".to_string()),
    }
}
