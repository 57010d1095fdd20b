//! Times the script program beside one in Rust, each as a process that reads the
//! same file and writes to nowhere.

pub mod rust;

use std::env;
use std::fs::{self, File};
use std::io;
use std::path::{Path, PathBuf};
use std::process::{Command, ExitCode, Stdio};

use self::rust::WORD;
use super::timing::{time_in_turn, Timing, ROUNDS};
use crate::readers::call::{COUNTED, FRACTION, INTEGER, READERS, SPECIAL};
use crate::rng::Rng;
use crate::scratch::Folder;
use crate::script::oracle;
use crate::script::program::Program;
use crate::script::records::{Script, LONGEST_TEXT};

const RECORDS: usize = 1_000_000;

/// A byte that the text does not have.
const NOT_THERE: u8 = b'x';

pub fn run(seed: u64) -> ExitCode {
    match time_all(seed) {
        Ok(()) => ExitCode::SUCCESS,
        Err(error) => {
            eprintln!("harness: {error}");
            ExitCode::FAILURE
        }
    }
}

fn time_all(seed: u64) -> io::Result<()> {
    let program = Program::named();
    if !program.path().is_file() {
        let path = program.path().display();
        let missing = format!("{path} is missing (build it, or set SCRIPT)");
        return Err(io::Error::other(missing));
    }
    println!(
        "\n**Call script of {RECORDS} records**, ns per record, from the start of a process to its end:\n\
         median of {ROUNDS} rounds (least to most).\n"
    );
    println!("| Script | Crate, `write!` | Crate, by hand | Rattle | Rattle / `write!` | Rattle / by hand | Rattle, records a second |");
    println!("|---|---|---|---|---|---|---|");
    let mut rng = Rng::new(seed, "bench scripts");
    time("all calls", &program, &all_calls(&mut rng))?;
    time("takes alone", &program, &takes())
}

/// One row, once all three have printed what the crate answers.
fn time(name: &str, program: &Program, Script(input): &Script) -> io::Result<()> {
    let folder = Folder::new("pawhetino-script")?;
    let file = folder.path().join("input");
    fs::write(&file, input)?;
    let rust = env::current_exe()?;
    let mut commands = [
        by_rust(&rust, "formatted"),
        by_rust(&rust, "decimals"),
        vec![program.path().to_path_buf()],
    ];
    let expected = oracle::output(input).expect("a script of a compiled word");
    for command in &mut commands {
        if printed(command, &file)? != expected {
            let message = format!("{}: not what the crate answers", command[0].display());
            return Err(io::Error::other(message));
        }
    }
    let [one, other, rattle] = commands.each_ref().map(|command| || spent(command, &file));
    let timings = time_in_turn([&one, &other, &rattle], RECORDS, 1);
    print_row(name, &timings);
    Ok(())
}

fn print_row(name: &str, [formatted, decimals, rattle]: &[Timing; 3]) {
    println!(
        "| {name} | {} | {} | {} | {:.2} | {:.2} | {:.1} million |",
        formatted.cell(),
        decimals.cell(),
        rattle.cell(),
        rattle.ratio(formatted),
        rattle.ratio(decimals),
        rattle.per_second() / 1e6
    );
}

/// A path and its arguments.
type Run = Vec<PathBuf>;

fn by_rust(harness: &Path, printing: &str) -> Run {
    vec![harness.into(), "run-script".into(), printing.into()]
}

fn command(run: &Run, input: &Path) -> io::Result<Command> {
    let mut command = Command::new(&run[0]);
    command.args(&run[1..]).stdin(File::open(input)?);
    Ok(command)
}

fn printed(run: &Run, input: &Path) -> io::Result<Vec<u8>> {
    Ok(command(run, input)?.output()?.stdout)
}

/// Runs to its end, and answers 1 where it failed.
fn spent(run: &Run, input: &Path) -> u64 {
    let mut command = command(run, input).expect("the script's file");
    let status = command.stdout(Stdio::null()).status();
    u64::from(!status.expect("a program that starts").success())
}

/// Peeks, declined reads, zero skips, blocks and refused calls, with a take now
/// and then: so few that the text lasts for all of them.
fn all_calls(rng: &mut Rng) -> Script {
    filled(opened(), |script| match rng.below(1_000) {
        0..=1 => script.take(rng.pick(&READERS)),
        2..=449 => script.peek(rng.pick(&READERS)),
        450..=769 => script.read(rng.pick(&READERS), NOT_THERE),
        770..=899 => script.zero_skip(rng.pick(&COUNTED)),
        900..=929 => script.block(INTEGER, 0),
        930..=959 => script.block(FRACTION, 8),
        _ => script.zero_skip(SPECIAL),
    })
}

/// By all readers in turn, most of them at the text's end.
fn takes() -> Script {
    let mut readers = READERS.into_iter().cycle();
    filled(opened(), |script| {
        script.take(readers.next().expect("readers in turn"))
    })
}

/// A full text and an open.
fn opened() -> Script {
    let text = b"1_204_".repeat(LONGEST_TEXT);
    Script::default().text(&text[..LONGEST_TEXT]).open(WORD)
}

/// The script with calls for the records that are left.
fn filled(opened: Script, mut call: impl FnMut(Script) -> Script) -> Script {
    let left = RECORDS - LONGEST_TEXT - 1;
    (0..left).fold(opened, |script, _| call(script))
}
