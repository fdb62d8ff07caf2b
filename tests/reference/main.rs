// The reference that Puzhenim is compared with: every call of the paper and its
// changes, written from these alone, and the vectors that both are run on.
// Build: rustc -O --edition 2021 -o reference tests/reference/main.rs

mod areas;
mod areas_cases;
mod areas_checks;
mod brute;
mod builder;
mod cases;
mod ceiling;
mod chord;
mod contour;
mod depth;
mod flood;
mod halves;
mod hold;
mod layer;
mod machine;
mod order;
mod pending;
mod picture;
mod pins;
mod pins_cases;
mod pins_vectors;
mod places;
mod planner;
mod prng;
mod program;
mod refusals;
mod roll;
mod script;
mod sets;
mod sets_areas;
mod sets_bitmap;
mod sets_ceiling;
mod sets_lists;
mod sets_pending;
mod sets_pins;
mod sets_settling;
mod sets_table;
mod sets_text;
mod settling;
mod sheet;
mod show;
mod simplify;
mod smooth;
mod sums_cases;
mod sums_checks;
mod test;
mod trace;

use std::io::{Read, Write};
use std::process::ExitCode;

use script::Command;

const USAGE: &str = "usage: reference make NAME.. | random NAME SEED | answer | faithful | halves | ceiling | show | test [SEED]
  make    writes the script of the sets NAME.., one after the other
  random  writes the same set made from another seed
  answer  reads a script and writes the answers to its calls
  faithful  runs the lists of calls of a script; silent if every table after an accepted opening is faithful and pins stay
  halves  writes what the program of this name has to write
  ceiling  writes what the program of this name has to write
  show    reads a script and prints it for a person
  test    checks the reference itself; silent if all is right";

/// The ways to end without success: how the program was called, or what went
/// wrong.
enum Failure {
    Usage,
    Message(String),
}

/// The script on standard input.
fn read_script() -> Result<Vec<Command>, Failure> {
    let mut bytes = Vec::new();
    match std::io::stdin().read_to_end(&mut bytes) {
        Ok(_) => script::parse(&bytes).map_err(Failure::Message),
        Err(error) => Err(Failure::Message(error.to_string())),
    }
}

fn seed(word: &str) -> Result<u64, Failure> {
    word.parse().map_err(|_| Failure::Usage)
}

fn run(words: &[&str]) -> Result<Vec<u8>, Failure> {
    match words {
        ["make", names @ ..] => sets::joined(names).ok_or(Failure::Usage),
        ["random", name, word] => sets::script(name, Some(seed(word)?)).ok_or(Failure::Usage),
        ["answer"] => Ok(machine::answers(&read_script()?).into_bytes()),
        ["faithful"] => faithful(&read_script()?),
        ["halves"] => Ok(halves::lines().into_bytes()),
        ["ceiling"] => Ok(ceiling::lines().into_bytes()),
        ["show"] => Ok(show::show(&read_script()?).into_bytes()),
        ["test"] => tested(None),
        ["test", word] => tested(Some(seed(word)?)),
        _ => Err(Failure::Usage),
    }
}

/// Nothing if the layer is faithful after each call that follows an accepted Trace or sheet reading,
/// and each of these calls that is not one itself leaves the pinned entries as they are.
fn faithful(commands: &[Command]) -> Result<Vec<u8>, Failure> {
    let mut machine = machine::Machine::default();
    let mut opened = false;
    for (i, command) in commands.iter().enumerate() {
        let opens = matches!(command, Command::Trace | Command::ReadSheet { .. });
        let before = machine.table.clone();
        opened = match machine.run(command) {
            Some(answer) => opened || (opens && answer.number == 0),
            None => false,
        };
        let stays = opens || pins::stay(&before, &machine.table);
        if opened && !(stays && test::stays_faithful(&machine)) {
            return Err(Failure::Message(format!(
                "not faithful, or a pinned vertex moved, after command {}",
                i
            )));
        }
    }
    Ok(Vec::new())
}

/// Nothing if all tests are right, else what is wrong; a call that breaks down has
/// said so by then.
fn tested(seed: Option<u64>) -> Result<Vec<u8>, Failure> {
    match std::panic::catch_unwind(|| test::wrong(seed)) {
        Ok(wrong) if wrong.is_empty() => Ok(Vec::new()),
        Ok(wrong) => Err(Failure::Message(wrong.join("\n"))),
        Err(_) => Err(Failure::Message("the test broke down".to_string())),
    }
}

fn main() -> ExitCode {
    let arguments: Vec<String> = std::env::args_os()
        .skip(1)
        .map(|word| word.to_string_lossy().into_owned())
        .collect();
    let words: Vec<&str> = arguments.iter().map(|word| word.as_str()).collect();
    match run(&words) {
        Ok(bytes) => match std::io::stdout().write_all(&bytes) {
            Ok(()) => ExitCode::SUCCESS,
            Err(_) => ExitCode::from(1),
        },
        Err(Failure::Usage) => {
            let names: Vec<&str> = sets::SETS.iter().map(|set| set.name).collect();
            eprintln!("{}\n  sets: {}", USAGE, names.join(", "));
            ExitCode::from(2)
        }
        Err(Failure::Message(message)) => {
            eprintln!("reference: {}", message);
            ExitCode::from(1)
        }
    }
}
