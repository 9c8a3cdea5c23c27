//! Answers the job or the question on standard input: aamediate check|run|replay|policy-check|policy-ask|policy-diff < input.json
use aamediate::{Answer, Cause, Fault};
use std::io::{self, Read, Write};
use std::process::ExitCode;

/// The answer of the call of that name, if there is one.
fn answer(word: &str, given: &[u8]) -> Option<Result<Answer, Fault>> {
    let call = match word {
        "check" => aamediate::check,
        "run" => aamediate::run,
        "replay" => aamediate::replay,
        "policy-check" => return Some(aamediate::policy_check(given)),
        "policy-ask" => return Some(aamediate::policy_ask(given)),
        "policy-diff" => return Some(aamediate::policy_diff(given)),
        _ => return None,
    };
    let said = String::new();
    Some(call(given).map(|text| Answer {
        text,
        status: 0,
        said,
    }))
}

fn status_of(fault: &Fault) -> u8 {
    match fault.cause {
        Cause::Refused => 1,
        Cause::NoQuestion => 2,
        Cause::Failed => 3,
    }
}

fn main() -> ExitCode {
    let word = std::env::args().nth(1).unwrap_or_default();
    let mut given = Vec::new();
    if let Err(error) = io::stdin().read_to_end(&mut given) {
        eprintln!("{error}");
        return ExitCode::from(3);
    }
    match answer(&word, &given) {
        None => {
            eprintln!("usage: aamediate check|run|replay|policy-check|policy-ask|policy-diff");
            ExitCode::from(2)
        }
        Some(Ok(found)) => {
            eprint!("{}", found.said);
            match io::stdout().write_all(&found.text) {
                Ok(()) => ExitCode::from(found.status as u8),
                Err(_) => ExitCode::from(3),
            }
        }
        Some(Err(fault)) => {
            eprintln!("{}", fault.line.trim_end_matches('\n'));
            ExitCode::from(status_of(&fault))
        }
    }
}
