//! Holds the proved library against the plain one. Status 0 only if nothing differs and everything came up.
//!
//!     differ [--calls N] [--seed N] [--episode N]

use std::process::ExitCode;
use std::time::Instant;
use trial::boundary::{Archive, Plain};
use trial::differ::{run, Outcome, Plan};

fn main() -> ExitCode {
    let plan = match plan(std::env::args().skip(1)) {
        Ok(plan) => plan,
        Err(message) => {
            eprintln!("differ: {message}\nusage: differ [--calls N] [--seed N] [--episode N]");
            return ExitCode::from(2);
        }
    };
    let start = Instant::now();
    let outcome = run(&Archive, &Plain, &plan);
    print!("what came up, how often:\n{}", outcome.table);
    let seconds = start.elapsed().as_secs_f64();
    println!("{} calls in {} episodes, {seconds:.1} s", outcome.calls, outcome.episodes);
    verdict(&plan, &outcome)
}

fn plan(mut arguments: impl Iterator<Item = String>) -> Result<Plan, String> {
    let mut plan = Plan::default();
    while let Some(name) = arguments.next() {
        let value = arguments.next().ok_or_else(|| format!("{name} needs a number"))?;
        let number = value.parse().map_err(|_| format!("{value} is no number"))?;
        match name.as_str() {
            "--calls" => plan.calls = number,
            "--seed" => plan.seed = number,
            "--episode" => plan.only = Some(number),
            _ => return Err(format!("{name} is unknown")),
        }
    }
    Ok(plan)
}

fn verdict(plan: &Plan, outcome: &Outcome) -> ExitCode {
    if let Some(what) = &outcome.difference {
        println!("DIFFERENCE (left the library, right plain): {what}");
        return ExitCode::FAILURE;
    }
    let missing = outcome.table.missing();
    if plan.only.is_none() && !missing.is_empty() {
        println!("no difference, but this never came up: {}", missing.join("; "));
        return ExitCode::FAILURE;
    }
    println!("no difference");
    ExitCode::SUCCESS
}
