//! Plays drawn calls on the library and on the model, and compares all that each call leaves.
//!
//!     nektawul-fuzz [--trace] [CALLS [SEED]]        the comparison
//!     nektawul-fuzz --wrong NAME|all [CALLS [SEED]] the model with a fault made on purpose, which must be found

mod by_library;
mod by_model;
mod call;
mod calls;
mod chain;
mod clauses;
mod compare;
mod draw;
mod faults;
mod files;
mod met;
mod model;
mod stores;

use std::process::ExitCode;
use std::time::Instant;

use call::{Call, Lent, Reply};
use chain::Chain;
use clauses::Played;
use compare::Side;
use draw::Draw;
use faults::{Fault, FAULTS};
use met::Met;

const CALLS: u64 = 2_000_000;
const SEED: u64 = 1;

type Play = fn(&Call, &mut Lent) -> Reply;

fn played(play: Play, call: &Call, lent: &Lent) -> Side {
    let mut lent = lent.clone();
    let reply = play(call, &mut lent);
    Side { lent, reply }
}

/// How a run is made: how long, from which seed, with which fault in the model, and whether each call is shown first.
#[derive(Clone, Copy)]
struct Plan {
    calls: u64,
    seed: u64,
    fault: Option<&'static Fault>,
    trace: bool,
}

/// Plays the calls; at the first disagreement gives it in words. What was met is counted either way.
fn fuzz(plan: Plan, met: &mut Met) -> Result<(), String> {
    let mut d = Draw::new(plan.seed);
    let mut chain = Chain::start(&mut d);
    while met.calls < plan.calls {
        let Some(call) = chain.next_call(&mut d) else {
            chain = Chain::start(&mut d);
            continue;
        };
        if plan.trace {
            eprint!("call {}: {}", met.calls + 1, compare::shown(&call, &chain.lent));
        }
        let library = played(by_library::play, &call, &chain.lent);
        let mut model = played(by_model::play, &call, &chain.lent);
        if let Some(fault) = plan.fault {
            (fault.spoil)(&call, &chain.lent, &mut model);
        }
        met.count(&Played { call: &call, before: &chain.lent, after: &library.lent, reply: &library.reply });
        if !compare::agree(&library, &model) {
            let handed = compare::shown(&call, &chain.lent);
            let (number, differs) = (met.calls, compare::difference(&library, &model));
            return Err(format!("seed {}, call {number}: {handed}{differs}", plan.seed));
        }
        chain.go_on(library.lent, &library.reply, &mut d);
    }
    Ok(())
}

fn comparison(plan: Plan) -> Result<(), String> {
    let (start, mut met) = (Instant::now(), Met::nothing());
    fuzz(plan, &mut met).map_err(|text| format!("library and model disagree\n{text}"))?;
    print!("{}", met.table());
    let seconds = start.elapsed().as_secs_f64();
    println!("{} calls, seed {}, {seconds:.1} s: library and model agree", met.calls, plan.seed);
    let faults = met.faults();
    if faults.is_empty() {
        println!("every answer that document 01 lists was met, and no other");
        return Ok(());
    }
    Err(format!("not all was met, or too much:\n{}", faults.join("\n")))
}

/// Whether the comparison finds a fault in the model.
fn finds(fault: &'static Fault, plan: Plan) -> bool {
    let mut met = Met::nothing();
    let found = fuzz(Plan { fault: Some(fault), ..plan }, &mut met).is_err();
    let how = if found { "found at call" } else { "NOT FOUND in calls" };
    println!("{how} {:>8}  {}: {}", met.calls, fault.name, fault.says);
    found
}

fn all_faults(plan: Plan) -> Result<(), String> {
    let missed = FAULTS.iter().filter(|fault| !finds(fault, plan)).count();
    println!("{} faults made on purpose in the model, {missed} not found", FAULTS.len());
    if missed == 0 {
        Ok(())
    } else {
        Err("a fault was not found".into())
    }
}

/// One fault, with the disagreement that it makes.
fn one_fault(name: &str, plan: Plan) -> Result<(), String> {
    let fault = FAULTS.iter().find(|fault| fault.name == name).ok_or_else(|| {
        let names: Vec<&str> = FAULTS.iter().map(|fault| fault.name).collect();
        format!("no fault {name}; there are: {}", names.join(" "))
    })?;
    match fuzz(Plan { fault: Some(fault), ..plan }, &mut Met::nothing()) {
        Err(text) => {
            println!("{}: found\n{text}", fault.says);
            Ok(())
        }
        Ok(()) => Err(format!("{}: not found", fault.says)),
    }
}

fn number(given: Option<&String>, without: u64) -> Result<u64, String> {
    given.map_or(Ok(without), |text| text.parse().map_err(|_| format!("not a number: {text}")))
}

fn plan(numbers: &[String], trace: bool) -> Result<Plan, String> {
    if numbers.len() > 2 {
        return Err("usage: nektawul-fuzz [--trace | --wrong NAME|all] [CALLS [SEED]]".into());
    }
    Ok(Plan { calls: number(numbers.first(), CALLS)?, seed: number(numbers.get(1), SEED)?, fault: None, trace })
}

fn act(arguments: &[String]) -> Result<(), String> {
    match arguments {
        [wrong, name, numbers @ ..] if wrong == "--wrong" && name == "all" => all_faults(plan(numbers, false)?),
        [wrong, name, numbers @ ..] if wrong == "--wrong" => one_fault(name, plan(numbers, false)?),
        [trace, numbers @ ..] if trace == "--trace" => comparison(plan(numbers, true)?),
        numbers => comparison(plan(numbers, false)?),
    }
}

fn main() -> ExitCode {
    let arguments: Vec<String> = std::env::args().skip(1).collect();
    match act(&arguments) {
        Ok(()) => ExitCode::SUCCESS,
        Err(text) => {
            eprintln!("{text}");
            ExitCode::FAILURE
        }
    }
}
