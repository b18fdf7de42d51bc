//! Times the engine against the second implementation, in one process: every
//! question on its largest and on typical inputs, and how check and placing grow.

mod case;
mod growth;
mod inputs;
mod searches;
mod timing;

#[cfg(test)]
mod tests;

use case::{time_all, Case};
use growth::Row;
use inputs::Inputs;
use std::thread::available_parallelism;
use timing::{Times, ROUNDS, SAMPLES};

const CLEARING: &str = "\
Clearing: outputs and lent lists are not cleared between calls. Both clear their own
working tables in each call, and that is in their times. In choose the two threads that
move and the totals are put back before each call, and that is in both times.
";

const COLUMNS: &str = "
Columns. Best nanoseconds a call by row, in version 2, and by column, in version 3, and the
factor between them.
";

const STATES: &str = "
Certificates. Best nanoseconds a state.
";

const SEARCHES: &str = "
Searches for spring's states, without seats. Best nanoseconds a state: by offers, by choose,
which judges the file for each choice anew, and by the second implementation.
";

const GROWTH: &str = "
Growth. Best nanoseconds a call, and the factor to the row before. Read and check: 32 nodes
to a session. Place: a chain that needs one role; it has two nodes less than its result,
whose nodes are given. Users, kinds and channels are at their largest in each row, and have
their part in the time.
";

fn main() {
    let seed = trials::seed();
    let inputs = Inputs::new(seed);
    let cases = inputs.cases();
    let (by_nodes, by_roles) = (growth::by_nodes(seed), growth::by_roles(seed));
    println!("{}\n{}\n{CLEARING}", head(), inputs.words());

    let grown = by_nodes.iter().chain(&by_roles).map(|row| &row.case);
    let all: Vec<&Case> = cases.iter().chain(grown).collect();
    for case in &all {
        case.agree();
    }
    let times = time_all(&all);
    let (of_cases, of_growth) = times.split_at(cases.len());
    let (of_nodes, of_roles) = of_growth.split_at(by_nodes.len());
    print_table(&cases, of_cases);
    println!("{COLUMNS}");
    print_columns(&cases, of_cases);
    println!("{STATES}");
    print_states(&cases, of_cases);
    println!("{SEARCHES}");
    for (call, nanoseconds) in searches::times(&inputs.spring) {
        println!("{call:<16} {nanoseconds:>9.0}");
    }
    println!("{GROWTH}");
    print_growth(&by_nodes, of_nodes);
    println!();
    print_growth(&by_roles, of_roles);
}

/// How it is timed, and on what machine.
fn head() -> String {
    let cores = available_parallelism().map_or("?".to_string(), |cores| cores.to_string());
    let about = std::fs::read_to_string("/proc/cpuinfo").unwrap_or_default();
    let mut models = about.lines().filter(|line| line.starts_with("model name"));
    let model = models.next().and_then(|line| line.split_once(": "));
    let model = model.map_or("model unknown", |(_, model)| model);
    let samples = ROUNDS * SAMPLES;
    format!(
        "Nanoseconds a call, of the engine and of the second implementation, in one process;\n\
         {samples} samples each, in turns, in {ROUNDS} rounds over all rows. Ratio: engine / second.\n\
         Machine: {model}, cores: {cores}.\n"
    )
}

fn print_table(cases: &[Case], times: &[Times]) {
    println!(
        "{:<16} {:>6} {:>12} {:>9} {:>12} {:>9} {:>11} {:>13}",
        "call",
        "bytes",
        "engine best",
        "median",
        "second best",
        "median",
        "best ratio",
        "median ratio"
    );
    for (case, Times { engine, second }) in cases.iter().zip(times) {
        println!(
            "{:<16} {:>6} {:>12.0} {:>9.0} {:>12.0} {:>9.0} {:>11.2} {:>13.2}",
            case.name,
            case.length(),
            engine.best,
            engine.median,
            second.best,
            second.median,
            engine.best / second.best,
            engine.median / second.median,
        );
    }
}

/// The rows with a 3 beside those with a 2.
fn print_columns(cases: &[Case], times: &[Times]) {
    println!(
        "{:<16} {:>9} {:>9} {:>7} {:>9} {:>9} {:>7}",
        "call", "engine 2", "3", "factor", "second 2", "3", "factor"
    );
    let all = || cases.iter().zip(times);
    for (case, by_column) in all() {
        let Some(call) = case.name.strip_suffix(" 3") else {
            continue;
        };
        let mut rows = all().filter(|(case, _)| case.name.strip_suffix(" 2") == Some(call));
        let (_, by_row) = rows.next().expect("a row with a 2");
        let [engine, of_second] = [
            [by_row.engine.best, by_column.engine.best],
            [by_row.second.best, by_column.second.best],
        ];
        println!(
            "{call:<16} {:>9.0} {:>9.0} {:>7.2} {:>9.0} {:>9.0} {:>7.2}",
            engine[0],
            engine[1],
            engine[1] / engine[0],
            of_second[0],
            of_second[1],
            of_second[1] / of_second[0],
        );
    }
}

/// The rows that go through states.
fn print_states(cases: &[Case], times: &[Times]) {
    println!(
        "{:<16} {:>6} {:>9} {:>9} {:>7}",
        "call", "states", "engine", "second", "ratio"
    );
    for (case, times) in cases.iter().zip(times) {
        let Some(states) = case.states() else {
            continue;
        };
        let [engine, second] =
            [times.engine.best, times.second.best].map(|call| call / states as f64);
        println!(
            "{:<16} {states:>6} {engine:>9.0} {second:>9.0} {:>7.2}",
            case.name,
            engine / second
        );
    }
}

fn print_growth(rows: &[Row], times: &[Times]) {
    println!(
        "{:<6} {:>6} {:>6} {:>9} {:>7} {:>9} {:>7} {:>7}",
        "call", "nodes", "roles", "engine", "factor", "second", "factor", "ratio"
    );
    let mut before: Option<(&str, f64, f64)> = None;
    for (row, times) in rows.iter().zip(times) {
        let name = row.case.name.as_str();
        let (engine, second) = (times.engine.best, times.second.best);
        let factors = match before.filter(|before| before.0 == name) {
            Some((_, of_engine, of_second)) => {
                [engine / of_engine, second / of_second].map(|factor| format!("{factor:.2}"))
            }
            None => [String::new(), String::new()],
        };
        println!(
            "{name:<6} {:>6} {:>6} {engine:>9.0} {:>7} {second:>9.0} {:>7} {:>7.2}",
            row.nodes,
            row.roles,
            factors[0],
            factors[1],
            engine / second,
        );
        before = Some((name, engine, second));
    }
}
