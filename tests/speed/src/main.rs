//! The library beside a plain interpreter: `cargo run --release --offline -p speed`.
//!
//! `speed SIDE NAME COUNT` is for a profiler. It runs one workload once with this step limit, or makes so many calls of
//! check or flows, on side 0 (library), 1 (plain) or 2 (resting). `speed names` prints the names.

mod draft;
mod library;
mod measure;
mod plain;
mod timing;
mod workloads;

#[cfg(test)]
mod tests;

use std::hint::black_box;

use workloads::Workload;

fn main() {
    let arguments: Vec<String> = std::env::args().skip(1).collect();
    match &arguments[..] {
        [] => tables(),
        [word] if word == "names" => names(),
        [side, name, count] => once(side, name, count),
        _ => eprintln!("usage: speed [names | SIDE NAME COUNT]"),
    }
}

fn tables() {
    println!("Ratios are times of plain and of resting over that of the library: above 1 the library is faster.");
    heading("Runs", "nanoseconds per step");
    for Workload { name, call } in workloads::runs() {
        row(&name, measure::run(&name, &call).map(|time| time * 1e9));
    }
    heading("Waits", "microseconds per run");
    for Workload { name, call } in workloads::waits() {
        row(
            &name,
            measure::whole_run(&name, &call).map(|time| time * 1e6),
        );
    }
    heading("Calls", "nanoseconds per call");
    for check in workloads::checks() {
        row(check.name, measure::check(&check).map(|time| time * 1e9));
    }
    for question in workloads::questions() {
        row(
            question.name,
            measure::flows(&question).map(|time| time * 1e9),
        );
    }
    for Workload { name, call } in workloads::starts() {
        row(&name, measure::start(&name, &call).map(|time| time * 1e9));
    }
    heading("Growth", "nanoseconds per step");
    for Workload { name, call } in workloads::growth() {
        row(&name, measure::run(&name, &call).map(|time| time * 1e9));
    }
}

fn heading(title: &str, unit: &str) {
    println!("\n{title}");
    println!(
        "{unit:<42}{:>10}{:>10}{:>10}{:>9}{:>9}",
        "library", "plain", "resting", "plain", "resting"
    );
}

fn row<const SIDES: usize>(name: &str, times: [f64; SIDES]) {
    let shown: String = times.iter().map(|time| format!("{time:>10.1}")).collect();
    let ratio = |time: &f64| format!("{:>9.2}", time / times[0]);
    let ratios: String = times[1..].iter().map(ratio).collect();
    println!("{name:<42}{shown:<30}{ratios}");
}

fn names() {
    workloads::runs()
        .iter()
        .chain(&workloads::waits())
        .for_each(|run| println!("{}", run.name));
    workloads::checks()
        .iter()
        .for_each(|check| println!("{}", check.name));
    workloads::questions()
        .iter()
        .for_each(|question| println!("{}", question.name));
}

fn once(side: &str, name: &str, count: &str) {
    let side = side.parse().expect("side: 0, 1 or 2");
    let count = count.parse().expect("count: a number");
    let mut runs = workloads::runs()
        .into_iter()
        .chain(workloads::waits())
        .chain(workloads::growth());
    if let Some(Workload { call, .. }) = runs.find(|run| run.name == name) {
        let (mut values, mut log) = (call.values.clone(), vec![0; call.log]);
        println!(
            "{:?}",
            measure::run_on(side, &call, count, &mut values, &mut log)
        );
    } else if let Some(check) = workloads::checks()
        .into_iter()
        .find(|check| check.name == name)
    {
        for _ in 0..count {
            black_box(measure::check_on(side, &check.book, &check.script));
        }
    } else if let Some(question) = workloads::questions()
        .into_iter()
        .find(|question| question.name == name)
    {
        for _ in 0..count {
            black_box(measure::flows_on(side, &question.script));
        }
    } else {
        eprintln!("name: that of a run, of a check or of a question for flows");
    }
}
