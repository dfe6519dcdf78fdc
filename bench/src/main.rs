//! The benchmarks: bench/run builds and runs them.

mod agreement;
mod costly;
mod counting;
mod drawing;
#[allow(dead_code)]
#[path = "../../bindings/rust/src/exported.rs"]
mod exported;
mod hard;
mod items;
mod laws;
mod library;
mod matching;
mod once;
mod plain;
mod plots;
#[path = "../../second/src/random.rs"]
mod random;
mod ratios;
mod slots;
mod steps;
mod timing;
mod trees;
mod unifier;
mod workloads;

fn print(ratios: &[timing::Ratio]) {
    ratios.iter().for_each(timing::Ratio::print);
}

fn main() {
    let arguments: Vec<String> = std::env::args().skip(1).collect();
    match arguments.as_slice() {
        [mode, call, file] if mode == "pairs" => return counting::ask_all(call, file),
        [mode] if mode == "costliest" => return print(&counting::costliest()),
        _ => (),
    }
    let workloads = workloads::all();
    if let [_, side, name, operation] = arguments.as_slice() {
        let found = workloads.iter().find(|workload| workload.name == name);
        return once::run(side, found.expect("a workload"), operation);
    }
    for workload in &workloads {
        agreement::check(workload);
        println!("{}: all sides agree", workload.name);
    }
    plots::draw(&workloads);
    let mut ratios = counting::costliest();
    for workload in &workloads {
        ratios.extend(ratios::against_scan(workload));
        ratios.extend(ratios::against_plain(workload));
        ratios.extend(ratios::changes_against_plain(workload));
        ratios.push(ratios::growth(workload));
    }
    print(&ratios);
}
