//! Compares the port with the Rust that it was ported from, on inputs from a seed and on real files
//! with their headers.

mod address_breakage;
mod arguments;
mod breakage;
mod counts;
mod elements;
mod elements_breakage;
mod features;
mod judge;
mod made;
mod made_numbers;
mod made_texts;
mod null_breakage;
mod number_breakage;
mod numbers;
mod outside;
mod pair_breakage;
mod plain_address_breakage;
mod plain_breakage;
mod plain_judge;
mod plain_pair_breakage;
mod plain_run;
mod rows;
mod run;
mod self_test;
mod shrink;
mod store;
mod sum_breakage;
mod tables;
mod texts;

use std::process::ExitCode;

use arguments::{Arguments, Mode};

fn main() -> ExitCode {
    let arguments = match Arguments::parse(std::env::args().skip(1)) {
        Ok(arguments) => arguments,
        Err(reason) => {
            eprintln!("compare: {reason}\n{}", arguments::USAGE);
            return ExitCode::from(2);
        }
    };
    sides::rust::open();
    let worker = std::thread::Builder::new()
        .stack_size(sides::rust::STACK)
        .spawn(move || perform(&arguments))
        .expect("a thread");
    match worker.join() {
        Ok(Ok(true)) => ExitCode::SUCCESS,
        Ok(Ok(false)) => ExitCode::FAILURE,
        Ok(Err(error)) => {
            eprintln!("compare: {error}");
            ExitCode::from(2)
        }
        Err(_) => {
            eprintln!("compare: it failed by itself");
            ExitCode::from(2)
        }
    }
}

/// Whether all went well.
fn perform(arguments: &Arguments) -> std::io::Result<bool> {
    match &arguments.mode {
        Mode::Run => run::run(arguments),
        Mode::SelfTest => Ok(self_test::self_test(arguments)),
        Mode::Store(path) => store::store(arguments, path),
        Mode::One => run::one(arguments),
        Mode::File => plain_run::file(arguments),
    }
}
