//! shaft: see docs/SHAFT.md.
use shaft::args::{self, Asked, USAGE};
use shaft::output::Target;
use shaft::report;
use std::io::{self, Write};
use std::process::ExitCode;

fn main() -> ExitCode {
    let status = match args::parse(std::env::args_os().skip(1)) {
        Ok(Asked::Run(args)) => report::run(&args),
        Ok(Asked::Help) => match Target::StandardOutput.write(|out| out.write_all(USAGE.as_bytes())) {
            Ok(()) => 0,
            Err(why) => fail(&why),
        },
        Err(why) => fail(&format!("{why}\n{USAGE}")),
    };
    ExitCode::from(status)
}

// Nothing is said of a reader who has gone.
fn fail(why: &str) -> u8 {
    if !why.is_empty() {
        let _ = writeln!(io::stderr(), "shaft: {}", why.trim_end());
    }
    2
}
