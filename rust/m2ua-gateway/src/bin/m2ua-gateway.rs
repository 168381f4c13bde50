//! m2ua-gateway: the M2UA side of a signalling gateway as a daemon.
#![forbid(unsafe_code)]
use m2ua_gateway::options::{asked, Options, USAGE};
use m2ua_gateway::start;
use std::process::ExitCode;

fn main() -> ExitCode {
    let words: Vec<String> = std::env::args().skip(1).collect();
    if let Some(text) = asked(&words, "m2ua-gateway", USAGE) {
        println!("{text}");
        return ExitCode::SUCCESS;
    }
    let options = match Options::parse(&words) {
        Ok(options) => options,
        Err(why) => {
            eprintln!("m2ua-gateway: {why} (m2ua-gateway --help)");
            return ExitCode::from(2);
        }
    };
    let ended = start::daemon(options).and_then(|daemon| daemon.run().map_err(|e| e.to_string()));
    match ended {
        Ok(()) => ExitCode::SUCCESS,
        Err(why) => {
            why.lines()
                .for_each(|line| eprintln!("m2ua-gateway: {line}"));
            ExitCode::from(1)
        }
    }
}
