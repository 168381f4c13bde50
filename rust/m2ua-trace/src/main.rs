//! m2ua-trace: a script of the gateway as a capture file or a message sequence chart.
#![forbid(unsafe_code)]
use m2ua_trace::{capture, chart, names::Names, script, svg, trace};
use std::io::Write;
use std::process::ExitCode;

const USAGE: &str = "\
usage: m2ua-trace capture SCRIPT OUT.pcap   what goes over the associations, for Wireshark
       m2ua-trace chart SCRIPT              who sends what to whom, as text
       m2ua-trace svg SCRIPT                the same as a picture
SCRIPT is a script of docs/SCRIPT.md, or a file of samples with '> ' before each command. Its comments
'# title: TEXT', '# asps: NAME ..' and '# ases: NAME ..' are for charts.";

fn traced(path: &str) -> Result<(trace::Trace, Names), String> {
    let bytes = std::fs::read(path).map_err(|e| format!("{path}: {e}"))?;
    let source = String::from_utf8(bytes).map_err(|_| format!("{path}: no text"))?;
    let commands = script::parse(&source).map_err(|why| format!("{path}: {why}"))?;
    Ok((trace::run(&commands), Names::of(&source)))
}

fn run(words: &[&str]) -> Result<(), String> {
    let put = |text: String| {
        std::io::stdout()
            .write_all(text.as_bytes())
            .map_err(|e| format!("standard output: {e}"))
    };
    match *words {
        ["capture", path, out] => {
            std::fs::write(out, capture::pcap(&traced(path)?.0)).map_err(|e| format!("{out}: {e}"))
        }
        ["chart", path] => {
            traced(path).and_then(|(trace, names)| put(chart::named(&trace, &names)))
        }
        ["svg", path] => traced(path).and_then(|(trace, names)| put(svg::named(&trace, &names))),
        _ => Err(USAGE.to_string()),
    }
}

fn main() -> ExitCode {
    let words: Vec<String> = std::env::args().skip(1).collect();
    match run(&words.iter().map(String::as_str).collect::<Vec<_>>()) {
        Ok(()) => ExitCode::SUCCESS,
        Err(why) => {
            eprintln!("{why}");
            ExitCode::from(if why == USAGE { 2 } else { 1 })
        }
    }
}
