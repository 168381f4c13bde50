//! m2ua-plan: plan files of the M2UA gateway from text, checked, and as text.
#![forbid(unsafe_code)]
use std::io::{IsTerminal, Read, Write};
use std::process::ExitCode;

const USAGE: &str = "\
usage: m2ua-plan compile TEXT [-o FILE]   a plan file from text
       m2ua-plan check FILE               whether a plan, as text or compiled, is right
       m2ua-plan show FILE                a plan, as text or compiled, as canonical text
FILE - is standard input. Exit status: 0 right, 1 the plan is refused, 2 wrong usage, or a file cannot be read or written.

asp NAME id NUMBER [whole-lists] [from ADDRESS[:PORT] ..]
                                          an ASP and its identifier; its lists of links are taken all or none; where its SCTP
                                          association comes from, for m2ua-gateway: each address that it has
as NAME mode MODE [members ASP ..]        an AS: override, load-share or broadcast
link ID[-ID] as NAME [high-speed]         links by interface identifier, and the AS that owns them
# ..                                      a comment";

/// The plan is refused, or it did not come to that.
enum Failure {
    Refused(Vec<String>),
    Broken(String),
}

fn main() -> ExitCode {
    let words: Vec<String> = std::env::args().skip(1).collect();
    let words: Vec<&str> = words.iter().map(String::as_str).collect();
    let done = match words[..] {
        ["compile", text] => compile(text, None),
        ["compile", text, "-o", file] | ["compile", "-o", file, text] => compile(text, Some(file)),
        ["check", file] => check(file),
        ["show", file] => show(file),
        ["--help" | "-h"] => put(format!("{USAGE}\n").as_bytes()),
        ["--version"] => put(format!("m2ua-plan {}\n", env!("CARGO_PKG_VERSION")).as_bytes()),
        _ => Err(Failure::Broken(USAGE.into())),
    };
    match done {
        Ok(()) => ExitCode::SUCCESS,
        Err(Failure::Refused(lines)) => {
            lines.iter().for_each(|line| eprintln!("{line}"));
            ExitCode::from(1)
        }
        Err(Failure::Broken(why)) => {
            eprintln!("{why}");
            ExitCode::from(2)
        }
    }
}

fn bytes_of(path: &str) -> Result<Vec<u8>, Failure> {
    let mut bytes = Vec::new();
    let read = match path {
        "-" => std::io::stdin().read_to_end(&mut bytes).map(|_| bytes),
        _ => std::fs::read(path),
    };
    read.map_err(|e| Failure::Broken(format!("{path}: {e}")))
}

fn put(bytes: &[u8]) -> Result<(), Failure> {
    std::io::stdout()
        .write_all(bytes)
        .map_err(|e| Failure::Broken(format!("standard output: {e}")))
}

fn refused(path: &str, why: Vec<impl std::fmt::Display>) -> Failure {
    Failure::Refused(why.iter().map(|w| format!("{path}: {w}")).collect())
}

/// Text to a file that the library loads.
fn compiled(path: &str, bytes: &[u8]) -> Result<Vec<u8>, Failure> {
    let Ok(text) = std::str::from_utf8(bytes) else {
        return Err(Failure::Refused(vec![format!(
            "{path}: no text (it is not UTF-8); a compiled plan is shown by 'm2ua-plan show'"
        )]));
    };
    m2ua_plan::compile(text).map_err(|problems| refused(path, problems))
}

fn compile(text: &str, file: Option<&str>) -> Result<(), Failure> {
    let bytes = compiled(text, &bytes_of(text)?)?;
    match file {
        Some("-") => put(&bytes),
        Some(path) => replace(path, &bytes).map_err(|e| Failure::Broken(format!("{path}: {e}"))),
        None if std::io::stdout().is_terminal() => Err(Failure::Broken(
            "compile: a plan file is no text for a terminal: give -o FILE".into(),
        )),
        None => put(&bytes),
    }
}

/// The whole file or none: written beside it and then moved.
fn replace(path: &str, bytes: &[u8]) -> std::io::Result<()> {
    let beside = format!("{path}.{}", std::process::id());
    std::fs::write(&beside, bytes)
        .and_then(|()| std::fs::rename(&beside, path))
        .inspect_err(|_| {
            let _ = std::fs::remove_file(&beside);
        })
}

/// Canonical text: of a text with its names, of a compiled plan with names made up.
fn canonical(path: &str) -> Result<String, Failure> {
    let bytes = bytes_of(path)?;
    if !m2ua_plan::is_text(&bytes) || bytes.is_empty() {
        return m2ua_plan::show(&bytes).map_err(|faults| refused(path, faults));
    }
    compiled(path, &bytes)?;
    let text = String::from_utf8_lossy(&bytes);
    Ok(m2ua_plan::parse(&text)
        .map_err(|problems| refused(path, problems))?
        .to_string())
}

fn show(path: &str) -> Result<(), Failure> {
    put(canonical(path)?.as_bytes())
}

fn check(path: &str) -> Result<(), Failure> {
    let text = canonical(path)?;
    let plan = m2ua_plan::parse(&text).map_err(|problems| refused(path, problems))?;
    let high_speed = match plan.links.iter().filter(|link| link.high_speed).count() {
        0 => String::new(),
        n => format!(", {n} of them high-speed"),
    };
    let whole_lists = match plan.asps.iter().filter(|asp| asp.whole_lists).count() {
        0 => String::new(),
        n => format!(" ({n} with whole-lists)"),
    };
    put(format!(
        "{path}: {} ASPs{whole_lists}, {} ASes, {} links{high_speed}\n",
        plan.asps.len(),
        plan.ases.len(),
        plan.links.len()
    )
    .as_bytes())
}
