//! Plan files (docs/RULES.md, section 4) from text and as text. A file that this crate hands out has been
//! loaded by the proved library.
#![forbid(unsafe_code)]
mod file;
mod plan;
mod text;

pub use file::{diagnose, Fault};
pub use plan::{As, Asp, Link, Origin, Plan};
pub use text::{parse, Problem};

/// Text to a plan file that the library loads, or what is wrong with the text.
pub fn compile(source: &str) -> Result<Vec<u8>, Vec<Problem>> {
    let plan = parse(source)?;
    let file = plan.encode();
    match m2ua::Gateway::load(&file) {
        Ok(gateway) if Plan::of(&gateway).is_like(&plan) => Ok(file),
        Ok(_) => Err(vec![Problem::of_tool(
            "the library loads another plan than was meant: please report this",
        )]),
        Err(no) => Err(vec![Problem::of_tool(&format!(
            "the library refuses the plan with {no}: please report this"
        ))]),
    }
}

/// A plan file as canonical text, with made-up names, or what is wrong with the file.
pub fn show(file: &[u8]) -> Result<String, Vec<Fault>> {
    match m2ua::Gateway::load(file) {
        Ok(gateway) => Ok(Plan::of(&gateway).to_string()),
        Err(no) => Err(diagnose(file).unwrap_or_else(|| {
            vec![Fault {
                code: no.code(),
                what:
                    "the library refuses it, and this program knows no reason: please report this"
                        .into(),
            }]
        })),
    }
}

/// Whether a file is text: a plan file begins with a byte 0, and a text has none.
pub fn is_text(bytes: &[u8]) -> bool {
    !bytes.contains(&0) && std::str::from_utf8(bytes).is_ok()
}
