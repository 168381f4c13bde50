//! Plans as text, one row to a line:
//!
//! ```text
//! # what follows a '#' is a comment
//! asp left  id 7
//! asp right id 8 whole-lists from 192.0.2.8
//! as east mode override members left right
//! link 100-115 as east
//! link 200 as east high-speed
//! ```
//!
//! A statement is a word, its subject, and options in any order, each at most once. Names may be used before
//! they are defined. What document 02 adds (fill numbers of links, options of ASPs and ASes, key rows)
//! becomes an option of a statement, or a statement of its own: their words are reserved.
use crate::plan::{As, Asp, Link, Origin, Plan};
use m2ua::{sys, TrafficMode};
use std::fmt;

/// What is wrong with a text: in which line (from 1; 0 where no line is to blame), with which row, and why.
#[derive(Clone, Debug, PartialEq, Eq)]
pub struct Problem {
    pub line: usize,
    pub row: String,
    pub why: String,
}

impl Problem {
    fn new(line: usize, row: &str, why: impl Into<String>) -> Problem {
        Problem {
            line,
            row: row.into(),
            why: why.into(),
        }
    }

    pub(crate) fn of_tool(why: &str) -> Problem {
        Problem::new(0, "plan", why)
    }
}

impl fmt::Display for Problem {
    fn fmt(&self, f: &mut fmt::Formatter<'_>) -> fmt::Result {
        if self.line != 0 {
            write!(f, "line {}: ", self.line)?;
        }
        write!(f, "{}: {}", self.row, self.why)
    }
}

/// Words that are no names: those of today and those that document 02 will need.
const WORDS: [&str; 17] = [
    "asp",
    "as",
    "link",
    "key",
    "id",
    "mode",
    "members",
    "high-speed",
    "owner",
    "sharing",
    "name",
    "onset",
    "abate",
    "whole-lists",
    "from",
    "text",
    "plan",
];

/// A line taken apart: its statement, its subject, its options with their words.
struct Statement<'a> {
    line: usize,
    word: &'a str,
    subject: &'a str,
    options: Vec<(&'a str, Vec<&'a str>)>,
}

impl<'a> Statement<'a> {
    fn row(&self) -> String {
        format!("{} {}", self.word, self.subject)
    }

    fn problem(&self, why: impl Into<String>) -> Problem {
        Problem::new(self.line, &self.row(), why)
    }

    /// The words of an option; `None` where it is not given.
    fn option(&self, name: &str) -> Option<&[&'a str]> {
        self.options
            .iter()
            .find(|(option, _)| *option == name)
            .map(|(_, words)| &words[..])
    }

    /// The one word of an option that must be there.
    fn single(&self, name: &str, what: &str) -> Result<&'a str, Problem> {
        match self.option(name) {
            Some([word]) => Ok(word),
            Some([_, more, ..]) => Err(self.problem(format!(
                "'{name}' takes one word: {what}; and '{more}' follows it"
            ))),
            Some([]) => Err(self.problem(format!("'{name}' takes one word: {what}"))),
            None => Err(self.problem(format!("'{name}' is missing: {what}"))),
        }
    }

    /// Whether an option that takes no word is given.
    fn given(&self, name: &str) -> Result<bool, Problem> {
        match self.option(name) {
            Some([]) => Ok(true),
            Some([word, ..]) => {
                Err(self.problem(format!("'{name}' takes no word, and '{word}' follows")))
            }
            None => Ok(false),
        }
    }
}

/// Statements and their options: what follows the subject.
fn options_of(word: &str) -> Option<&'static [&'static str]> {
    match word {
        "asp" => Some(&["id", "whole-lists", "from"]),
        "as" => Some(&["mode", "members"]),
        "link" => Some(&["as", "high-speed"]),
        _ => None,
    }
}

fn taken_apart<'a>(line: usize, source: &'a str) -> Result<Option<Statement<'a>>, Problem> {
    let text = source.split('#').next().unwrap_or_default();
    let mut words = text.split_whitespace();
    let Some(word) = words.next() else {
        return Ok(None);
    };
    let Some(allowed) = options_of(word) else {
        return Err(Problem::new(
            line,
            word,
            "no such statement: a line begins with asp, as or link",
        ));
    };
    let Some(subject) = words.next() else {
        let what = if word == "link" {
            "an identifier or a range of them"
        } else {
            "a name"
        };
        return Err(Problem::new(line, word, format!("{what} is missing")));
    };
    let mut found = Statement {
        line,
        word,
        subject,
        options: Vec::new(),
    };
    for next in words {
        if allowed.contains(&next) {
            if found.option(next).is_some() {
                return Err(found.problem(format!("'{next}' is given twice")));
            }
            found.options.push((next, Vec::new()));
        } else if WORDS.contains(&next) {
            return Err(found.problem(format!(
                "'{next}' is no option of {word} here: {}",
                allowed.join(", ")
            )));
        } else if let Some((_, values)) = found.options.last_mut() {
            values.push(next);
        } else {
            return Err(found.problem(format!(
                "'{next}' where an option is expected: {}",
                allowed.join(", ")
            )));
        }
    }
    Ok(Some(found))
}

fn number(word: &str) -> Option<u32> {
    match word.strip_prefix("0x") {
        Some(digits) if !digits.starts_with('+') => u32::from_str_radix(digits, 16).ok(),
        Some(_) => None,
        None if word.starts_with('+') => None,
        None => word.parse().ok(),
    }
}

fn name_of(s: &Statement<'_>) -> Result<String, Problem> {
    let right = |c: char| c.is_ascii_alphanumeric() || "_.-".contains(c);
    if WORDS.contains(&s.subject) {
        return Err(s.problem("this is a word of the language and no name"));
    }
    if !s.subject.starts_with(|c: char| c.is_ascii_alphabetic()) || !s.subject.chars().all(right) {
        return Err(
            s.problem("a name begins with a letter and has letters, digits, '_', '.' and '-'")
        );
    }
    Ok(s.subject.to_string())
}

fn mode_of(s: &Statement<'_>) -> Result<TrafficMode, Problem> {
    match s.single("mode", "override, load-share or broadcast")? {
        "override" => Ok(TrafficMode::Override),
        "load-share" | "loadshare" => Ok(TrafficMode::LoadShare),
        "broadcast" => Ok(TrafficMode::Broadcast),
        other => Err(s.problem(format!(
            "mode '{other}' is not override, load-share or broadcast"
        ))),
    }
}

fn from_of(s: &Statement<'_>) -> Result<Vec<Origin>, Problem> {
    let Some(words) = s.option("from") else {
        return Ok(Vec::new());
    };
    if words.is_empty() {
        return Err(s.problem("'from' takes addresses, each as ADDRESS or ADDRESS:PORT"));
    }
    let mut found: Vec<Origin> = Vec::new();
    for word in words {
        let Some(from) = Origin::parse(word) else {
            return Err(s.problem(format!("from '{word}' is no address, and no ADDRESS:PORT")));
        };
        if found.iter().any(|before| before.meets(&from)) {
            return Err(s.problem(format!("from '{word}' is given twice")));
        }
        found.push(from);
    }
    Ok(found)
}

fn range_of(s: &Statement<'_>) -> Result<(u32, u32), Problem> {
    let (start, stop) = s.subject.split_once('-').unwrap_or((s.subject, s.subject));
    let end = |word: &str| {
        number(word).ok_or_else(|| {
            s.problem(format!(
                "'{word}' is no identifier: a number up to 4294967295"
            ))
        })
    };
    let (start, stop) = (end(start)?, end(stop)?);
    if start > stop {
        return Err(s.problem("the range stops below its start"));
    }
    if (stop - start) as usize >= sys::MAX_LINKS {
        return Err(s.problem(format!(
            "{} links in one line; a plan has at most {}",
            u64::from(stop - start) + 1,
            sys::MAX_LINKS
        )));
    }
    Ok((start, stop))
}

/// The rows of one kind with their names, and the lines that said them.
struct Named<T> {
    rows: Vec<(String, usize, T)>,
}

impl<T> Named<T> {
    fn add(&mut self, s: &Statement<'_>, row: T) -> Result<(), Problem> {
        let name = name_of(s)?;
        if let Some((_, line, _)) = self.rows.iter().find(|(other, _, _)| *other == name) {
            return Err(s.problem(format!("the name is given in line {line} already")));
        }
        self.rows.push((name, s.line, row));
        Ok(())
    }

    fn number_of(&self, name: &str) -> Option<usize> {
        self.rows.iter().position(|(other, _, _)| other == name)
    }

    fn check_count(&self, kind: &str, most: usize, problems: &mut Vec<Problem>) {
        if self.rows.is_empty() {
            problems.push(Problem::new(
                0,
                kind,
                format!("there is none; a plan has 1 to {most}"),
            ));
        }
        if let Some((name, line, _)) = self.rows.get(most) {
            problems.push(Problem::new(
                *line,
                &format!("{kind} {name}"),
                format!(
                    "this is number {} of {}; a plan has at most {most}",
                    most + 1,
                    self.rows.len()
                ),
            ));
        }
    }
}

/// The rows as they were said: members and owners still by name.
struct Said {
    asps: Named<SaidAsp>,
    ases: Named<(TrafficMode, Vec<String>)>,
    links: Vec<SaidLink>,
}

/// An ASP's identifier, whether its lists are taken whole, and where it comes from.
struct SaidAsp {
    id: u32,
    whole_lists: bool,
    from: Vec<Origin>,
}

/// A line of links, both ends, with the name of their owner.
struct SaidLink {
    line: usize,
    start: u32,
    stop: u32,
    owner: String,
    high_speed: bool,
}

fn collect(source: &str, problems: &mut Vec<Problem>) -> Said {
    let mut said = Said {
        asps: Named { rows: Vec::new() },
        ases: Named { rows: Vec::new() },
        links: Vec::new(),
    };
    for (i, line) in source.lines().enumerate() {
        let added = taken_apart(i + 1, line).and_then(|s| s.map_or(Ok(()), |s| add(&mut said, &s)));
        problems.extend(added.err());
    }
    said
}

fn add(said: &mut Said, s: &Statement<'_>) -> Result<(), Problem> {
    match s.word {
        "asp" => {
            let word = s.single("id", "the ASP identifier, a number")?;
            let id = number(word)
                .ok_or_else(|| s.problem(format!("id '{word}' is no number up to 4294967295")))?;
            let whole_lists = s.given("whole-lists")?;
            let from = from_of(s)?;
            said.asps.add(
                s,
                SaidAsp {
                    id,
                    whole_lists,
                    from,
                },
            )
        }
        "as" => {
            let members = s
                .option("members")
                .unwrap_or(&[])
                .iter()
                .map(|m| m.to_string())
                .collect();
            said.ases.add(s, (mode_of(s)?, members))
        }
        _ => {
            let (start, stop) = range_of(s)?;
            said.links.push(SaidLink {
                line: s.line,
                start,
                stop,
                owner: s.single("as", "the AS that owns the link")?.to_string(),
                high_speed: s.given("high-speed")?,
            });
            Ok(())
        }
    }
}

fn asps_of(said: &Said, problems: &mut Vec<Problem>) -> Vec<Asp> {
    said.asps.check_count("asp", sys::MAX_ASPS, problems);
    for (i, (name, line, SaidAsp { id, .. })) in said.asps.rows.iter().enumerate() {
        if let Some((other, at, _)) = said.asps.rows[..i]
            .iter()
            .find(|(_, _, before)| before.id == *id)
        {
            problems.push(Problem::new(
                *line,
                &format!("asp {name}"),
                format!("identifier {id} is that of asp {other} (line {at})"),
            ));
        }
    }
    for (i, (name, line, asp)) in said.asps.rows.iter().enumerate() {
        let meets = |before: &SaidAsp| {
            let met = |one: &Origin| asp.from.iter().any(|other| one.meets(other));
            before.from.iter().any(met)
        };
        if let Some((other, at, _)) = said.asps.rows[..i]
            .iter()
            .find(|(_, _, before)| meets(before))
        {
            problems.push(Problem::new(
                *line,
                &format!("asp {name}"),
                format!("it could not be told from asp {other} (line {at}) by where it comes from"),
            ));
        }
    }
    said.asps
        .rows
        .iter()
        .map(|(name, _, asp)| Asp {
            name: name.clone(),
            id: asp.id,
            whole_lists: asp.whole_lists,
            from: asp.from.clone(),
        })
        .collect()
}

fn ases_of(said: &Said, problems: &mut Vec<Problem>) -> Vec<As> {
    said.ases.check_count("as", sys::MAX_ASES, problems);
    let mut ases = Vec::new();
    for (name, line, (mode, wanted)) in &said.ases.rows {
        let row = format!("as {name}");
        let mut members = Vec::new();
        for member in wanted {
            match said.asps.number_of(member) {
                None => problems.push(Problem::new(
                    *line,
                    &row,
                    format!("member '{member}' is no asp of this plan"),
                )),
                Some(p) if members.contains(&p) => problems.push(Problem::new(
                    *line,
                    &row,
                    format!("member '{member}' is given twice"),
                )),
                Some(p) => members.push(p),
            }
        }
        members.sort_unstable();
        ases.push(As {
            name: name.clone(),
            mode: *mode,
            members,
        });
    }
    ases
}

fn links_of(said: &Said, problems: &mut Vec<Problem>) -> Vec<Link> {
    let mut rows: Vec<(Link, usize)> = Vec::new();
    for range in &said.links {
        let Some(owner) = said.ases.number_of(&range.owner) else {
            problems.push(Problem::new(
                range.line,
                &format!("link {}", range.start),
                format!("'{}' is no as of this plan", range.owner),
            ));
            continue;
        };
        let link = |id| Link {
            id,
            owner,
            high_speed: range.high_speed,
        };
        rows.extend((range.start..=range.stop).map(|id| (link(id), range.line)));
    }
    // by identifier, and one given twice by line
    rows.sort_by_key(|(link, line)| (link.id, *line));
    for pair in rows.windows(2) {
        if pair[0].0.id == pair[1].0.id {
            problems.push(Problem::new(
                pair[1].1,
                &format!("link {}", pair[1].0.id),
                format!("the identifier is given in line {} already", pair[0].1),
            ));
        }
    }
    if rows.len() > sys::MAX_LINKS {
        let last = said.links.last().map_or(0, |l| l.line);
        problems.push(Problem::new(
            last,
            "link",
            format!(
                "{} links; a plan has at most {}",
                rows.len(),
                sys::MAX_LINKS
            ),
        ));
    }
    rows.into_iter().map(|(link, _)| link).collect()
}

/// The plan that a text says, or all that is wrong with it, by lines.
pub fn parse(source: &str) -> Result<Plan, Vec<Problem>> {
    let mut problems = Vec::new();
    let said = collect(source, &mut problems);
    let bad_lines = !problems.is_empty();
    let plan = Plan {
        asps: asps_of(&said, &mut problems),
        ases: ases_of(&said, &mut problems),
        links: links_of(&said, &mut problems),
    };
    if problems.is_empty() {
        return Ok(plan);
    }
    if bad_lines {
        // a row that could not be read is missing elsewhere too: say only what stands for itself
        problems.retain(|p| p.line != 0 && !p.why.contains("of this plan"));
    }
    problems.sort_by_key(|p| if p.line == 0 { usize::MAX } else { p.line });
    Err(problems)
}
