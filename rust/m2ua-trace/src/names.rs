//! What a script says of itself in comments, for its charts: `# title: TEXT`, `# asps: NAME NAME ..` and
//! `# ases: NAME NAME ..`, in the sequence of the plan.

/// A title and names; where none is given there are numbers.
#[derive(Clone, Debug, Default, PartialEq, Eq)]
pub struct Names {
    pub title: String,
    pub asps: Vec<String>,
    pub ases: Vec<String>,
}

impl Names {
    /// Those of a script; the last line of a kind counts.
    pub fn of(source: &str) -> Names {
        let mut names = Names::default();
        let words = |text: &str| text.split_whitespace().map(String::from).collect();
        for line in source.lines() {
            if let Some(title) = line.strip_prefix("# title: ") {
                names.title = title.trim().to_string();
            } else if let Some(list) = line.strip_prefix("# asps: ") {
                names.asps = words(list);
            } else if let Some(list) = line.strip_prefix("# ases: ") {
                names.ases = words(list);
            }
        }
        names
    }

    /// The ASP at a place of the plan.
    pub fn asp(&self, place: usize) -> String {
        match self.asps.get(place) {
            Some(name) => name.clone(),
            None => format!("ASP {place}"),
        }
    }

    /// Who has a lane, by its place in the chart.
    pub fn lane(&self, place: usize) -> String {
        match place {
            0 => "link side".into(),
            1 => "gateway".into(),
            p => self.asp(p - 2),
        }
    }

    /// Words in which `AS 0` and `ASP 0` have their names.
    pub fn label(&self, text: &str) -> String {
        let mut out: Vec<String> = Vec::new();
        for word in text.split(' ') {
            let list = match out.last().map(String::as_str) {
                Some("AS") => &self.ases,
                Some("ASP") => &self.asps,
                _ => &Vec::new(),
            };
            let digits = word.chars().take_while(char::is_ascii_digit).count();
            let name = word[..digits].parse().ok().and_then(|n: usize| list.get(n));
            out.push(match name {
                Some(name) => format!("{name}{}", &word[digits..]),
                None => word.to_string(),
            });
        }
        out.join(" ")
    }
}

#[cfg(test)]
mod tests {
    use super::*;

    #[test]
    fn comments_name_asps_and_ases() {
        let names = Names::of("# title: A day\nplan 00\n# asps: left right\n# ases: east\n");
        assert_eq!(
            (names.title.as_str(), names.asp(1), names.asp(2)),
            ("A day", "right".into(), "ASP 2".into())
        );
        for (text, named) in [
            ("Notify, AS 0 inactive", "Notify, AS east inactive"),
            ("T(r) of AS 1 is over", "T(r) of AS 1 is over"),
            ("to ASP 1, AS 0.", "to ASP right, AS east."),
            ("ASP Up, ASP identifier 7", "ASP Up, ASP identifier 7"),
        ] {
            assert_eq!(names.label(text), named);
        }
        assert_eq!(Names::default().label("AS 0 is active"), "AS 0 is active");
    }
}
