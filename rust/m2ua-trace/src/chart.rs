//! A message sequence chart as text: a lane for each who takes part, an arrow to a line, its words at the
//! right.
use crate::names::Names;
use crate::trace::{Lane, Step, Trace, What};

/// The lanes: how many, and how far from one another.
struct Lanes {
    count: usize,
    width: usize,
}

impl Lanes {
    fn column(&self, lane: Lane) -> usize {
        let place = match lane {
            Lane::LinkSide => 0,
            Lane::Gateway => 1,
            Lane::Asp(p) => 2 + p,
        };
        self.at(place)
    }

    fn at(&self, place: usize) -> usize {
        5 + self.width * place
    }

    fn bare(&self) -> Vec<char> {
        let mut row = vec![' '; self.at(self.count - 1) + 1];
        (0..self.count).for_each(|place| row[self.at(place)] = '|');
        row
    }
}

/// The whole chart, with numbers for ASPs and ASes.
pub fn text(trace: &Trace) -> String {
    named(trace, &Names::default())
}

/// The whole chart, with a title and names.
pub fn named(trace: &Trace, names: &Names) -> String {
    let count = 2 + trace.asps;
    let longest = (2..count).map(|p| names.lane(p).chars().count()).max();
    let lanes = Lanes {
        count,
        width: 10.max(longest.unwrap_or(0) + 1),
    };
    let mut lines = match names.title.as_str() {
        "" => vec![],
        title => vec![title.to_string(), String::new()],
    };
    lines.push(heads(&lanes, names));
    let mut event = 0;
    for step in &trace.steps {
        if step.event != event {
            event = step.event;
            lines.push(lanes.bare().into_iter().collect());
        }
        lines.push(line(step, &lanes, names));
    }
    lines
        .iter()
        .map(|l| format!("{}\n", l.trim_end()))
        .collect()
}

/// Who has which lane.
fn heads(lanes: &Lanes, names: &Names) -> String {
    let mut head = String::new();
    for place in 0..lanes.count {
        let name = names.lane(place);
        let length = name.chars().count();
        let start = (lanes.at(place) + 1).saturating_sub(length.div_ceil(2));
        head.push_str(&" ".repeat(start.saturating_sub(head.chars().count())));
        head.push_str(&name);
    }
    head
}

fn line(step: &Step, lanes: &Lanes, names: &Names) -> String {
    let mut row = lanes.bare();
    match &step.what {
        What::Message(from, to, _) | What::Primitive(from, to) => {
            arrow(&mut row, lanes.column(*from), lanes.column(*to))
        }
        What::Lost(p) => {
            let (from, to) = (lanes.column(Lane::Gateway), lanes.column(Lane::Asp(*p)));
            row[from + 1..to].fill('.');
            row[to] = 'X';
        }
        What::Note => row[lanes.column(Lane::Gateway)] = '*',
    }
    let row: String = row.into_iter().collect();
    format!("{row}  {}", names.label(&step.label))
}

fn arrow(row: &mut [char], from: usize, to: usize) {
    let (left, right) = (from.min(to), from.max(to));
    row[left + 1..right].fill('-');
    if from < to {
        row[right - 1] = '>';
    } else {
        row[left + 1] = '<';
    }
}
