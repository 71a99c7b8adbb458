// A plain program for comparison: the same reports as `psched rehearse` on scripts of bookings alone, on hosts that allow
// everything and have all tools, written with std and nothing else, with no proofs. It keeps sorted maps of what is booked, by
// class and start, and of what may lapse, and passes over no row that isn't concerned.
use std::collections::{BTreeMap, BTreeSet};
use std::fmt::Write as _;
use std::io::{self, Read, Write};

#[derive(Clone, Copy, PartialEq, Eq)]
enum Class {
    BackgroundMulti,
    Background,
    Normal,
    Exclusive,
}

impl Class {
    fn read(text: &str) -> Option<Class> {
        Some(match text {
            "background-multi" => Class::BackgroundMulti,
            "background" => Class::Background,
            "normal" => Class::Normal,
            "exclusive" => Class::Exclusive,
            _ => return None,
        })
    }

    fn name(self) -> &'static str {
        match self {
            Class::BackgroundMulti => "background-multi",
            Class::Background => "background",
            Class::Normal => "normal",
            Class::Exclusive => "exclusive",
        }
    }
}

#[derive(Clone, Copy, PartialEq, Eq)]
enum Closed {
    Missed,
    Preempted,
}

struct Row {
    number: u32,
    class: Class,
    priority: i16,
    start: u64,
    end: u64,
    closed: Option<Closed>,
}

impl Row {
    fn lapses(&self, moment: u64) -> bool {
        self.closed.is_none() && self.start + 15 < moment
    }

    fn state(&self, moment: u64) -> &'static str {
        match self.closed {
            Some(Closed::Missed) => "missed",
            Some(Closed::Preempted) => "preempted",
            None if self.lapses(moment) => "missed",
            None if self.start <= moment + 10 => "on-deck",
            None => "pending",
        }
    }
}

/// What is booked in one class: the end of each run, by its start and its place among the rows.
#[derive(Default)]
struct Booked {
    ends: BTreeMap<(u64, usize), u64>,
    longest: u64,
}

impl Booked {
    fn near(&self, start: u64, end: u64) -> impl Iterator<Item = usize> + '_ {
        let from = start.saturating_sub(self.longest);
        self.ends
            .range((from, 0)..(end, 0))
            .filter(move |(_, e)| start < **e)
            .map(|((_, place), _)| *place)
    }
}

struct Host {
    name: String,
    number: u16,
    moment: u64,
    rows: Vec<Row>,
    normal: Booked,
    exclusive: Booked,
    // the rows that aren't closed, by start
    open: BTreeSet<(u64, usize)>,
}

fn id(host: u16, number: u32) -> String {
    format!("{host:04x}0000-0000-8001-8000-{number:08x}0000")
}

impl Host {
    fn booked(&mut self, class: Class) -> Option<&mut Booked> {
        match class {
            Class::Normal => Some(&mut self.normal),
            Class::Exclusive => Some(&mut self.exclusive),
            _ => None,
        }
    }

    fn conflicts(&self, class: Class, start: u64, end: u64) -> Vec<usize> {
        let mut found = Vec::new();
        if matches!(class, Class::Exclusive | Class::Normal) {
            found.extend(self.exclusive.near(start, end));
        }
        if class == Class::Exclusive {
            found.extend(self.normal.near(start, end));
        }
        found.sort_unstable();
        found
    }

    fn close(&mut self, place: usize, why: Closed) {
        let row = &mut self.rows[place];
        row.closed = Some(why);
        let (class, start) = (row.class, row.start);
        self.open.remove(&(start, place));
        if let Some(booked) = self.booked(class) {
            booked.ends.remove(&(start, place));
        }
    }

    fn book(&mut self, at: u64, class: Class, priority: i16, start: u64, length: u64) -> String {
        let moment = self.moment.max(at);
        if start < moment {
            return "denied 2 past".into();
        }
        let end = start + length;
        let mut preempted = Vec::new();
        for place in self.conflicts(class, start, end) {
            let row = &self.rows[place];
            if row.lapses(moment) {
                continue;
            }
            if row.priority < priority && moment + 10 < row.start {
                preempted.push(place);
            } else {
                return format!("denied 3 conflict {}", id(self.number, row.number));
            }
        }
        if self.rows.len() >= 50_000 {
            return "denied 4 full".into();
        }
        while let Some(&(first, place)) = self.open.first() {
            if first + 15 >= moment {
                break;
            }
            self.close(place, Closed::Missed);
        }
        let place = self.rows.len();
        let number = place as u32 + 1;
        let mut said = format!("accepted {}", id(self.number, number));
        if !preempted.is_empty() {
            said.push_str(" preempts");
        }
        for place in preempted {
            self.close(place, Closed::Preempted);
            said.push(' ');
            said.push_str(&id(self.number, self.rows[place].number));
        }
        self.open.insert((start, place));
        if let Some(booked) = self.booked(class) {
            booked.ends.insert((start, place), end);
            booked.longest = booked.longest.max(length);
        }
        self.rows.push(Row {
            number,
            class,
            priority,
            start,
            end,
            closed: None,
        });
        self.moment = moment;
        said
    }
}

fn main() -> io::Result<()> {
    let mut text = String::new();
    io::stdin().read_to_string(&mut text)?;
    let mut hosts: Vec<Host> = Vec::new();
    let mut report = String::new();
    let mut last = 0;
    for (number, line) in text.lines().enumerate() {
        if line.is_empty() || line.starts_with('#') {
            continue;
        }
        let fields: Vec<&str> = line.split(' ').collect();
        let said = match fields.as_slice() {
            ["host", name, number] => {
                hosts.push(Host {
                    name: name.to_string(),
                    number: number.parse().expect("a number"),
                    moment: 0,
                    rows: Vec::new(),
                    normal: Booked::default(),
                    exclusive: Booked::default(),
                    open: BTreeSet::new(),
                });
                "ok".into()
            }
            [at, name, "book", class, priority, start, length] => {
                let at: u64 = at.parse().expect("a moment");
                last = last.max(at);
                let host = hosts.iter_mut().find(|h| h.name == *name).expect("a host");
                host.book(
                    at,
                    Class::read(class).expect("a class"),
                    priority.parse().expect("a priority"),
                    start.parse().expect("a start"),
                    length.parse().expect("a length"),
                )
            }
            _ => panic!("line {}", number + 1),
        };
        writeln!(report, "{} {said}", number + 1).expect("memory");
    }
    for host in &mut hosts {
        host.rows.sort_by_key(|r| (r.start, r.end, r.number));
        for row in &host.rows {
            writeln!(
                report,
                "{} {} {} {} {} {} {}",
                host.name,
                row.start,
                row.end,
                row.class.name(),
                row.priority,
                row.state(last),
                id(host.number, row.number)
            )
            .expect("memory");
        }
    }
    io::stdout().write_all(report.as_bytes())
}
