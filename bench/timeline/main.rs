// A plain program for comparison: the same made bookings and questions as the crate `host_timeline_bench`, written with std
// and nothing else, with no proofs. It keeps a sorted map of what is booked for each class, and walks over what is near.
use std::collections::{BTreeMap, HashMap};
use std::env;
use std::process::exit;

#[derive(Clone, Copy, PartialEq, Eq)]
enum Class {
    Normal,
    Exclusive,
}

#[derive(Clone, Copy)]
struct Booking {
    number: u32,
    class: Class,
    start: u64,
    end: u64,
    priority: i16,
    firm_from: u64,
}

/// The bookings of one class, by start and then by number.
#[derive(Default)]
struct Lane {
    bookings: BTreeMap<(u64, u32), Booking>,
    longest: u64,
}

impl Lane {
    fn near(&self, from: u64, until: u64) -> impl Iterator<Item = &Booking> {
        let first = from.saturating_sub(self.longest);
        self.bookings
            .range((first, 0)..(until, 0))
            .map(|(_, booking)| booking)
            .filter(move |booking| from < booking.end)
    }
}

#[derive(Default)]
struct Timeline {
    normal: Lane,
    exclusive: Lane,
    starts: HashMap<u32, (Class, u64)>,
}

/// The windows of free starts so far, and the first start that may be free.
struct Tier {
    windows: Vec<(u64, u64)>,
    from: u64,
    last: u64,
}

impl Tier {
    fn new(first: u64, last: u64) -> Tier {
        Tier {
            windows: Vec::new(),
            from: first,
            last,
        }
    }

    fn add(&mut self, until: u64) {
        if self.from < until && self.from <= self.last && self.windows.len() < 128 {
            self.windows.push((self.from, self.last.min(until - 1)));
        }
    }

    fn pass(&mut self, booking: &Booking, length: u64) {
        self.add((booking.start + 1).saturating_sub(length));
        self.from = self.from.max(booking.end);
    }

    fn sum(mut self) -> u64 {
        self.add(self.last + 1);
        let step = |sum: u64, n: u64| sum.wrapping_mul(31).wrapping_add(n);
        self.windows
            .iter()
            .fold(0, |sum, (first, last)| step(step(sum, *first), *last))
    }
}

impl Timeline {
    fn lane(&mut self, class: Class) -> &mut Lane {
        match class {
            Class::Normal => &mut self.normal,
            Class::Exclusive => &mut self.exclusive,
        }
    }

    fn release(&mut self, number: u32) {
        if let Some((class, start)) = self.starts.remove(&number) {
            self.lane(class).bookings.remove(&(start, number));
        }
    }

    fn put(&mut self, booking: Booking) {
        self.release(booking.number);
        let mut gone: Vec<u32> = Vec::new();
        gone.extend(self.exclusive.near(booking.start, booking.end).map(|b| b.number));
        if booking.class == Class::Exclusive {
            gone.extend(self.normal.near(booking.start, booking.end).map(|b| b.number));
        }
        for number in gone {
            self.release(number);
        }
        self.starts.insert(booking.number, (booking.class, booking.start));
        let lane = self.lane(booking.class);
        lane.longest = lane.longest.max(booking.end - booking.start);
        lane.bookings.insert((booking.start, booking.number), booking);
    }

    // The tiers of an exclusive run, in one walk over both classes by start.
    fn free(&self, length: u64, priority: i16, window: (u64, u64), moment: u64) -> (Tier, Tier) {
        let (first, last) = window;
        let until = last + length;
        let mut tiers = (Tier::new(first, last), Tier::new(first, last));
        let mut normal = self.normal.near(first, until).peekable();
        let mut exclusive = self.exclusive.near(first, until).peekable();
        loop {
            let next = match (normal.peek(), exclusive.peek()) {
                (Some(a), Some(b)) if b.start < a.start => exclusive.next(),
                (None, Some(_)) => exclusive.next(),
                _ => normal.next(),
            };
            let Some(booking) = next else {
                return tiers;
            };
            tiers.0.pass(booking, length);
            if booking.priority >= priority || moment >= booking.firm_from {
                tiers.1.pass(booking, length);
            }
        }
    }
}

fn draw(seed: &mut u64) -> u64 {
    *seed = seed
        .wrapping_mul(6_364_136_223_846_793_005)
        .wrapping_add(1_442_695_040_888_963_407);
    *seed >> 33
}

const DAY: u64 = 86_400;
const SPAN: u64 = 5_000_000;

fn made(seed: &mut u64, kind: &str, number: u32) -> Booking {
    let start = match kind {
        "normal" => draw(seed) % SPAN,
        "mixed" => number as u64 * 100,
        _ => number as u64 * 10,
    };
    let length = match kind {
        "normal" => 1 + draw(seed) % 600,
        "mixed" => 60,
        _ => 10,
    };
    let class = match kind {
        "normal" => Class::Normal,
        "mixed" if draw(seed) % 2 == 0 => Class::Normal,
        _ => Class::Exclusive,
    };
    Booking {
        number,
        class,
        start,
        end: start + length,
        priority: if draw(seed) % 2 == 0 { 0 } else { 2 },
        firm_from: start.saturating_sub(10),
    }
}

fn main() {
    let words: Vec<String> = env::args().skip(1).collect();
    let [kind, bookings, questions] = words.as_slice() else {
        exit(2);
    };
    let bookings: u32 = bookings.parse().expect("how many bookings");
    let questions: u32 = questions.parse().expect("how many questions");
    let reach = match kind.as_str() {
        "normal" => SPAN,
        "mixed" => bookings as u64 * 100 + 1,
        _ => bookings as u64 * 10 + 1,
    };
    let mut seed = 26;
    let mut timeline = Timeline::default();
    for number in 0..bookings {
        timeline.put(made(&mut seed, kind, number));
    }
    let mut sum: u64 = 0;
    for _ in 0..questions {
        let first = draw(&mut seed) % reach;
        let (free, freeable) = timeline.free(60, 1, (first, first + DAY), first);
        sum = sum.wrapping_add(free.sum().wrapping_add(freeable.sum()));
    }
    println!("{} bookings, {sum}", timeline.starts.len());
}
