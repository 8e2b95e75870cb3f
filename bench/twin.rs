//! The tool's algorithm by hand, in plain Rust with no proof: the same questions in the same order,
//! tables of the same size, and the same steps.

const MOST_BYTES: usize = 16_384;
const MOST_ITEMS: usize = 64;
const MOST_ARCS: usize = 128;
const LONGEST: u32 = 1_000_000;

const TABLE: u8 = 1;
const PROCESSOR: u8 = 2;
const CAN: u8 = 3;
const GATEWAY: u8 = 4;

#[derive(Clone, Copy, PartialEq, Eq)]
pub enum File {
    Cell,
    Process,
}

/// The first question answered with no.
#[derive(Clone, Copy, PartialEq, Eq)]
pub enum Refusal {
    TooLong,
    NotWhole,
    StrangeKind,
    WrongLength,
    OutOfRange,
    TakenStation,
    BadName,
    ManyItems,
    BadPeriod,
    BadLimits,
    BadStart,
    TakenPriority,
    NotAdmitted,
    NoItem,
    BadArc,
    KnownArc,
    ManyArcs,
}

#[derive(Clone, Copy, PartialEq, Eq)]
pub struct Fault {
    pub refusal: Refusal,
    pub place: usize,
    pub file: File,
}

#[derive(Clone, Copy, PartialEq, Eq)]
pub enum Cause {
    Input,
    Limit,
}

#[derive(Clone, Copy, PartialEq, Eq)]
pub enum Outcome<'a> {
    Settled {
        steps: u64,
    },
    Broken {
        name: &'a str,
        cause: Cause,
        steps: u64,
    },
    Refused(Fault),
}

#[derive(Clone, Copy, Default)]
pub struct Row<'a> {
    // The tool finds the names too, so the twin does, though the bench compares figures alone.
    #[allow(dead_code)]
    pub name: &'a str,
    pub late: u32,
    pub wait: u32,
    pub end: u32,
    pub limit: u32,
}

/// What two files come to: one row for each item of a settled sheet.
pub struct Report<'a> {
    pub outcome: Outcome<'a>,
    pub count: usize,
    pub rows: [Row<'a>; MOST_ITEMS],
}

#[derive(Clone, Copy, Default)]
struct Item {
    class: u8,
    station: u8,
    mark: u8,
    priority: u8,
    queue: u8,
    size: u8,
    period: u32,
    duration: u32,
    held: u32,
    offset: u32,
    deadline: u32,
}

impl Item {
    fn shares_station(&self, other: &Item) -> bool {
        self.class == other.class && self.station == other.station
    }
}

#[derive(Clone, Copy, Default)]
struct Times {
    late: u32,
    wait: u32,
}

impl Times {
    fn jitter(&self, item: &Item) -> u32 {
        self.late.saturating_sub(item.offset)
    }

    fn end(&self, item: &Item) -> u32 {
        self.late + self.wait + item.duration
    }
}

#[derive(Clone, Copy, Default)]
struct Arc {
    from: u8,
    to: u8,
}

#[derive(Clone, Copy)]
struct Slot {
    round: u32,
    length: u32,
    capacity: u16,
}

/// The stations of each class by number, with the figures that the class has.
#[derive(Default)]
struct Cell {
    tables: [Option<()>; 8],
    processors: [Option<()>; 8],
    buses: [Option<u32>; 8],
    gateways: [Option<Slot>; 8],
}

fn add<T>(stations: &mut [Option<T>; 8], number: usize, figures: T) -> Result<(), Refusal> {
    if stations[number].is_some() {
        return Err(Refusal::TakenStation);
    }
    stations[number] = Some(figures);
    Ok(())
}

impl Cell {
    fn take(&mut self, kind: u16, body: &[u8]) -> Result<(), Refusal> {
        if kind != 1 {
            return Err(Refusal::StrangeKind);
        }
        if body.len() != 12 {
            return Err(Refusal::WrongLength);
        }
        let number = usize::from(body[1]);
        let first = long(body, 2);
        let second = long(body, 6);
        let third = u16::from_le_bytes([body[10], body[11]]);
        let unused = second == 0 && third == 0;
        if number > 7 {
            return Err(Refusal::OutOfRange);
        }
        match body[0] {
            TABLE if first == 0 && unused => add(&mut self.tables, number, ()),
            PROCESSOR if first == 0 && unused => add(&mut self.processors, number, ()),
            CAN if (1..=100).contains(&first) && unused => add(&mut self.buses, number, first),
            GATEWAY
                if (1..=100_000).contains(&first)
                    && (1..=first).contains(&second)
                    && (1..=240).contains(&third) =>
            {
                let slot = Slot {
                    round: first,
                    length: second,
                    capacity: third,
                };
                add(&mut self.gateways, number, slot)
            }
            _ => Err(Refusal::OutOfRange),
        }
    }

    fn admits(&self, item: &Item) -> bool {
        let station = usize::from(item.station);
        if station > 7 {
            return false;
        }
        match item.class {
            TABLE => {
                self.tables[station].is_some()
                    && item.mark == 1
                    && item.size == 0
                    && item.held == 0
                    && item.queue == 0
            }
            PROCESSOR => {
                self.processors[station].is_some()
                    && item.mark == 0
                    && item.size == 0
                    && item.queue == 0
            }
            CAN => self.buses[station].is_some_and(|ticks_per_bit| {
                item.mark == 0
                    && item.held == 0
                    && item.size <= 8
                    && item.duration == (55 + 10 * u32::from(item.size)) * ticks_per_bit
            }),
            GATEWAY => self.gateways[station].is_some_and(|slot| {
                item.mark == 0
                    && item.held == 0
                    && item.queue == 0
                    && item.size >= 1
                    && u16::from(item.size) <= slot.capacity
                    && item.duration == slot.length
            }),
            _ => false,
        }
    }
}

enum Became {
    Raised,
    Quiet,
    Broke(Cause),
}

struct Sheet<'a> {
    cell: Cell,
    count: usize,
    items: [Item; MOST_ITEMS],
    names: [&'a str; MOST_ITEMS],
    times: [Times; MOST_ITEMS],
    arc_count: usize,
    arcs: [Arc; MOST_ARCS],
}

impl<'a> Sheet<'a> {
    fn new(cell: Cell) -> Sheet<'a> {
        Sheet {
            cell,
            count: 0,
            items: [Item::default(); MOST_ITEMS],
            names: [""; MOST_ITEMS],
            times: [Times::default(); MOST_ITEMS],
            arc_count: 0,
            arcs: [Arc::default(); MOST_ARCS],
        }
    }

    fn items(&self) -> &[Item] {
        &self.items[..self.count]
    }

    fn arcs(&self) -> &[Arc] {
        &self.arcs[..self.arc_count]
    }

    /// The items in use, each with its times.
    fn pairs(&self) -> impl Iterator<Item = (&Item, &Times)> {
        self.items().iter().zip(&self.times[..self.count])
    }

    fn take(&mut self, kind: u16, body: &'a [u8]) -> Result<(), Refusal> {
        match kind {
            2 => {
                let (item, name) = read_item(body)?;
                self.enter(item, name)
            }
            3 => match *body {
                [from, to] => self.join(Arc { from, to }),
                _ => Err(Refusal::WrongLength),
            },
            _ => Err(Refusal::StrangeKind),
        }
    }

    fn enter(&mut self, item: Item, name: &'a str) -> Result<(), Refusal> {
        if self.count >= MOST_ITEMS {
            return Err(Refusal::ManyItems);
        }
        if item.period < 1 || item.period > LONGEST {
            return Err(Refusal::BadPeriod);
        }
        if item.duration < 1 || item.duration > item.deadline || item.deadline > item.period {
            return Err(Refusal::BadLimits);
        }
        if item.mark > 1 || item.held > item.duration || item.offset >= item.period {
            return Err(Refusal::BadStart);
        }
        let clashes = |other: &Item| item.shares_station(other) && item.priority == other.priority;
        if self.items().iter().any(clashes) {
            return Err(Refusal::TakenPriority);
        }
        if !self.cell.admits(&item) {
            return Err(Refusal::NotAdmitted);
        }
        self.items[self.count] = item;
        self.names[self.count] = name;
        self.count += 1;
        Ok(())
    }

    fn join(&mut self, arc: Arc) -> Result<(), Refusal> {
        let (from, to) = (usize::from(arc.from), usize::from(arc.to));
        if from >= self.count || to >= self.count {
            return Err(Refusal::NoItem);
        }
        if from >= to || self.items[from].period != self.items[to].period {
            return Err(Refusal::BadArc);
        }
        if self
            .arcs()
            .iter()
            .any(|a| a.from == arc.from && a.to == arc.to)
        {
            return Err(Refusal::KnownArc);
        }
        if self.arc_count >= MOST_ARCS {
            return Err(Refusal::ManyArcs);
        }
        self.arcs[self.arc_count] = arc;
        self.arc_count += 1;
        Ok(())
    }

    fn latest(&self, i: usize) -> u32 {
        let mut late = self.items[i].offset;
        for arc in self.arcs() {
            if usize::from(arc.to) == i {
                let p = usize::from(arc.from);
                late = late.max(self.times[p].end(&self.items[p]));
            }
        }
        late
    }

    fn wait(&self, i: usize) -> u32 {
        let item = &self.items[i];
        match item.class {
            PROCESSOR => self.processor_wait(i),
            CAN => self.can_wait(i),
            GATEWAY => match self.cell.gateways[usize::from(item.station)] {
                Some(slot) => self.gateway_wait(i, slot),
                None => 0,
            },
            _ => 0,
        }
    }

    fn processor_wait(&self, i: usize) -> u32 {
        let mine = &self.items[i];
        let busy = u64::from(self.times[i].wait) + u64::from(mine.duration);
        let mut blocking = 0;
        let mut work = 0;
        for (other, its) in self.pairs() {
            if !mine.shares_station(other) {
                continue;
            }
            if other.priority < mine.priority {
                let window = busy + u64::from(its.jitter(other));
                work += window.div_ceil(u64::from(other.period)) * u64::from(other.duration);
            } else if other.priority > mine.priority {
                blocking = other.held.max(blocking);
            }
        }
        cap(u64::from(blocking) + work)
    }

    fn can_wait(&self, i: usize) -> u32 {
        let mine = &self.items[i];
        let mut blocking = 0;
        let mut frames = 0;
        for (other, its) in self.pairs() {
            if !mine.shares_station(other) {
                continue;
            }
            if other.priority < mine.priority {
                frames += arrivals(&self.times[i], other, its) * u64::from(other.duration);
            } else if other.priority > mine.priority {
                blocking = other.duration.max(blocking);
            }
        }
        cap(u64::from(blocking) + frames)
    }

    fn gateway_wait(&self, i: usize, slot: Slot) -> u32 {
        let mine = &self.items[i];
        let mut bytes = u64::from(mine.size);
        for (other, its) in self.pairs() {
            if mine.shares_station(other) && other.priority < mine.priority {
                bytes += arrivals(&self.times[i], other, its) * u64::from(other.size);
            }
        }
        let slots = bytes.div_ceil(u64::from(slot.capacity));
        cap((1 + slots) * u64::from(slot.round))
    }

    fn step(&mut self, i: usize) -> Became {
        let item = &self.items[i];
        let old = self.times[i];
        let new = Times {
            late: self.latest(i),
            wait: self.wait(i),
        };
        if item.mark == 1 && item.offset < new.late {
            return Became::Broke(Cause::Input);
        }
        if item.deadline < new.end(item) {
            return Became::Broke(Cause::Limit);
        }
        self.times[i] = new;
        if old.late < new.late || old.wait < new.wait {
            Became::Raised
        } else {
            Became::Quiet
        }
    }

    /// Steps the items round and round until a whole round was quiet, or one breaks the sheet.
    fn run(&mut self) -> Outcome<'a> {
        let mut i = 0;
        let mut quiet = 0;
        let mut steps = 0;
        while quiet < self.count {
            steps += 1;
            match self.step(i) {
                Became::Raised => quiet = 0,
                Became::Quiet => quiet += 1,
                Became::Broke(cause) => {
                    return Outcome::Broken {
                        name: self.names[i],
                        cause,
                        steps,
                    }
                }
            }
            i = if i + 1 < self.count { i + 1 } else { 0 };
        }
        Outcome::Settled { steps }
    }

    fn row(&self, i: usize) -> Row<'a> {
        let item = &self.items[i];
        let times = self.times[i];
        Row {
            name: self.names[i],
            late: times.late,
            wait: times.wait,
            end: times.end(item),
            limit: item.deadline,
        }
    }
}

fn cap(wait: u64) -> u32 {
    wait.min(u64::from(LONGEST) + 1) as u32
}

fn arrivals(own: &Times, other: &Item, its: &Times) -> u64 {
    (u64::from(own.wait) + u64::from(its.jitter(other))) / u64::from(other.period) + 1
}

fn long(bytes: &[u8], at: usize) -> u32 {
    u32::from_le_bytes([bytes[at], bytes[at + 1], bytes[at + 2], bytes[at + 3]])
}

fn is_letter(byte: &u8) -> bool {
    matches!(byte, b'a'..=b'z' | b'0'..=b'9' | b'-')
}

fn read_item(body: &[u8]) -> Result<(Item, &str), Refusal> {
    if body.len() < 27 || body.len() > 42 {
        return Err(Refusal::WrongLength);
    }
    let item = Item {
        class: body[0],
        station: body[1],
        mark: body[2],
        priority: body[3],
        queue: body[4],
        size: body[5],
        period: long(body, 6),
        duration: long(body, 10),
        held: long(body, 14),
        offset: long(body, 18),
        deadline: long(body, 22),
    };
    let letters = &body[26..];
    if !letters.iter().all(is_letter) {
        return Err(Refusal::BadName);
    }
    match std::str::from_utf8(letters) {
        Ok(name) => Ok((item, name)),
        Err(_) => Err(Refusal::BadName),
    }
}

/// The kind and body of the record in front, and what stands behind it.
fn cut(bytes: &[u8]) -> Option<(u16, &[u8], &[u8])> {
    let [l0, l1, k0, k1, after @ ..] = bytes else {
        return None;
    };
    let length = usize::from(u16::from_le_bytes([*l0, *l1]));
    if length > after.len() {
        return None;
    }
    let (body, rest) = after.split_at(length);
    Some((u16::from_le_bytes([*k0, *k1]), body, rest))
}

/// Hands all records of a file to `take`, up to the first fault.
fn take_all<'a>(
    file: File,
    bytes: &'a [u8],
    mut take: impl FnMut(u16, &'a [u8]) -> Result<(), Refusal>,
) -> Result<(), Fault> {
    if bytes.len() > MOST_BYTES {
        return Err(Fault {
            refusal: Refusal::TooLong,
            place: 0,
            file,
        });
    }
    let mut rest = bytes;
    while !rest.is_empty() {
        let place = bytes.len() - rest.len();
        let fault = |refusal| Fault {
            refusal,
            place,
            file,
        };
        let (kind, body, behind) = cut(rest).ok_or(fault(Refusal::NotWhole))?;
        take(kind, body).map_err(fault)?;
        rest = behind;
    }
    Ok(())
}

fn make_sheet<'a>(cell: &[u8], process: &'a [u8]) -> Result<Sheet<'a>, Fault> {
    let mut made = Cell::default();
    take_all(File::Cell, cell, |kind, body| made.take(kind, body))?;
    let mut sheet = Sheet::new(made);
    take_all(File::Process, process, |kind, body| sheet.take(kind, body))?;
    Ok(sheet)
}

pub fn tell<'a>(cell: &[u8], process: &'a [u8]) -> Report<'a> {
    let mut rows = [Row::default(); MOST_ITEMS];
    let mut count = 0;
    let outcome = match make_sheet(cell, process) {
        Err(fault) => Outcome::Refused(fault),
        Ok(mut sheet) => {
            let outcome = sheet.run();
            if let Outcome::Settled { .. } = outcome {
                count = sheet.count;
                for (i, row) in rows[..count].iter_mut().enumerate() {
                    *row = sheet.row(i);
                }
            }
            outcome
        }
    };
    Report {
        outcome,
        count,
        rows,
    }
}
