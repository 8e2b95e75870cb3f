//! Cells and processes that take many steps.

/// A cell file and a process file.
#[derive(Clone)]
pub struct Plan {
    pub cell: Vec<u8>,
    pub process: Vec<u8>,
}

struct NewItem {
    name: &'static str,
    class: u8,
    station: u8,
    mark: u8,
    priority: u8,
    size: u8,
    period: u32,
    duration: u32,
    held: u32,
    offset: u32,
}

fn put_record(file: &mut Vec<u8>, kind: u16, body: &[u8]) {
    file.extend((body.len() as u16).to_le_bytes());
    file.extend(kind.to_le_bytes());
    file.extend(body);
}

fn put_station(file: &mut Vec<u8>, class: u8, station: u8, figures: (u32, u32, u16)) {
    let mut body = vec![class, station];
    body.extend(figures.0.to_le_bytes());
    body.extend(figures.1.to_le_bytes());
    body.extend(figures.2.to_le_bytes());
    put_record(file, 1, &body);
}

fn put_item(file: &mut Vec<u8>, item: &NewItem, group: u32) {
    let queue = 0;
    let mut body = vec![
        item.class,
        item.station,
        item.mark,
        item.priority,
        queue,
        item.size,
    ];
    let deadline = item.period;
    for figure in [item.period, item.duration, item.held, item.offset, deadline] {
        body.extend(figure.to_le_bytes());
    }
    body.extend(format!("{}-{group}", item.name).bytes());
    put_record(file, 2, &body);
}

fn put_arc(file: &mut Vec<u8>, from: u32, to: u32) {
    put_record(file, 3, &[from as u8, to as u8]);
}

const TICKS_PER_BIT: u32 = 2;
const BITS_OF_LONGEST_FRAME: u32 = 135;
const ROUND: u32 = 500;
const LENGTH: u32 = 100;
const CAPACITY: u16 = 16;

/// How many thousandths of the bus the strong messages use.
const BUS_LOAD: u32 = 600;

fn cell() -> Vec<u8> {
    let mut file = Vec::new();
    put_station(&mut file, 1, 0, (0, 0, 0));
    put_station(&mut file, 2, 0, (0, 0, 0));
    put_station(&mut file, 2, 1, (0, 0, 0));
    put_station(&mut file, 3, 0, (TICKS_PER_BIT, 0, 0));
    put_station(&mut file, 4, 0, (ROUND, LENGTH, CAPACITY));
    file
}

/// The period at which `groups` items of this duration use `load` thousandths of a station.
fn period_for(duration: u32, groups: u32, load: u32) -> u32 {
    duration * groups * 1000 / load
}

/// Eight items: a chain of five with a long period through all classes, each weak at its station,
/// and three strong items with short periods that load the two processors and the bus.
fn group(g: u32, groups: u32, load: u32) -> [NewItem; 8] {
    let long = 400_000 + 70_001 * g;
    let weak = 100 + (g * 5 % groups) as u8;
    let strong = 1 + g as u8;
    let slow = 4_000 / groups + 13 * g;
    let quick = 100 + g;
    let size = 1 + (g % 8) as u8;
    let frame = (55 + 10 * u32::from(size)) * TICKS_PER_BIT;
    let beat = BITS_OF_LONGEST_FRAME * TICKS_PER_BIT;
    let item = |name, class, station, priority, period, duration| NewItem {
        name,
        class,
        station,
        mark: 0,
        priority,
        size: 0,
        period,
        duration,
        held: 0,
        offset: 0,
    };
    [
        NewItem {
            mark: 1,
            offset: 500 * g,
            ..item("sense", 1, 0, weak, long, 400)
        },
        NewItem {
            held: 2,
            ..item("plan", 2, 0, weak, long, slow)
        },
        NewItem {
            size,
            ..item("send", 3, 0, weak, long, frame)
        },
        NewItem {
            held: 3,
            ..item("drive", 2, 1, weak, long, slow)
        },
        NewItem {
            size,
            ..item("pass", 4, 0, weak, long, LENGTH)
        },
        item("tick", 2, 0, strong, period_for(quick, groups, load), quick),
        item(
            "turn",
            2,
            1,
            strong,
            period_for(quick + 3, groups, load),
            quick + 3,
        ),
        NewItem {
            size: 8,
            ..item(
                "beat",
                3,
                0,
                strong,
                period_for(beat, groups, BUS_LOAD),
                beat,
            )
        },
    ]
}

/// A plan with 8 items for each group, whose strong processes use `load` thousandths of each
/// processor.
pub fn plan(groups: u32, load: u32) -> Plan {
    let mut process = Vec::new();
    for g in 0..groups {
        for item in group(g, groups, load) {
            put_item(&mut process, &item, g);
        }
    }
    for g in 0..groups {
        for link in 0..4 {
            put_arc(&mut process, 8 * g + link, 8 * g + link + 1);
        }
    }
    Plan {
        cell: cell(),
        process,
    }
}
