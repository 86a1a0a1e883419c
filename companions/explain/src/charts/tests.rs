use super::*;
use crate::audit::{of_h2audit, read_audits};
use crate::stream::Stream;

const OPENED: At = At { packet: 1, time: 10, frame: 1 };

fn audit(lines: &str) -> Audit {
    let front = "capture records 9 segments 9 snapped 0 not-ipv4 0 fragments 0 not-tcp 0 refused 0\n\
        connection 1 client 10.0.0.1:1 server 10.0.0.2:2 record 1 http2 frames 9\n";
    let audits = read_audits(format!("{front}{lines}").as_bytes(), &import::RecordsOf::same(), of_h2audit).ok();
    audits.and_then(|mut audits| audits.pop()).map(|audit| *audit).expect("a report")
}

/// A connection whose frames are met.
struct Met {
    charts: Charts,
    table: Table,
    initials: [Initial; 2],
    windows: [ConnectionWindow; 2],
    frame: u32,
}

impl Met {
    fn new(choice: &Rc<Choice>, audit: &Audit) -> Met {
        let numbers = Numbers::new();
        Met {
            charts: Charts::new(choice, audit, numbers),
            table: Table::new(0, numbers, Rc::default()),
            initials: Default::default(),
            windows: Default::default(),
            frame: 0,
        }
    }

    fn frame(&mut self, kind: u8, stream: u32) {
        self.frame += 1;
        let at = At { packet: 1, time: Nanos::from(self.frame) * 10, frame: self.frame };
        let Met { charts, table, initials, windows, .. } = self;
        charts.after(&Left { at, kind, stream, table, initials, windows });
    }

    fn open(&mut self, number: u32) {
        let Met { charts, table, initials, .. } = self;
        table.open(number, |order| {
            let mut stream = Stream::new(number, order, OPENED, false);
            stream.sides.iter_mut().zip(&*initials).for_each(|(side, initial)| side.window.open(initial));
            stream
        });
        charts.opened = Some(number);
        self.frame(kind::HEADERS, number);
    }

    fn content(&mut self, number: u32, length: u32) {
        let Met { table, initials, windows, .. } = self;
        windows[1].content(length);
        table.touch(number, |stream| stream.sides[1].window.content(&initials[1], length));
        self.frame(kind::DATA, number);
    }

    fn initial(&mut self, value: i64) {
        self.initials[1].change(value);
        self.frame(kind::SETTINGS, 0);
    }

    fn said(self) -> ChartsSaid {
        let frames = u64::from(self.frame);
        self.charts.end((5, 1000), frames)
    }
}

fn points(said: &ChartsSaid, side: Side, stream: u64) -> Vec<(u64, Nanos, i64)> {
    let window = said.windows.iter().find(|one| (one.side, one.stream) == (side, stream));
    window.iter().flat_map(|one| &one.points).map(|point| (point.frame, point.time, point.credit)).collect()
}

#[test]
fn credits_as_a_report_has_them() {
    let audit = audit("frame 4 record 4 time 40 server zero-stream-grant stream 1 value 0\n");
    let mut met = Met::new(&Choice::of([&audit]), &audit);
    met.open(1);
    met.content(1, 100);
    met.initial(1000);
    met.frame(kind::WINDOW_UPDATE, 1);
    met.initial(2000);
    let said = met.said();
    let server = [(1, 10, 65_535), (2, 20, 65_435), (3, 30, 900), (4, 40, 900), (5, 50, 1900)];
    assert_eq!(points(&said, Side::Server, 1), server);
    assert_eq!(points(&said, Side::Client, 1), [(1, 10, 65_535)]);
    assert_eq!(points(&said, Side::Server, 0), [(0, 5, 65_535), (2, 20, 65_435), (5, 1000, 65_435)]);
    assert_eq!((said.windows.len(), said.others), (3, Others::default()));
}

#[test]
fn a_window_that_is_over_does_not_move() {
    let audit = audit("");
    let mut met = Met::new(&Choice::of([&audit]), &audit);
    met.open(1);
    let Met { table, initials, .. } = &mut met;
    table.touch(1, |stream| stream.sides[1].window.end(&initials[1]));
    met.frame(kind::RST_STREAM, 1);
    met.initial(7);
    assert_eq!(points(&met.said(), Side::Server, 1), [(1, 10, 65_535)]);
}

#[test]
fn those_with_trouble_are_shown() {
    let late = 2 * MOST_WINDOWS as u32 + 1;
    let audit = audit(&format!("frame 4 record 4 time 40 server after-end stream {late} value 0\n"));
    let mut met = Met::new(&Choice::of([&audit]), &audit);
    (0..=MOST_WINDOWS as u32).for_each(|at| met.open(2 * at + 1));
    met.content(late - 2, 100);
    let said = met.said();
    let streams = said.windows.iter().filter(|one| one.stream > 0).count();
    assert_eq!((streams, said.others.count), (MOST_WINDOWS, MOST_WINDOWS as u64 + 2));
    assert_eq!(said.others.extremes, Some((65_435, 65_535)));
    assert_eq!(points(&said, Side::Server, u64::from(late)).len(), 1);
    assert_eq!(points(&said, Side::Client, u64::from(late)), []);
}
