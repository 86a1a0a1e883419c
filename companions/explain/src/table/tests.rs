use super::*;
use crate::answer::At;

const OPENED: At = At { packet: 1, time: 2, frame: 3 };

fn table() -> Table {
    Table::new(0, Numbers::new(), Rc::default())
}

fn open(table: &mut Table, number: u32) {
    table.open(number, |order| Stream::new(number, order, OPENED, false));
}

#[test]
fn streams_are_found_when_they_are_over() {
    let mut table = table();
    for number in [1, 2, 7, 5, 9] {
        open(&mut table, number);
    }
    for number in [5, 7] {
        table.touch(number, |stream| stream.sides.iter_mut().for_each(|side| side.finish_at(OPENED)));
        table.settle(number, |_| ());
    }
    assert_eq!((table.live.streams.len(), table.count.get()), (3, 3));
    for number in [9, 1, 1, 2, 9] {
        assert_eq!(table.look(number, |stream| stream.number), Some(number));
        assert_eq!(table.touch(number, |stream| stream.number), Some(number));
    }
    assert!(table.has(5) && table.has(2) && !table.has(3));
    table.touch(5, |stream| stream.sides[0].content = u64::MAX);
    assert_eq!(table.look(5, |stream| (stream.sides[0].content, stream.order)), Some((u64::MAX, 3)));
    assert_eq!(table.touch(3, |_| ()), None);
    let packed = table.end(|_| ());
    let numbers: Vec<u32> = (0..5).filter_map(|at| packed.get(at)).map(|stream| stream.number).collect();
    assert_eq!(numbers, [1, 2, 7, 5, 9]);
}

/// Where many go on, each is found where it stands, also of numbers that share a place, and as others go.
#[test]
fn many_streams_are_found() {
    let mut table = table();
    let numbers: Vec<u32> = (1..200).chain((1..50).map(|number| number << 20)).collect();
    for (at, &number) in numbers.iter().enumerate() {
        open(&mut table, number);
        for &other in &numbers[..=at] {
            assert_eq!(table.touch(other, |stream| stream.number), Some(other));
        }
    }
    for &number in numbers.iter().step_by(3) {
        table.touch(number, |stream| stream.sides.iter_mut().for_each(|side| side.finish_at(OPENED)));
        table.settle(number, |_| ());
        for &other in &numbers {
            assert_eq!(table.live.get_mut(other).map(|stream| stream.number), table.live.get(other).map(|_| other));
            assert_eq!(table.look(other, |stream| stream.number), Some(other));
        }
    }
    table.park();
    assert!(table.live.near.is_empty() && numbers.iter().all(|number| table.has(*number)));
}

#[test]
fn streams_go_on_from_what_is_packed() {
    let mut table = table();
    for number in [1, 3, 5] {
        open(&mut table, number);
    }
    table.touch(3, |stream| stream.sides[1].kept = Some(Default::default()));
    table.park();
    assert_eq!((table.live.streams.len(), table.parked.len(), table.count.get()), (1, 2, 1));
    let mut numbers = Vec::new();
    table.each_going_on(|stream| numbers.push(stream.number));
    numbers.sort_unstable();
    assert_eq!(numbers, [1, 3, 5]);
    table.touch(5, |stream| stream.sides[0].content = 7);
    assert_eq!((table.live.streams.len(), table.parked.len()), (2, 1));
    let mut ended = Vec::new();
    let packed = table.end(|stream| ended.push((stream.number, stream.sides[0].content)));
    assert_eq!(ended, [(1, 0), (3, 0), (5, 7)]);
    assert_eq!(packed.get(2).map(|stream| stream.sides[0].content), Some(7));
}

#[test]
fn the_highest_credit() {
    let (mut table, mut initial) = (table(), Initial::default());
    for (number, more) in [(1, 1), (3, 10), (5, 10)] {
        open(&mut table, number);
        table.touch(number, |stream| stream.sides[1].window.open(&initial));
        table.touch(number, |stream| stream.sides[1].window.grant(&initial, more));
    }
    for _ in 0..2 {
        let found = [0, 1].map(|side| table.highest_credit(side, &initial));
        assert_eq!(found, [None, Some((65_545, 3))]);
        table.park();
    }
    initial.change(7);
    assert_eq!(table.highest_credit(1, &initial), Some((17, 3)));
    table.touch(1, |stream| stream.sides[1].window.grant(&initial, 100));
    assert_eq!(table.highest_credit(1, &initial), Some((108, 1)));
    table.park();
    table.touch(1, |stream| stream.sides[1].window.end(&initial));
    initial.change(0);
    assert_eq!(table.highest_credit(1, &initial), Some((108, 1)), "it has ended by itself");
    table.touch(1, |stream| stream.sides[1].finish_at(OPENED));
    assert_eq!(table.highest_credit(1, &initial), Some((10, 3)));
}

#[test]
fn what_is_idle_goes() {
    let mut table = table();
    open(&mut table, 1);
    table.touch(1, |stream| stream.sides.iter_mut().for_each(|side| side.finish_at(OPENED)));
    table.settle(1, |_| ());
    for shift in 0..64 {
        table.touch(1, |stream| stream.sides[1].content = 1 << shift);
    }
    assert_eq!(table.look(1, |stream| stream.sides[1].content), Some(1 << 63));
}
