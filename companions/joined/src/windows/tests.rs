use super::*;

const MS: Nanos = 1_000_000;
/// From one round to the next.
const ROUND: Nanos = MS + 4000;

fn content(time: Nanos, length: u32) -> Content {
    Content { first: time, last: time, length, is_end: false }
}

/// Contents that are a microsecond apart, up to a pause of a millisecond; then what is granted, and content.
fn round(sender: &mut Sender, window: &mut BoundedWindow, at: Nanos, lengths: &[u32], grants: [u32; 2]) {
    let mut time = at;
    for length in lengths {
        time += 1000;
        sender.content(Some(window), content(time, *length));
    }
    if grants[0] > 0 {
        sender.grant(time + MS, grants[0]);
    }
    if grants[1] > 0 {
        sender.grant_stream(window, time + MS, grants[1]);
    }
}

fn open() -> (Sender, BoundedWindow) {
    (Sender::new(0), BoundedWindow::open_since(0))
}

#[test]
fn the_least_credit_is_what_was_used_before_grants() {
    let (mut sender, mut window) = open();
    round(&mut sender, &mut window, 0, &[1000, 500], [700, 300]);
    round(&mut sender, &mut window, 2 * MS, &[600], [0, 0]);
    assert_eq!(sender.connection.least(), Some(1500));
    assert_eq!(window.open().expect("open")[0].least(), Some(1800));
}

#[test]
fn a_stream_that_touches_its_bound_alone() {
    let (mut sender, mut window) = open();
    sender.content(None, content(0, 9000));
    sender.grant(500, 100_000);
    for at in 0..4 {
        round(&mut sender, &mut window, at * ROUND, &[1000, 500], [0, 1500]);
    }
    let evidence = &window.open().expect("open")[0];
    assert_eq!((evidence.least(), evidence.touches), (Some(1500), 3));
    assert!(evidence.alone > LIKELY && evidence.shared == 0.0, "{evidence:?}");
    assert_eq!(sender.connection.least(), Some(9000));
}

#[test]
fn both_windows_in_the_same_pauses() {
    let (mut sender, mut window) = open();
    for at in 0..4 {
        round(&mut sender, &mut window, at * ROUND, &[1000, 500], [1500, 1500]);
    }
    let evidence = &window.open().expect("open")[0];
    let found = weighed(evidence, &sender.connection);
    assert!(found.alone == 0.0 && found.shared > LIKELY, "{evidence:?}");
    assert!(lent_by(&sender.connection, evidence) > LIKELY);
    // More on that stream than it can have had: the connection explains nothing any more of what the stream shows.
    sender.content(None, content(9 * MS, 5000));
    let found = weighed(evidence, &sender.connection);
    assert!(found.alone > LIKELY && found.shared == 0.0);
}

#[test]
fn what_a_stream_shared_goes_back_to_the_connection() {
    let (mut sender, mut window) = open();
    for at in 0..4 {
        round(&mut sender, &mut window, at * ROUND, &[1000, 500], [1500, 1500]);
    }
    sender.grant(9 * MS, 100_000);
    round(&mut sender, &mut window, 9 * MS, &[1000, 1000], [0, 0]);
    assert!(sender.connection.alone > LIKELY && sender.connection.shared == 0.0, "{:?}", sender.connection);
}

#[test]
fn new_streams_tell_the_initial_window() {
    let mut sender = Sender::new(0);
    for at in 0..3 {
        let mut window = BoundedWindow::opened(true);
        round(&mut sender, &mut window, at * 10 * MS, &[1000, 23], [100_000, 1023]);
        round(&mut sender, &mut window, (at * 10 + 2) * MS, &[1023], [0, 0]);
    }
    assert_eq!((sender.initial.least(), sender.initial.touches), (Some(1023), 3));
    sender.change(0, 500);
    let mut window = BoundedWindow::opened(true);
    round(&mut sender, &mut window, 60 * MS, &[9999], [0, 0]);
    assert_eq!(sender.initial.least(), Some(1023), "what is announced is known");
}

#[test]
fn an_open_stream_before_and_after_a_change() {
    let (mut sender, mut window) = open();
    round(&mut sender, &mut window, 0, &[1000], [0, 0]);
    sender.change(0, 4000);
    round(&mut sender, &mut window, MS, &[3500], [0, 0]);
    let [before, after] = window.open().expect("open").clone();
    assert_eq!((before.least(), after.least()), (Some(1000), Some(500)));
}

#[test]
fn silent_since_the_beginning() {
    let (mut sender, mut window) = open();
    sender.grant(MS, 70_000);
    sender.grant_stream(&mut window, 100 * MS, 5000);
    sender.content(Some(&mut window), content(100 * MS + 1000, 1000));
    let evidence = &window.open().expect("open")[0];
    assert!(evidence.silent >= LIKELY && evidence.least() == Some(-4000), "{evidence:?}");
    assert_eq!(sender.connection.silent, 0.0);
    let (mut sender, mut window) = open();
    sender.grant(100 * MS, 5000);
    sender.grant_stream(&mut window, 100 * MS, 5000);
    sender.content(Some(&mut window), content(100 * MS + 1000, 1000));
    assert!(window.open().expect("open")[0].is_silent_shared, "both were granted then");
    let (mut sender, mut window) = open();
    sender.grant_stream(&mut window, 100 * MS, 5000);
    sender.content(Some(&mut window), content(100 * MS + 1000, 1000));
    assert!(!window.open().expect("open")[0].is_silent_shared);
    let (mut sender, mut window) = open();
    sender.grant(MS, 5000);
    sender.grant_stream(&mut window, 100 * MS, 5000);
    sender.content(Some(&mut window), content(100 * MS + 1000, 1000));
    assert!(!window.open().expect("open")[0].is_silent_shared, "the connection had credit long before");
}

/// The connection's window was at its bound in the stream's pause, though another stream went on first.
#[test]
fn a_pause_of_both_that_another_stream_ends() {
    let (mut sender, mut window, mut other) =
        (Sender::new(0), BoundedWindow::open_since(0), BoundedWindow::open_since(0));
    for at in 0..4 {
        let begin = at * ROUND;
        sender.content(Some(&mut other), content(begin, 700));
        sender.content(Some(&mut window), content(begin + 1000, 500));
        sender.content(Some(&mut other), content(begin + 2000, 300));
        sender.grant(begin + MS, 1500);
        sender.grant_stream(&mut window, begin + MS, 500);
        sender.grant_stream(&mut other, begin + MS, 1000);
    }
    let evidence = &window.open().expect("open")[0];
    assert!(evidence.touches == 3 && evidence.alone == 0.0 && evidence.shared > LIKELY, "{evidence:?}");
    assert!(weighed(evidence, &sender.connection).shared > 0.0 || sender.connection.alone >= LIKELY);
}

/// A pause that another message of the other side ended says nothing.
#[test]
fn an_answer_is_no_touch() {
    let (mut sender, mut window) = open();
    for at in 0..4 {
        round(&mut sender, &mut window, at * ROUND, &[1000], [1000, 1000]);
        window.spoken(at * ROUND + MS);
    }
    assert_eq!((window.open().expect("open")[0].touches, sender.connection.touches), (0, 0));
}
