use super::*;

#[test]
fn what_credit_forces() {
    let mut window = WatchedWindow::default();
    assert_eq!(window.grant(10, 100, 1), None, "before the first content");
    assert_eq!(window.content(60, 2), None);
    assert_eq!(window.content(41, 3), Some(1), "past the 100 that were allowed before");
    assert_eq!(window.grant(59, 100, 4), None, "less than the first frame");
    assert_eq!(window.grant(2, 100, 5), Some(2));
    assert_eq!(window.content(9, 6), None, "it was allowed before");
    assert_eq!(window.content(100, 7), Some(5), "the last grant without which it could not be sent");
    assert_eq!(window.grant(1000, 100, 8), None, "that gives nothing back");
    assert_eq!(window.grant(1, 100, 9), None);
}

#[test]
fn settings_that_wait() {
    let waiting = |reactions: &Reactions| reactions.settings[0].as_ref().map_or(0, VecDeque::len);
    let mut reactions = Reactions::default();
    (0..5000).for_each(|frame| reactions.asked(0, (frame, 0, Some(1))));
    assert_eq!((waiting(&reactions), reactions.more_settings[0]), (MOST_SETTINGS, 904));
    assert_eq!(reactions.unanswered(), (0..8).collect::<Vec<u32>>());
    (0..MOST_SETTINGS).for_each(|_| reactions.acknowledge(1, 7));
    assert_eq!(reactions.initials[1], 1 - FIRST_CREDIT);
    reactions.asked(0, (5000, 0, Some(1)));
    assert_eq!((waiting(&reactions), reactions.more_settings[0]), (0, 905), "behind all that wait");
    (0..1000).for_each(|_| reactions.acknowledge(1, 1));
    assert_eq!((reactions.acknowledged[0], reactions.quickest[1].nanos()), (5001, Some(7)), "as those kept took");
    assert_eq!(reactions.initials[1], i64::from(u32::MAX) - FIRST_CREDIT);
}

#[test]
fn the_three_quickest() {
    let mut quickest = Quickest::default();
    for (began, came) in [(0, 90), (5, 3), (10, 60), (20, 100), (30, 37)] {
        quickest.add(Reaction::Ping, began, came);
    }
    let least = quickest.least.map(|one| one.map(|one| (one.0, one.1)));
    assert_eq!(least, [Some((7, 30)), Some((50, 10)), Some((80, 20))]);
    assert_eq!((quickest.first, quickest.nanos()), (Some(90), Some(7)));
}

/// Beside all of them in order: of another kind where the three least are of one.
#[test]
fn the_quickest_of_another_kind() {
    let mut dice: u64 = 1;
    for _ in 0..1000 {
        let (mut quickest, mut all) = (Quickest::default(), Vec::new());
        for began in 0..12 {
            dice = dice.wrapping_mul(6_364_136_223_846_793_005).wrapping_add(1_442_695_040_888_963_407);
            let took = (dice >> 40) as Nanos * 16 + began; // no two are alike
            let kind = [Reaction::Grant, Reaction::Answer, Reaction::Settings][(dice >> 32) as usize % 8 / 3];
            quickest.add(kind, began, began + took);
            all.push((took, began, kind));
            all.sort_by_key(|one| one.0);
            let wanted = match all[..] {
                [one, two, three, ..] if one.2 == two.2 && two.2 == three.2 => {
                    all.iter().find(|other| other.2 != one.2)
                }
                _ => all.get(2),
            };
            assert_eq!(quickest.three().map(|three| three[2]), wanted.copied());
        }
    }
}
