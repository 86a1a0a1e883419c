use super::*;
use crate::answer::{Share, Span};
use crate::stream::{Answered, Beside, Idle, RequestFields, Reset};
use crate::unshown::Unshown;
use crate::windows::Initial;

#[test]
fn numbers_of_any_length() {
    for number in (0..64).flat_map(|shift| [1 << shift, (1 << shift) - 1, u64::MAX << shift]) {
        for behind in 0..9 {
            let mut bytes = Vec::new();
            Packer::new(&mut bytes, NOWHERE).number(number);
            bytes.resize(bytes.len() + behind, 0xFF);
            let mut unpacker = Unpacker::new(&bytes, NOWHERE);
            assert_eq!((unpacker.number(), unpacker.bytes.len()), (number, behind));
        }
    }
}

#[test]
fn what_is_packed_is_the_same() {
    let at = |packet: u64, time, frame| At { packet, time, frame };
    let mut stream = Stream::new(7, 3, at(1 << 33, 1_795_333_223_952_849_000, 90), true);
    stream.promised_on = 5;
    stream.request = Some(RequestFields { is_empty: false, method: 1, path: 200, authority: 0, ids: [u64::MAX, 1] });
    stream.answer.fields = Some(Answered { is_informational: true, status: Some(103), grpc_status: None });
    stream.answer.grpc_status = Some(14);
    stream.reset = Some(Reset { side: 1, at: at(3, -5, 1), code: u32::MAX });
    let one = &mut stream.sides[1];
    one.content = u64::MAX;
    one.padding = 200;
    one.first = Some(at(u64::MAX, Nanos::MIN, u32::MAX));
    one.life.shares = [0, 5, 0, 0, -7, 0, 3, Nanos::MAX];
    one.life.is_silent = true;
    one.was_silent = true;
    one.beside =
        Beside { content: u64::MAX, before: 9, active: Nanos::MAX, active_before: 1, streams: 3, ended: u32::MAX };
    one.life.spans =
        Some(vec![Span { begin: 10, end: 20, share: Share::Tcp }, Span { begin: 20, end: 21, share: Share::Unseen }]);
    one.life.last = Share::Idle;
    one.idle = Some(Box::new(Idle { before: None, credit: Some(-9), after: one.first }));
    let mut initial = Initial::default();
    initial.change(7);
    one.window.open(&initial);
    one.window.content(&initial, 3);
    one.unshown = Some(Box::new(Unshown::waiting(40, Some(17))));
    let mut bytes = Vec::new();
    pack(&stream, &mut bytes);
    let mut found = stream.clone();
    let lives = LENGTH + parted(&bytes).0.len();
    unpack(&bytes[..lives + OUTLINE + 1], 40, true, &mut found);
    assert_eq!((found.number, found.sides[1].content), (7, 0), "no bytes are zeros");
    unpack(&bytes, 40, true, &mut found);
    assert_eq!(found, stream);
    let mut outline = Stream::empty();
    unpack_outline(&bytes, &mut outline);
    let told = |one: &Stream| (one.number, one.opened, one.request, one.answer, one.reset);
    assert_eq!(told(&outline), told(&stream));
    let of_sides = |one: &Stream| [0, 1].map(|side| (one.sides[side].content, one.sides[side].first));
    assert_eq!(of_sides(&outline), of_sides(&stream));
    unpack_lives(&bytes, stream.opened.time, true, &mut outline);
    let lives = |one: &Stream| [0, 1].map(|side| (one.sides[side].life.clone(), one.sides[side].unshown_nanos));
    assert_eq!(lives(&outline), lives(&stream));
    unpack(&bytes, 40, false, &mut found);
    stream.sides[1].life.spans = None;
    stream.sides[0].life.spans = None;
    assert_eq!(found, stream);
}
