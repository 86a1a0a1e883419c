//! What the map says of a connection that was joined (docs/MAP.md, 4).

mod reading;

pub use reading::{is_of_joined, said_by, Said};

use joined::{Assumed, How, Inferred, What, CLIENT, SERVER};

use crate::outcomes::{Behind, Fate, GapSaid, JoinedConnection};

const SIDES: [&str; 2] = ["client", "server"];
const USUAL_FRAME: u32 = 1 << 14;

/// The lines that follow those of the connection.
pub fn lines_of(one: &JoinedConnection) -> Vec<String> {
    let mut lines = lines_of_how(one);
    match one.behind {
        Behind::No => {}
        Behind::Gap(connection) => lines.push(format!("after-gap {}", connection + 1)),
        Behind::First => lines.push("after-gap none".to_string()),
    }
    if one.is_one_way {
        lines.push("one-direction".to_string());
    }
    lines
}

/// Whose bytes are missing, by the file and the packet behind them, and what became of what follows.
pub fn line_of_gap(gap: &GapSaid, (file, packet): (usize, u64)) -> String {
    let became = match gap.fate {
        Fate::Joined(connection) => format!("joined-as {}", connection + 1),
        Fate::Unjoined(why) => format!("unjoined {why}"),
        Fate::NotAsked => String::new(),
    };
    format!("gap {} file {file} packet {packet} {became}", SIDES[gap.side])
}

fn lines_of_how(one: &JoinedConnection) -> Vec<String> {
    let records = one.records;
    match &one.how {
        How::Syn => vec![format!("joined exact syn records {records}")],
        How::Answer => vec![format!("joined exact syn-ack records {records}")],
        How::Handshake => vec![format!("joined exact handshake records {records}")],
        How::Inferred(inferred) => {
            let ([client, server], [of_client, of_server]) = (inferred.made, one.bytes);
            let made = format!("frames {client} {server} bytes {of_client} {of_server}");
            let mut lines = vec![format!("joined inferred records {records} {made} sides {}", inferred.sides.word())];
            lines.extend([CLIENT, SERVER].map(|side| border(inferred, side)));
            lines.extend(about_streams(inferred));
            lines.extend(inferred.assumed.iter().map(assumed));
            lines
        }
    }
}

fn border(inferred: &Inferred, side: usize) -> String {
    match inferred.borders[side] {
        Some(border) => format!("border {} offset {} bits {}", SIDES[side], border.at, border.bits),
        None => format!("border {} none", SIDES[side]),
    }
}

fn about_streams(inferred: &Inferred) -> Vec<String> {
    let mut lines = Vec::new();
    if inferred.is_doubtful {
        lines.push("doubtful".to_string());
    }
    if !inferred.open.is_empty() {
        let streams: Vec<String> = inferred.open.iter().map(u32::to_string).collect();
        lines.push(format!("open {}", streams.join(" ")));
    }
    for side in [CLIENT, SERVER] {
        if inferred.acknowledged[side] > 0 {
            lines.push(format!("settings-before {} {}", SIDES[side], inferred.acknowledged[side]));
        }
        if let Some(time) = inferred.changed[side] {
            lines.push(format!("changed {} time {time}", SIDES[side]));
        }
        if inferred.longest[side] > USUAL_FRAME {
            lines.push(format!("frame-size {} {}", SIDES[side], inferred.longest[side]));
        }
    }
    lines
}

fn window(what: What) -> String {
    match what {
        What::Connection => "connection".to_string(),
        What::Initial => "initial".to_string(),
        What::Stream(id) => format!("stream {id}"),
    }
}

fn assumed(one: &Assumed) -> String {
    let Assumed { side, what, credit, least, grade, bits, touches, pause, with } = *one;
    let with = with.map_or(String::new(), |with| format!(" or {}", window(with)));
    let evidence = format!("bits {bits} touches {touches} pause {pause}");
    format!("assumed {} {} credit {credit} least {least} {} {evidence}{with}", SIDES[side], window(what), grade.word())
}
