//! Both legs of a proxy in a trace: whose each instant of a front request was, and an arrow to each back request that
//! carried it.

use std::collections::HashMap;
use std::io;

use explain::answer::{Leg, Nanos, Part, Request, Whose};
use reports::json::Json;

use crate::legs::grade_name;
use crate::trace::{joined, rows_of, Phase, Trace};

/// A request by its connection and itself in an answer.
type Place = (usize, usize);
/// Where an arrow begins or ends.
type End = ((u64, usize), Request);

/// What an instant is called; it is in the schema too.
fn whose_name(whose: Whose) -> String {
    match whose.why() {
        None => whose.who().name().to_string(),
        Some(why) => format!("{}: {why}", whose.who().name()),
    }
}

impl Trace<'_> {
    /// Whose each instant was, one slice after the other.
    pub fn parts(&self, json: &mut Json<'_>, row: (u64, usize), parts: &[Part]) {
        let stretches: Vec<_> = parts.iter().map(|part| (part.begin, part.end, part.whose)).collect();
        for (begin, end, whose) in joined(&stretches, self.most) {
            self.slice(json, row, &whose_name(whose), "whose", (begin, end), |_| {});
        }
    }
}

/// From front requests to the back ones that carried them, where both are shown.
pub struct Arrows<'a> {
    pub trace: &'a Trace<'a>,
    /// Which requests of each connection are shown.
    pub shown: &'a [Vec<usize>],
}

impl Arrows<'_> {
    pub fn write(&self, json: &mut Json<'_>) -> io::Result<()> {
        if self.trace.answer.legs.hops.is_empty() {
            return Ok(());
        }
        let rows: HashMap<Place, usize> = self.rows().collect();
        let mut number = 0_u64;
        for (front, _) in self.rows() {
            let tries = self.trace.answer.legs.of(front.0, front.1).map_or(&[][..], |legs| &legs.carried_by);
            for leg in tries {
                let ends = [front, (leg.connection, leg.place)].map(|place| self.end(place, &rows));
                if let [Some(from), Some(to)] = ends {
                    number += 1;
                    self.arrow(json, number, leg, (from, to));
                }
            }
            json.give()?;
        }
        Ok(())
    }

    /// Each request that is shown, with its row.
    fn rows(&self) -> impl Iterator<Item = (Place, usize)> + '_ {
        self.shown.iter().enumerate().flat_map(|(connection, requests)| {
            requests.iter().enumerate().map(move |(place, index)| ((connection, *index), rows_of(place)[0]))
        })
    }

    /// The row of a request that is shown, and the request.
    fn end(&self, place: Place, rows: &HashMap<Place, usize>) -> Option<End> {
        let said = self.trace.answer.connections.get(place.0)?;
        Some(((said.number, *rows.get(&place)?), said.requests.get(place.1)?))
    }

    /// It stands where the back request is opened, within the slices of both.
    fn arrow(&self, json: &mut Json<'_>, number: u64, leg: &Leg, (from, to): (End, End)) {
        let (begin, opened) = (from.1.opened.time, to.1.opened.time);
        self.point(json, Phase::Start, (from.0, opened.clamp(begin, from.1.until.max(begin))), number, leg);
        self.point(json, Phase::Finish, (to.0, opened), number, leg);
    }

    fn point(&self, json: &mut Json<'_>, phase: Phase, (row, time): ((u64, usize), Nanos), number: u64, leg: &Leg) {
        let is_end = matches!(phase, Phase::Finish);
        self.trace.event(json, phase, row, "carried by", time, |json| {
            json.name("cat").word("legs");
            json.name("id").number(number);
            if is_end {
                json.name("bp").word("e");
            }
            json.name("args").object(|json| json.name("grade").word(grade_name(leg.grade)));
        });
    }
}
