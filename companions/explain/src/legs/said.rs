//! What is said of both legs of a proxy (docs/WHY.md, 14).

use std::collections::HashMap;

use crate::answer::{Nanos, Share};

/// How sure it is that a back request carried a front one.
#[derive(Clone, Copy, Debug, PartialEq, Eq, PartialOrd, Ord)]
pub enum PairGrade {
    Sure,
    Likely,
    Ambiguous,
}

/// What tells two legs of one from others.
#[derive(Clone, Copy, Debug, PartialEq, Eq, Hash, PartialOrd, Ord)]
pub enum Likeness {
    Id,
    Path,
    LastPart,
    Content,
}

/// The other leg of a request, by the places of its connection and of itself in an answer.
#[derive(Clone, Copy, Debug, PartialEq, Eq)]
pub struct Leg {
    pub connection: usize,
    pub place: usize,
    pub grade: PairGrade,
    pub likeness: Likeness,
}

/// Why no back request is known of a front one.
#[derive(Clone, Copy, Debug, PartialEq, Eq)]
pub enum NoneWhy {
    AnsweredItself,
    NotSeen,
    Ambiguous,
}

/// Whose an instant is.
#[derive(Clone, Copy, Debug, PartialEq, Eq, Hash, PartialOrd, Ord)]
pub enum Whose {
    Client,
    Front,
    ProxyBefore,
    ProxyHeld,
    ProxyStall,
    ProxyRoundTrip,
    ProxyAfter,
    OtherHeld,
    OtherWindow,
    OtherUpload,
    Back,
    Upstream,
    FailedTry,
    Unseen,
}

/// Whose an instant is, without why.
#[derive(Clone, Copy, Debug, PartialEq, Eq, Hash, PartialOrd, Ord)]
pub enum Who {
    Client,
    Front,
    Proxy,
    Other,
    Back,
    Upstream,
    Unseen,
}

impl Who {
    pub const ALL: [Who; 7] = [Who::Client, Who::Front, Who::Proxy, Who::Other, Who::Back, Who::Upstream, Who::Unseen];

    pub fn name(self) -> &'static str {
        match self {
            Who::Client => "client",
            Who::Front => "front",
            Who::Proxy => "proxy",
            Who::Other => "other",
            Who::Back => "back",
            Who::Upstream => "upstream",
            Who::Unseen => "unseen",
        }
    }
}

impl Whose {
    pub const ALL: [Whose; 14] = [
        Whose::Client,
        Whose::Front,
        Whose::ProxyBefore,
        Whose::ProxyHeld,
        Whose::ProxyStall,
        Whose::ProxyRoundTrip,
        Whose::ProxyAfter,
        Whose::OtherHeld,
        Whose::OtherWindow,
        Whose::OtherUpload,
        Whose::Back,
        Whose::Upstream,
        Whose::FailedTry,
        Whose::Unseen,
    ];

    pub fn who(self) -> Who {
        match self {
            Whose::Client => Who::Client,
            Whose::Front => Who::Front,
            Whose::ProxyBefore | Whose::ProxyHeld | Whose::ProxyStall | Whose::ProxyRoundTrip | Whose::ProxyAfter => {
                Who::Proxy
            }
            Whose::OtherHeld | Whose::OtherWindow | Whose::OtherUpload => Who::Other,
            Whose::Back => Who::Back,
            Whose::Upstream | Whose::FailedTry => Who::Upstream,
            Whose::Unseen => Who::Unseen,
        }
    }

    pub fn why(self) -> Option<&'static str> {
        match self {
            Whose::Client | Whose::Front | Whose::Back | Whose::Upstream | Whose::Unseen => None,
            Whose::ProxyBefore => Some("before"),
            Whose::ProxyHeld | Whose::OtherHeld => Some("held"),
            Whose::ProxyStall => Some("stall"),
            Whose::ProxyRoundTrip => Some("round-trip"),
            Whose::ProxyAfter => Some("after"),
            Whose::OtherWindow => Some("window"),
            Whose::OtherUpload => Some("upload"),
            Whose::FailedTry => Some("failed-try"),
        }
    }
}

/// A part of a front request's life, and the front request behind which it stood.
#[derive(Clone, Copy, Debug, PartialEq, Eq)]
pub struct Part {
    pub begin: Nanos,
    pub end: Nanos,
    pub whose: Whose,
    pub behind: Option<Place>,
}

/// The places of a connection and of a request of it in an answer.
pub type Place = (usize, usize);

/// Who is to be asked.
#[derive(Clone, Copy, Debug, PartialEq, Eq, Hash, PartialOrd, Ord)]
pub enum Party {
    Client,
    Proxy,
    Upstream,
}

impl Party {
    pub fn name(self) -> &'static str {
        match self {
            Party::Client => "client",
            Party::Proxy => "proxy",
            Party::Upstream => "upstream",
        }
    }
}

/// Who took most of a life, if that counts.
#[derive(Clone, Copy, Debug, PartialEq, Eq)]
pub struct Ask {
    /// What of that took most.
    pub whose: Whose,
    /// Nobody of the ways.
    pub party: Option<Party>,
    pub nanos: Nanos,
    /// The front request whose client or upstream it is, where it is another one's.
    pub of: Option<Place>,
}

/// Time in which both legs stalled, so that the proxy passed on what held it back.
#[derive(Clone, Copy, Debug, PartialEq, Eq)]
pub struct PassedOn {
    pub begin: Nanos,
    pub nanos: Nanos,
    pub by: Share,
    pub held: u64,
    pub after: Nanos,
}

/// Time in which a leg held back what the proxy was to send on.
#[derive(Clone, Debug, PartialEq, Eq)]
pub struct Brake {
    /// The client of the answer, or the upstream of the request.
    pub is_by_client: bool,
    pub begin: Nanos,
    pub nanos: Nanos,
    pub most_held: u64,
    pub passed_on: Vec<PassedOn>,
}

impl Brake {
    /// For how long it was passed on in all.
    pub fn passed_nanos(&self) -> Nanos {
        self.passed_on.iter().map(|piece| piece.nanos).sum()
    }
}

/// What is said of a request of a hop.
#[derive(Clone, Debug, Default)]
pub struct RequestLegs {
    /// The hop that a front request's time is told of: that of what answered it, or its listener's first.
    pub hop: Option<usize>,
    /// The front request that it carries.
    pub carries: Option<Leg>,
    /// The tries in which it was carried, in order.
    pub carried_by: Vec<Leg>,
    pub none_why: Option<NoneWhy>,
    /// Connections that were opened within its life without an answer.
    pub openings: u64,
    /// Where a pair is sure or likely, or the proxy answered itself.
    pub parts: Option<Vec<Part>>,
    pub sums: Vec<(Whose, Nanos)>,
    pub ask: Option<Ask>,
    pub brakes: Vec<Brake>,
    /// The most credit of the back request's window, where that is too small for the way.
    pub window: Option<i64>,
}

impl RequestLegs {
    /// The time of one of those that share a life.
    pub fn nanos_of(&self, who: Who) -> Nanos {
        self.sums.iter().filter(|one| one.0.who() == who).map(|one| one.1).sum()
    }

    /// The front request behind which it stood longest, how, and for how long.
    pub fn behind(&self) -> Option<(Place, Whose, Nanos)> {
        let mut found: HashMap<(Place, Whose), Nanos> = HashMap::new();
        for part in self.parts.iter().flatten() {
            if let Some(behind) = part.behind {
                *found.entry((behind, part.whose)).or_default() += part.end - part.begin;
            }
        }
        let most =
            found.into_iter().max_by_key(|((place, whose), nanos)| (*nanos, std::cmp::Reverse((*place, *whose))));
        most.map(|((place, whose), nanos)| (place, whose, nanos))
    }

    /// Whether most of its life it stood behind another one.
    pub fn is_behind(&self) -> bool {
        self.ask.map_or(false, |ask| ask.whose.who() == Who::Other)
    }

    pub fn is_passed_on(&self) -> bool {
        self.brakes.iter().any(|brake| !brake.passed_on.is_empty())
    }
}

/// How many back requests have which grade; and how many carry no front request that is known.
#[derive(Clone, Copy, Debug, Default, PartialEq, Eq)]
pub struct Grades {
    pub sure: u64,
    pub likely: u64,
    pub ambiguous: u64,
    pub none: u64,
}

/// Whom to ask about most of the time of a hop.
#[derive(Clone, Copy, Debug, PartialEq, Eq)]
pub struct HopAsk {
    pub ask: Ask,
    /// The front request that is named: it, or one for which the party is asked.
    pub of: Place,
    /// How many requests, of how many other clients, for how long at most.
    pub requests: u64,
    pub clients: u64,
    pub longest: Nanos,
}

/// A proxy, by its two listeners.
#[derive(Clone, Debug)]
pub struct HopSaid {
    pub front: String,
    pub back: String,
    pub requests: u64,
    pub back_requests: u64,
    pub grades: Grades,
    pub time: [Nanos; Who::ALL.len()],
    pub ask: Option<HopAsk>,
}

/// All that is said of both legs.
#[derive(Clone, Debug, Default)]
pub struct Legs {
    pub hops: Vec<HopSaid>,
    /// By connections and requests of them, in an answer: one more than the place among all, or 0.
    places: Vec<Vec<u32>>,
    all: Vec<RequestLegs>,
}

impl Legs {
    /// Nothing is said yet of requests at some places, which count in this order.
    pub fn at(places: impl ExactSizeIterator<Item = Place>) -> Legs {
        let mut legs = Legs::default();
        legs.all.resize_with(places.len(), RequestLegs::default);
        for (number, (connection, place)) in (1..).zip(places) {
            if legs.places.len() <= connection {
                legs.places.resize_with(connection + 1, Vec::new);
            }
            let of_connection = &mut legs.places[connection];
            if of_connection.len() <= place {
                of_connection.resize(place + 1, 0);
            }
            of_connection[place] = number;
        }
        legs
    }

    pub fn of(&self, connection: usize, place: usize) -> Option<&RequestLegs> {
        let at = *self.places.get(connection)?.get(place)?;
        self.all.get((at as usize).checked_sub(1)?)
    }

    /// What is said of the requests, in their order.
    pub fn all(&self) -> &[RequestLegs] {
        &self.all
    }

    pub fn all_mut(&mut self) -> &mut [RequestLegs] {
        &mut self.all
    }
}
