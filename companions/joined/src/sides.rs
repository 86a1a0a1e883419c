//! Which of two flows is the client's.

use hpack::Speaker;

/// How that is known.
#[derive(Clone, Copy, Debug, PartialEq, Eq)]
pub enum SideEvidence {
    /// By what was known before the gap behind which a connection goes on.
    Before,
    /// By the label of the secret that opens the client's records of TLS (RFC 8446, 7.1).
    Secret,
    /// By the pseudo-fields of a request or of a response (RFC 9113, 8.3).
    Fields,
    /// By a PUSH_PROMISE, which servers alone send (8.4).
    Promise,
    /// By SETTINGS_ENABLE_PUSH, which servers do not send (6.5.2).
    EnablePush,
    /// By PRIORITY, which servers do not send (5.3.2).
    Priority,
    /// By the parity of the last stream that a GOAWAY names (6.8, 5.1.1).
    GoAway,
    /// By the ports alone, of which the server's is below 32,768 and the client's is not.
    Ports,
    /// By nothing but that one side sends more content: it is taken to be the server.
    Content,
}

impl SideEvidence {
    const ALL: [SideEvidence; 9] = [
        SideEvidence::Before,
        SideEvidence::Secret,
        SideEvidence::Fields,
        SideEvidence::Promise,
        SideEvidence::EnablePush,
        SideEvidence::Priority,
        SideEvidence::GoAway,
        SideEvidence::Ports,
        SideEvidence::Content,
    ];

    /// What a word of the map says.
    pub fn of(word: &str) -> Option<SideEvidence> {
        SideEvidence::ALL.into_iter().find(|told| told.word() == word)
    }

    /// As the map says it.
    pub fn word(self) -> &'static str {
        match self {
            SideEvidence::Before => "before",
            SideEvidence::Secret => "secret",
            SideEvidence::Fields => "fields",
            SideEvidence::Promise => "promise",
            SideEvidence::EnablePush => "enable-push",
            SideEvidence::Priority => "priority",
            SideEvidence::GoAway => "goaway",
            SideEvidence::Ports => "ports",
            SideEvidence::Content => "content",
        }
    }

    fn rank(self) -> u8 {
        self as u8
    }
}

/// What is known so far.
#[derive(Clone, Copy, Debug, Default)]
pub struct Sides {
    client: Option<(usize, SideEvidence)>,
    /// How many bytes of content each flow has.
    content: [u64; 2],
}

impl Sides {
    /// Whether a flow is the client's, if that is known.
    pub fn is_client(&self, flow: usize) -> Option<bool> {
        self.client.map(|(client, _)| client == flow)
    }

    /// Which flow is the client's, and how that is known; by the ports of the first flow's ends, or by content, at the
    /// last.
    pub fn client(&self, ports: [u16; 2]) -> (usize, SideEvidence) {
        let by_ports = || client_by_ports(ports).map(|client| (client, SideEvidence::Ports));
        let by_content = || (usize::from(self.content[0] > self.content[1]), SideEvidence::Content);
        self.client.or_else(by_ports).unwrap_or_else(by_content)
    }

    pub fn content(&mut self, flow: usize, length: u64) {
        self.content[flow] += length;
    }

    /// Notes what is told. The first counts, unless a better one comes.
    fn tell(&mut self, client: usize, told: SideEvidence) {
        if self.client.map_or(true, |(_, before)| told.rank() < before.rank()) {
            self.client = Some((client, told));
        }
    }

    pub fn before(&mut self, client: usize) {
        self.tell(client, SideEvidence::Before);
    }

    pub fn secret(&mut self, client: usize) {
        self.tell(client, SideEvidence::Secret);
    }

    /// Whether no field block tells more than what is known.
    pub fn knows_fields(&self) -> bool {
        self.client.map_or(false, |(_, told)| told.rank() <= SideEvidence::Fields.rank())
    }

    pub fn block(&mut self, flow: usize, speaker: Option<Speaker>) {
        match speaker {
            Some(Speaker::Client) => self.tell(flow, SideEvidence::Fields),
            Some(Speaker::Server) => self.tell(1 - flow, SideEvidence::Fields),
            None => {}
        }
    }

    pub fn promise(&mut self, flow: usize) {
        self.tell(1 - flow, SideEvidence::Promise);
    }

    pub fn enable_push(&mut self, flow: usize) {
        self.tell(flow, SideEvidence::EnablePush);
    }

    pub fn priority(&mut self, flow: usize) {
        self.tell(flow, SideEvidence::Priority);
    }

    /// The last stream is one that the other side opened; 0 says nothing, nor does a number above all.
    pub fn go_away(&mut self, flow: usize, last: u32) {
        match last {
            0 | 0x7fff_ffff => {}
            _ if last % 2 == 1 => self.tell(1 - flow, SideEvidence::GoAway),
            _ => self.tell(flow, SideEvidence::GoAway),
        }
    }
}

/// The client, by the ports of the first flow's sender and receiver; none where both are alike.
fn client_by_ports(ports: [u16; 2]) -> Option<usize> {
    match ports.map(|port| port >= 1 << 15) {
        [true, false] => Some(0),
        [false, true] => Some(1),
        _ => None,
    }
}

#[cfg(test)]
mod tests {
    use super::*;

    const PORTS: [u16; 2] = [443, 40_000];

    fn told(tell: impl Fn(&mut Sides)) -> (usize, SideEvidence) {
        let mut sides = Sides::default();
        tell(&mut sides);
        sides.client(PORTS)
    }

    #[test]
    fn each_tells() {
        assert_eq!(told(|_| ()), (1, SideEvidence::Ports));
        assert_eq!(told(|sides| sides.block(0, Some(Speaker::Client))), (0, SideEvidence::Fields));
        assert_eq!(told(|sides| sides.block(1, Some(Speaker::Server))), (0, SideEvidence::Fields));
        assert_eq!(told(|sides| sides.promise(1)), (0, SideEvidence::Promise));
        assert_eq!(told(|sides| [0, 1].into_iter().for_each(|client| sides.before(client))), (0, SideEvidence::Before));
        assert_eq!(told(|sides| sides.enable_push(0)), (0, SideEvidence::EnablePush));
        assert_eq!(told(|sides| sides.priority(0)), (0, SideEvidence::Priority));
        assert_eq!(told(|sides| sides.go_away(1, 5)), (0, SideEvidence::GoAway));
        assert_eq!(told(|sides| sides.go_away(0, 4)), (0, SideEvidence::GoAway));
        assert_eq!(
            told(|sides| [0, 0x7fff_ffff].into_iter().for_each(|last| sides.go_away(0, last))).1,
            SideEvidence::Ports
        );
    }

    #[test]
    fn what_is_surer_counts() {
        let mut sides = Sides::default();
        sides.go_away(0, 5);
        assert_eq!(sides.is_client(0), Some(false));
        sides.block(0, Some(Speaker::Client));
        sides.priority(1);
        sides.block(1, Some(Speaker::Client));
        assert_eq!(sides.client(PORTS), (0, SideEvidence::Fields));
    }

    #[test]
    fn ports_and_content() {
        let of = |ports| {
            let mut sides = Sides::default();
            sides.content(0, 5);
            sides.client(ports)
        };
        assert_eq!([[50_000, 443], [443, 50_000]].map(of), [(0, SideEvidence::Ports), (1, SideEvidence::Ports)]);
        assert_eq!([[80, 443], [443, 80], [60_000, 50_000]].map(of), [(1, SideEvidence::Content); 3]);
    }
}
