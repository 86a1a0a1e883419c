//! What keeps a connection from being joined.

/// Why a connection is not joined.
#[derive(Clone, Copy, Debug, PartialEq, Eq)]
pub enum Unjoined {
    /// It is encrypted, in a way that is not opened.
    Tls,
    /// No frames of HTTP/2 were found.
    NoFrames,
    /// More streams were open than is followed.
    ManyStreams,
    /// More connections began before the capture, or go on behind gaps, than are followed.
    ManyPairs,
    /// More bytes wait of all connections together than are kept: this one waited longest.
    ManyWaiting,
    /// It goes on behind a gap, and more gaps are there than are followed.
    ManyGaps,
    /// Packets are not whole, so that each is a gap.
    Snapped,
}

impl Unjoined {
    /// As the map says it.
    pub fn word(self) -> &'static str {
        match self {
            Unjoined::Tls => "tls",
            Unjoined::NoFrames => "no-frames",
            Unjoined::ManyStreams => "many-streams",
            Unjoined::ManyPairs => "many-pairs",
            Unjoined::ManyWaiting => "many-waiting",
            Unjoined::ManyGaps => "many-gaps",
            Unjoined::Snapped => "snapped",
        }
    }
}
