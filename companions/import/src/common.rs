//! What all connections of an import share, and a segment as it came to one of them.

use captures::{Arrival, Segment};
use tls::Shared;

use crate::sink::Sink;

/// What all connections share: keys and sessions of TLS, and where what is made of them goes.
pub struct Common<'a, 'b> {
    pub shared: &'a mut Shared,
    pub sink: &'a mut Sink<'b>,
}

impl<'b> Common<'_, 'b> {
    /// Lends it for a shorter time.
    pub fn lent(&mut self) -> Common<'_, 'b> {
        Common { shared: self.shared, sink: self.sink }
    }
}

/// A segment of a connection, with the packet that brought it and the side that sent it.
#[derive(Clone, Copy)]
pub struct Came<'a, 'b> {
    pub arrival: Arrival,
    pub side: usize,
    pub segment: &'a Segment<'b>,
}
