//! The fields that are wanted.

use std::fmt;
use std::ops::Deref;
use std::rc::Rc;

/// So many bytes of a value are kept: a reference of one byte may stand for all that a table holds, once each request.
pub const LONGEST_VALUE: usize = 8192;

/// A name of which the value is wanted.
#[derive(Clone, Copy, Debug, PartialEq, Eq)]
pub enum Name {
    Method,
    Path,
    Authority,
    Status,
    Protocol,
    GrpcStatus,
    GrpcMessage,
    RequestId,
    TraceParent,
}

impl Name {
    pub const ALL: [Name; 9] = [
        Name::Method,
        Name::Path,
        Name::Authority,
        Name::Status,
        Name::Protocol,
        Name::GrpcStatus,
        Name::GrpcMessage,
        Name::RequestId,
        Name::TraceParent,
    ];
    /// The fields that tell a request from others, wherever it goes.
    pub const IDS: [Name; 2] = [Name::RequestId, Name::TraceParent];
    /// How many bytes the longest of them has.
    pub(crate) const MOST_BYTES: usize = 12;

    pub const fn text(self) -> &'static str {
        match self {
            Name::Method => ":method",
            Name::Path => ":path",
            Name::Authority => ":authority",
            Name::Status => ":status",
            Name::Protocol => ":protocol",
            Name::GrpcStatus => "grpc-status",
            Name::GrpcMessage => "grpc-message",
            Name::RequestId => "x-request-id",
            Name::TraceParent => "traceparent",
        }
    }

    pub(crate) fn of(octets: &[u8]) -> Option<Name> {
        match octets {
            b":method" => Some(Name::Method),
            b":path" => Some(Name::Path),
            b":authority" => Some(Name::Authority),
            b":status" => Some(Name::Status),
            b":protocol" => Some(Name::Protocol),
            b"grpc-status" => Some(Name::GrpcStatus),
            b"grpc-message" => Some(Name::GrpcMessage),
            b"x-request-id" => Some(Name::RequestId),
            b"traceparent" => Some(Name::TraceParent),
            _ => None,
        }
    }
}

/// The bytes of a value, which its owners share.
#[derive(Clone)]
pub struct Value(Bytes);

#[derive(Clone)]
enum Bytes {
    Known(&'static [u8]),
    Shared(Rc<[u8]>),
}

impl Value {
    /// A value of the static table.
    pub(crate) fn known(octets: &'static [u8]) -> Value {
        Value(Bytes::Known(octets))
    }

    pub(crate) fn shared(octets: Rc<[u8]>) -> Value {
        Value(Bytes::Shared(octets))
    }
}

impl Deref for Value {
    type Target = [u8];

    fn deref(&self) -> &[u8] {
        match &self.0 {
            Bytes::Known(octets) => octets,
            Bytes::Shared(octets) => octets,
        }
    }
}

impl fmt::Debug for Value {
    fn fmt(&self, to: &mut fmt::Formatter) -> fmt::Result {
        write!(to, "\"{}\"", self.escape_ascii())
    }
}

/// What a block says: the first value of each name that is wanted, of which [`LONGEST_VALUE`] bytes are kept.
#[derive(Clone, Debug, Default)]
pub struct Fields {
    values: [Option<Value>; Name::ALL.len()],
}

impl Fields {
    pub fn value(&self, name: Name) -> Option<&[u8]> {
        self.values[name as usize].as_deref()
    }

    /// The value, for an owner that outlives these fields.
    pub fn take(&mut self, name: Name) -> Option<Value> {
        self.values[name as usize].take()
    }

    pub(crate) fn first(&mut self, name: Name, value: impl FnOnce() -> Value) {
        self.values[name as usize].get_or_insert_with(value);
    }
}
