//! The static table (RFC 7541, appendix A).

use crate::fields::Name;
use crate::table::FieldName;

pub struct Row {
    pub name: FieldName,
    pub value: &'static str,
}

const fn wanted(name: Name, value: &'static str) -> Row {
    Row { name: FieldName::Wanted(name), value }
}

const fn other(name: &'static str, value: &'static str) -> Row {
    Row { name: FieldName::Other(name.len() as u32), value }
}

/// Index 1 comes first.
pub static ROWS: [Row; 61] = [
    wanted(Name::Authority, ""),
    wanted(Name::Method, "GET"),
    wanted(Name::Method, "POST"),
    wanted(Name::Path, "/"),
    wanted(Name::Path, "/index.html"),
    other(":scheme", "http"),
    other(":scheme", "https"),
    wanted(Name::Status, "200"),
    wanted(Name::Status, "204"),
    wanted(Name::Status, "206"),
    wanted(Name::Status, "304"),
    wanted(Name::Status, "400"),
    wanted(Name::Status, "404"),
    wanted(Name::Status, "500"),
    other("accept-charset", ""),
    other("accept-encoding", "gzip, deflate"),
    other("accept-language", ""),
    other("accept-ranges", ""),
    other("accept", ""),
    other("access-control-allow-origin", ""),
    other("age", ""),
    other("allow", ""),
    other("authorization", ""),
    other("cache-control", ""),
    other("content-disposition", ""),
    other("content-encoding", ""),
    other("content-language", ""),
    other("content-length", ""),
    other("content-location", ""),
    other("content-range", ""),
    other("content-type", ""),
    other("cookie", ""),
    other("date", ""),
    other("etag", ""),
    other("expect", ""),
    other("expires", ""),
    other("from", ""),
    other("host", ""),
    other("if-match", ""),
    other("if-modified-since", ""),
    other("if-none-match", ""),
    other("if-range", ""),
    other("if-unmodified-since", ""),
    other("last-modified", ""),
    other("link", ""),
    other("location", ""),
    other("max-forwards", ""),
    other("proxy-authenticate", ""),
    other("proxy-authorization", ""),
    other("range", ""),
    other("referer", ""),
    other("refresh", ""),
    other("retry-after", ""),
    other("server", ""),
    other("set-cookie", ""),
    other("strict-transport-security", ""),
    other("transfer-encoding", ""),
    other("user-agent", ""),
    other("vary", ""),
    other("via", ""),
    other("www-authenticate", ""),
];
