//! Options of a block (draft-ietf-opsawg-pcapng, section 3.5), to which comments are added.

use captures::{pcapng, Order};

use crate::ended::Ended;

/// Adds these options, with comments behind those that stand there.
pub fn put_with_comments(out: &mut Vec<u8>, order: Order, area: &[u8], comments: &[String]) -> Result<(), Ended> {
    let end = end_of_options(order, area).ok_or_else(|| Ended::refused("bad-options"))?;
    out.extend_from_slice(&area[..end]);
    for comment in comments {
        pcapng::put_option(out, order, pcapng::COMMENT, comment.as_bytes());
    }
    pcapng::put_option(out, order, pcapng::END_OF_OPTIONS, b"");
    Ok(())
}

/// Where the last option ends; none where one of them is not whole.
fn end_of_options(order: Order, area: &[u8]) -> Option<usize> {
    let mut at = 0;
    while at < area.len() {
        let head = area.get(at..at + 4)?;
        let (code, length) = (order.u16(head, 0), usize::from(order.u16(head, 2)));
        if code == pcapng::END_OF_OPTIONS {
            return Some(at);
        }
        area.get(at + 4..at + 4 + length)?;
        at += 4 + (length + 3) / 4 * 4;
    }
    Some(at.min(area.len()))
}
