//! Copies a pcapng capture block by block, with comments added to its packets; every other byte stays as it is.

use std::io::Write;

use captures::pcapng::{self, Block, Blocks, Clock, PacketHead};
use captures::Source;

use crate::comments::Comments;
use crate::ended::Ended;
use crate::options::put_with_comments;
use crate::Copied;

/// Wireshark reads no longer packet of any kind, nor a block that is much longer.
const LONGEST_BLOCK: usize = 129 << 20;
/// Before the data of a packet, in the body of its block.
const PACKET_HEAD: usize = 20;

/// What the section has said so far of each interface's times, and how many packets came.
#[derive(Default)]
struct Copy {
    clocks: Vec<Clock>,
    number: u64,
    has_interface: bool,
}

/// Writes each block.
pub fn copy(source: Source, comments: &mut Comments, out: &mut impl Write) -> Result<Copied, Ended> {
    let mut blocks = Blocks::new(source, LONGEST_BLOCK);
    let mut copy = Copy::default();
    while let Some(block) = blocks.next()? {
        copy.put(&block, comments, out)?;
    }
    if blocks.is_cut() && copy.number == 0 && !copy.has_interface {
        return Err(Ended::refused("short-header"));
    }
    let has_bytes_behind = blocks.source().has_bytes_behind();
    Ok(Copied { packets: copy.number, is_cut: blocks.is_cut(), has_bytes_behind })
}

impl Copy {
    fn put(&mut self, block: &Block<'_>, comments: &mut Comments, out: &mut impl Write) -> Result<(), Ended> {
        match block.kind {
            pcapng::SECTION_HEADER => {
                self.clocks.clear();
                return put_section(block, out);
            }
            pcapng::INTERFACE => {
                let options = block.body().get(8..).ok_or_else(|| Ended::refused("bad-block"))?;
                self.clocks.push(Clock::of(block.order, options));
                self.has_interface = true;
            }
            pcapng::ENHANCED_PACKET | pcapng::OLD_PACKET => return self.put_packet(block, comments, out),
            kind if pcapng::is_numbered(kind) => {
                self.number += 1;
                if comments.has(self.number) {
                    let is_simple = kind == pcapng::SIMPLE_PACKET;
                    return Err(Ended::refused(if is_simple { "simple-packet-block" } else { "not-a-packet" }));
                }
            }
            _ => {}
        }
        out.write_all(block.whole)?;
        Ok(())
    }

    fn put_packet(&mut self, block: &Block<'_>, comments: &mut Comments, out: &mut impl Write) -> Result<(), Ended> {
        let head = PacketHead::of(block)?;
        self.number += 1;
        let clock = self.clocks.get(head.interface).ok_or_else(|| Ended::refused("no-interface"))?;
        if !comments.has(self.number) {
            out.write_all(block.whole)?;
            return Ok(());
        }
        let found = comments.of(self.number, clock.is_exact().then(|| clock.nanos(head.ticks)))?;
        let end = PACKET_HEAD + (head.captured + 3) / 4 * 4;
        let (packet, options) = match (block.body().get(..end), block.body().get(end..)) {
            (Some(packet), Some(options)) => (packet, options),
            _ => return Err(Ended::refused("bad-block")),
        };
        let mut commented = Vec::new();
        put_with_comments(&mut commented, block.order, options, &found)?;
        pcapng::put_block(out, block.order, block.kind, &[packet, &commented])?;
        Ok(())
    }
}

/// Comments make a section longer, so its length is left open.
fn put_section(block: &Block<'_>, out: &mut impl Write) -> Result<(), Ended> {
    let whole = block.whole;
    if whole.len() < 28 {
        return Err(Ended::refused("bad-block"));
    }
    out.write_all(&whole[..16])?;
    out.write_all(&block.order.put_u64(u64::MAX))?;
    out.write_all(&whole[24..])?;
    Ok(())
}
