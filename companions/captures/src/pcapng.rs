//! pcapng files: several sections and interfaces, and the secrets in them (the format's draft,
//! draft-ietf-opsawg-pcapng).

use std::io::{self, Write};

use crate::bytes::Order;
use crate::dropped::Dropped;
use crate::error::Error;
use crate::packets::{Item, Packet, MOST_CAPTURED};
use crate::source::Source;

/// Types of blocks.
pub const SECTION_HEADER: u32 = 0x0A0D_0D0A;
pub const INTERFACE: u32 = 1;
pub const OLD_PACKET: u32 = 2;
pub const SIMPLE_PACKET: u32 = 3;
pub const ENHANCED_PACKET: u32 = 6;
pub const SECRETS: u32 = 0xA;
/// Types that Wireshark 4.0.17 numbers among the packets, though no datagram is in them: journal entries of systemd,
/// custom blocks, and events of Sysdig.
const OTHER_NUMBERED: [u32; 6] = [0x9, 0xBAD, 0x4000_0BAD, 0x204, 0x216, 0x221];

/// Options of any block, and of an interface.
pub const END_OF_OPTIONS: u16 = 0;
pub const COMMENT: u16 = 1;
pub const TIME_RESOLUTION: u16 = 9;
pub const TIME_OFFSET: u16 = 14;

pub const MAGIC: [u8; 4] = SECTION_HEADER.to_le_bytes();
const BYTE_ORDER_MAGIC: u32 = 0x1A2B_3C4D;
const TLS_KEY_LOG: u32 = 0x544C_534B;
/// Room for a packet of any size, and its options.
pub const LONGEST_BLOCK: usize = MOST_CAPTURED + (1 << 20);
pub const MOST_INTERFACES: usize = 1 << 16;
/// Before the data of a packet, in the body of its block.
const PACKET_HEAD: usize = 20;
const NANOS: i128 = 1_000_000_000;

/// Whether Wireshark gives blocks of this type a number, `frame.number`.
pub fn is_numbered(kind: u32) -> bool {
    matches!(kind, OLD_PACKET | SIMPLE_PACKET | ENHANCED_PACKET) || OTHER_NUMBERED.contains(&kind)
}

/// A block as it stands in its file, in the byte order of its section.
#[derive(Clone, Copy, Debug)]
pub struct Block<'a> {
    pub kind: u32,
    pub order: Order,
    /// All of it, with type and both lengths.
    pub whole: &'a [u8],
}

impl<'a> Block<'a> {
    /// What stands between its lengths.
    #[inline]
    pub fn body(&self) -> &'a [u8] {
        &self.whole[8..self.whole.len() - 4]
    }
}

/// The blocks of a file.
pub struct Blocks {
    source: Source,
    longest: usize,
    order: Order,
    pending: usize,
    is_cut: bool,
}

impl Blocks {
    /// The blocks of a file whose magic is that of pcapng. A block of more bytes than the longest is refused.
    pub fn new(source: Source, longest: usize) -> Blocks {
        Blocks { source, longest, order: Order::Little, pending: 0, is_cut: false }
    }

    pub fn source(&self) -> &Source {
        &self.source
    }

    /// Whether the file ends within a block, or is a compressed one that ends too early, once its end is reached.
    pub fn is_cut(&self) -> bool {
        self.is_cut
    }

    /// The next block; none at the end.
    #[allow(clippy::should_implement_trait)] // a block borrows from the reader, which no Iterator's item may
    #[inline]
    pub fn next(&mut self) -> Result<Option<Block<'_>>, Error> {
        self.source.consume(self.pending);
        self.pending = 0;
        let kind = self.head()?;
        Ok(kind.map(|kind| Block { kind, order: self.order, whole: self.source.view(self.pending) }))
    }

    /// Brings the next block into view, and answers its type.
    fn head(&mut self) -> Result<Option<u32>, Error> {
        let mut head = self.source.fill(8)?;
        let is_section = head.len() == 8 && head[..4] == MAGIC;
        let shortest = if is_section { 12 } else { 8 };
        if is_section {
            head = self.source.fill(12)?;
        }
        if head.len() < shortest {
            self.is_cut = !head.is_empty() || self.source.is_cut();
            return Ok(None);
        }
        if is_section {
            self.order = [Order::Little, Order::Big]
                .into_iter()
                .find(|order| order.u32(head, 8) == BYTE_ORDER_MAGIC)
                .ok_or_else(|| Error::refused("bad-block"))?;
        }
        let (kind, length) = (self.order.u32(head, 0), self.order.u32(head, 4) as usize);
        if length < shortest + 4 || length % 4 != 0 {
            return Err(Error::refused("bad-block"));
        }
        if length > self.longest {
            return Err(Error::refused("too-long-block"));
        }
        let whole = self.source.fill(length)?;
        if whole.len() < length {
            self.is_cut = true;
            return Ok(None);
        }
        if self.order.u32(whole, length - 4) as usize != length {
            return Err(Error::refused("bad-block"));
        }
        self.pending = length;
        Ok(Some(if is_section { SECTION_HEADER } else { kind }))
    }
}

/// The options in an area, each with its place, code and value, as far as they are whole.
pub fn options(order: Order, area: &[u8]) -> impl Iterator<Item = (usize, u16, &[u8])> {
    let mut at = 0;
    std::iter::from_fn(move || {
        let head = area.get(at..at + 4)?;
        let (code, length) = (order.u16(head, 0), usize::from(order.u16(head, 2)));
        if code == END_OF_OPTIONS {
            return None;
        }
        let begin = at;
        let value = &area[(begin + 4).min(area.len())..(begin + 4 + length).min(area.len())];
        at = begin + 4 + (length + 3) / 4 * 4;
        Some((begin, code, value))
    })
}

/// The clock of an interface: units in a second (none if there are more than any time has), and an offset in seconds.
#[derive(Clone, Copy, Debug)]
pub struct Clock {
    units: Option<i128>,
    offset: i64,
}

impl Clock {
    /// By the options of an interface: microseconds without one that says another unit.
    pub fn of(order: Order, area: &[u8]) -> Clock {
        let mut clock = Clock { units: Some(1_000_000), offset: 0 };
        for (_, code, value) in options(order, area) {
            if code == TIME_RESOLUTION && !value.is_empty() {
                let base: i128 = if value[0] & 0x80 == 0 { 10 } else { 2 };
                clock.units = base.checked_pow(u32::from(value[0] & 0x7F));
            } else if code == TIME_OFFSET && value.len() >= 8 {
                clock.offset = order.i64(value, 0);
            }
        }
        clock
    }

    /// Nanoseconds since 1970; a time that no 64 bits hold is the nearest one that they do.
    #[inline]
    pub fn nanos(&self, ticks: u64) -> i64 {
        if let (Some(1_000_000), 0, Ok(ticks)) = (self.units, self.offset, i64::try_from(ticks)) {
            return ticks.saturating_mul(1000);
        }
        let since = self.units.map_or(0, |units| i128::from(ticks) * NANOS / units);
        let nanos = since + i128::from(self.offset) * NANOS;
        nanos.clamp(i128::from(i64::MIN), i128::from(i64::MAX)) as i64
    }

    /// Whether each of its times is a whole number of nanoseconds.
    pub fn is_exact(&self) -> bool {
        self.units.map_or(false, |units| NANOS % units == 0)
    }
}

/// How the packets of an interface are to be read.
#[derive(Clone, Copy, Debug)]
pub struct Interface {
    pub link: u16,
    pub clock: Clock,
}

impl Interface {
    /// What the body of an Interface Description Block says.
    pub fn of(order: Order, body: &[u8]) -> Result<Interface, Error> {
        if body.len() < 8 {
            return Err(Error::refused("bad-block"));
        }
        Ok(Interface { link: order.u16(body, 0), clock: Clock::of(order, &body[8..]) })
    }
}

/// What stands before the data of a packet.
#[derive(Clone, Copy, Debug)]
pub struct PacketHead {
    pub interface: usize,
    pub ticks: u64,
    pub captured: usize,
    pub original: u32,
}

impl PacketHead {
    /// What the body of an Enhanced Packet Block says, or of a Packet Block of old.
    pub fn of(block: &Block<'_>) -> Result<PacketHead, Error> {
        let (order, body) = (block.order, block.body());
        if body.len() < PACKET_HEAD {
            return Err(Error::refused("bad-block"));
        }
        let interface = match block.kind {
            OLD_PACKET => usize::from(order.u16(body, 0)),
            _ => order.u32(body, 0) as usize,
        };
        let ticks = u64::from(order.u32(body, 4)) << 32 | u64::from(order.u32(body, 8));
        let (captured, original) = (order.u32(body, 12) as usize, order.u32(body, 16));
        if captured > body.len() - PACKET_HEAD {
            return Err(Error::refused("bad-block"));
        }
        Ok(PacketHead { interface, ticks, captured, original })
    }

    /// The data of the packet.
    pub fn data<'a>(&self, block: &Block<'a>) -> &'a [u8] {
        &block.body()[PACKET_HEAD..PACKET_HEAD + self.captured]
    }
}

/// The text of a key log of TLS in the body of a Decryption Secrets Block; none where its secrets are others.
fn secrets_of(order: Order, body: &[u8]) -> Result<Option<&[u8]>, Error> {
    if body.len() < 8 {
        return Err(Error::refused("bad-block"));
    }
    let (kind, length) = (order.u32(body, 0), order.u32(body, 4) as usize);
    if length > body.len() - 8 {
        return Err(Error::refused("bad-block"));
    }
    Ok((kind == TLS_KEY_LOG).then(|| &body[8..8 + length]))
}

/// What the blocks of a file hold, in order.
pub struct Reader {
    blocks: Blocks,
    interfaces: Vec<Interface>,
    dropped: Dropped,
    has_ended: bool,
}

/// What a block is, where something comes of it. It holds no bytes, so that those of the block can be borrowed anew.
enum BlockKind {
    Nothing,
    Packet(PacketHead),
    Secrets,
    Numbered,
}

impl Reader {
    pub fn new(source: Source) -> Reader {
        let blocks = Blocks::new(source, LONGEST_BLOCK);
        Reader { blocks, interfaces: Vec::new(), dropped: Dropped::default(), has_ended: false }
    }

    pub fn source(&self) -> &Source {
        self.blocks.source()
    }

    /// How many packets were dropped, as the blocks up to here say.
    pub fn dropped(&self) -> u64 {
        self.dropped.packets()
    }

    #[allow(clippy::should_implement_trait)] // an item borrows from the reader, which no Iterator's may
    #[inline]
    pub fn next(&mut self) -> Result<Option<Item<'_>>, Error> {
        if self.has_ended {
            return Ok(None);
        }
        let found = loop {
            match self.blocks.next()? {
                None => break None,
                Some(block) => match take(&mut self.interfaces, &block)? {
                    BlockKind::Nothing => self.dropped.take(block.kind, block.order, block.body()),
                    found => break Some(found),
                },
            }
        };
        match found {
            Some(found) => self.item(found).map(Some),
            None => {
                self.has_ended = true;
                Ok(self.blocks.is_cut().then_some(Item::Cut))
            }
        }
    }

    fn item(&self, found: BlockKind) -> Result<Item<'_>, Error> {
        let order = self.blocks.order;
        let block = Block { kind: 0, order, whole: self.blocks.source.view(self.blocks.pending) };
        Ok(match found {
            BlockKind::Packet(head) => {
                let interface = self.interfaces[head.interface];
                let nanos = interface.clock.nanos(head.ticks);
                let data = head.data(&block);
                Item::Packet(Packet { nanos, link: Some(interface.link), data, original: head.original })
            }
            BlockKind::Secrets => Item::Secrets(secrets_of(order, block.body())?.unwrap_or_default()),
            BlockKind::Nothing | BlockKind::Numbered => {
                Item::Packet(Packet { nanos: 0, link: None, data: &[], original: 0 })
            }
        })
    }
}

fn take(interfaces: &mut Vec<Interface>, block: &Block<'_>) -> Result<BlockKind, Error> {
    match block.kind {
        ENHANCED_PACKET | OLD_PACKET => {
            let head = PacketHead::of(block)?;
            if head.interface >= interfaces.len() {
                return Err(Error::refused("no-interface"));
            }
            return Ok(BlockKind::Packet(head));
        }
        SECTION_HEADER => interfaces.clear(),
        INTERFACE if interfaces.len() >= MOST_INTERFACES => return Err(Error::refused("too-many-interfaces")),
        INTERFACE => interfaces.push(Interface::of(block.order, block.body())?),
        SECRETS if secrets_of(block.order, block.body())?.is_some() => return Ok(BlockKind::Secrets),
        SIMPLE_PACKET => return Err(Error::refused("simple-packet-block")),
        kind if is_numbered(kind) => return Ok(BlockKind::Numbered),
        _ => {}
    }
    Ok(BlockKind::Nothing)
}

/// Gives the secrets of a file, wherever in it they stand. Packets are passed over, and damage is left to [`Reader`].
pub fn secrets_in(source: Source, mut give: impl FnMut(&[u8])) -> Result<(), Error> {
    let mut blocks = Blocks::new(source, LONGEST_BLOCK);
    loop {
        let found = match blocks.next() {
            Ok(Some(block)) if block.kind == SECRETS => secrets_of(block.order, block.body()),
            Ok(Some(_)) => continue,
            Ok(None) => return Ok(()),
            Err(error) => Err(error),
        };
        match found {
            Ok(text) => text.into_iter().for_each(&mut give),
            Err(Error::Refused(_)) => return Ok(()),
            Err(error) => return Err(error),
        }
    }
}

/// Adds an option, padded to 32 bits.
pub fn put_option(area: &mut Vec<u8>, order: Order, code: u16, value: &[u8]) {
    let length = value.len().min(usize::from(u16::MAX));
    area.extend(order.put_u16(code));
    area.extend(order.put_u16(length as u16));
    area.extend(&value[..length]);
    area.extend(padding_of(length));
}

/// Writes a block whose body is these parts, with a length that is together a multiple of 4.
pub fn put_block(out: &mut impl Write, order: Order, kind: u32, body: &[&[u8]]) -> io::Result<()> {
    let length = body.iter().map(|part| part.len() as u32).sum::<u32>() + 12;
    out.write_all(&order.put_u32(kind))?;
    out.write_all(&order.put_u32(length))?;
    body.iter().try_for_each(|part| out.write_all(part))?;
    out.write_all(&order.put_u32(length))
}

/// What fills a part of this length up to 32 bits.
pub fn padding_of(length: usize) -> &'static [u8] {
    &[0; 3][..(4 - length % 4) % 4]
}

/// The body of a Section Header Block of unknown length, for [`put_block`].
pub fn section_body(order: Order) -> Vec<u8> {
    let version: [[u8; 2]; 2] = [order.put_u16(1), order.put_u16(0)];
    [&order.put_u32(BYTE_ORDER_MAGIC)[..], &version[0], &version[1], &order.put_u64(u64::MAX)].concat()
}
