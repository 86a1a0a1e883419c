//! Numbers in bytes. Each function takes bytes whose length was looked at before.

/// The order of the bytes of numbers, which a file says of itself.
#[derive(Clone, Copy, Debug, PartialEq, Eq)]
pub enum Order {
    Little,
    Big,
}

fn array<const N: usize>(data: &[u8], at: usize) -> [u8; N] {
    let mut found = [0; N];
    found.copy_from_slice(&data[at..at + N]);
    found
}

impl Order {
    #[inline]
    pub fn u16(self, data: &[u8], at: usize) -> u16 {
        match self {
            Order::Little => u16::from_le_bytes(array(data, at)),
            Order::Big => u16::from_be_bytes(array(data, at)),
        }
    }

    #[inline]
    pub fn u32(self, data: &[u8], at: usize) -> u32 {
        match self {
            Order::Little => u32::from_le_bytes(array(data, at)),
            Order::Big => u32::from_be_bytes(array(data, at)),
        }
    }

    #[inline]
    pub fn i64(self, data: &[u8], at: usize) -> i64 {
        match self {
            Order::Little => i64::from_le_bytes(array(data, at)),
            Order::Big => i64::from_be_bytes(array(data, at)),
        }
    }

    pub fn put_u16(self, number: u16) -> [u8; 2] {
        match self {
            Order::Little => number.to_le_bytes(),
            Order::Big => number.to_be_bytes(),
        }
    }

    pub fn put_u32(self, number: u32) -> [u8; 4] {
        match self {
            Order::Little => number.to_le_bytes(),
            Order::Big => number.to_be_bytes(),
        }
    }

    pub fn put_u64(self, number: u64) -> [u8; 8] {
        match self {
            Order::Little => number.to_le_bytes(),
            Order::Big => number.to_be_bytes(),
        }
    }
}

/// The numbers of network protocols.
#[inline]
pub fn u16_at(data: &[u8], at: usize) -> u16 {
    Order::Big.u16(data, at)
}

#[inline]
pub fn u32_at(data: &[u8], at: usize) -> u32 {
    Order::Big.u32(data, at)
}

#[inline]
pub fn array_at<const N: usize>(data: &[u8], at: usize) -> [u8; N] {
    array(data, at)
}
