//! Buffers as a caller lends them: rubbish inside and around, and what must stand in them afterwards.

use inputs::Random;

/// The elements before and behind each lent part, which no call may touch.
const MARGIN: usize = 16;

/// An element of a lent buffer.
pub trait Element: Copy + PartialEq {
    fn from_bits(bits: u64) -> Self;
}

impl Element for u8 {
    fn from_bits(bits: u64) -> Self {
        bits as u8
    }
}

impl Element for u16 {
    fn from_bits(bits: u64) -> Self {
        bits as u16
    }
}

impl Element for u32 {
    fn from_bits(bits: u64) -> Self {
        bits as u32
    }
}

/// A lent output.
pub struct Output<T> {
    before: Vec<T>,
    now: Vec<T>,
}

impl<T: Element> Output<T> {
    /// An output of this length, full of rubbish.
    pub fn new(random: &mut Random, length: usize) -> Self {
        let rubbish = |_| T::from_bits(random.bits() >> 8);
        let before: Vec<T> = (0..MARGIN + length + MARGIN).map(rubbish).collect();
        Output { now: before.clone(), before }
    }

    /// The part to lend.
    pub fn lend(&mut self) -> &mut [T] {
        let end = self.now.len() - MARGIN;
        &mut self.now[MARGIN..end]
    }

    /// Whether the result stands in front and all else is as it was.
    pub fn holds(&self, result: &[T]) -> bool {
        let end = MARGIN + result.len();
        self.now[..MARGIN] == self.before[..MARGIN]
            && self.now[MARGIN..end] == *result
            && self.now[end..] == self.before[end..]
    }
}

/// A work area, or the area of a machine's state, lent at some length.
pub struct Area {
    rubbish: Vec<u32>,
    now: Vec<u32>,
}

impl Area {
    /// An area that can be lent at up to this length.
    pub fn new(random: &mut Random, most: usize) -> Self {
        let rubbish: Vec<u32> = (0..MARGIN + most + MARGIN).map(|_| random.bits() as u32).collect();
        Area { now: rubbish.clone(), rubbish }
    }

    /// Puts rubbish in again and lends this length.
    pub fn lend(&mut self, length: usize) -> &mut [u32] {
        let all = MARGIN + length + MARGIN;
        self.now[..all].copy_from_slice(&self.rubbish[..all]);
        self.kept(length)
    }

    /// Lends this length as the last call left it.
    pub fn kept(&mut self, length: usize) -> &mut [u32] {
        &mut self.now[MARGIN..MARGIN + length]
    }

    /// Whether the part of this length is all zero, and nothing around it was touched.
    pub fn cleared(&self, length: usize) -> bool {
        // Without an early end, which would keep the words from being looked at many at a time.
        let bits = self.now[MARGIN..MARGIN + length].iter().fold(0, |bits, word| bits | word);
        bits == 0 && self.around_untouched(length)
    }

    /// Whether the part of this length and all around it is as it was.
    pub fn untouched(&self, length: usize) -> bool {
        let all = MARGIN + length + MARGIN;
        self.now[..all] == self.rubbish[..all]
    }

    /// Whether nothing around the part of this length was touched.
    pub fn around_untouched(&self, length: usize) -> bool {
        let end = MARGIN + length;
        self.now[..MARGIN] == self.rubbish[..MARGIN]
            && self.now[end..end + MARGIN] == self.rubbish[end..end + MARGIN]
    }
}
