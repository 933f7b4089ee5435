//! Stands in for the crate `cipher`, which is absent: the types that the crate's two block functions name.

/// The crate's instance: its eighty round words.
pub struct Gift128 {
    pub k: [u32; 80],
}

pub trait HasBlock {
    type Block;
}

impl HasBlock for Gift128 {
    type Block = [u8; 16];
}

pub type Block<T> = <T as HasBlock>::Block;

/// A block to read and a block to write.
pub struct InOut<'a, 'b, T> {
    pub read: &'a T,
    pub written: &'b mut T,
}

impl<T> InOut<'_, '_, T> {
    pub fn get_in(&self) -> &T {
        self.read
    }

    pub fn get_out(&mut self) -> &mut T {
        self.written
    }
}
