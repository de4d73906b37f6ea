//! Overwriting what must not be left in memory.

pub(crate) use crate::exports::wipe;

/// Bytes that are overwritten when they are dropped. A vector must not have grown: what it was copied from is not overwritten.
#[cfg(feature = "std")]
pub(crate) struct Wiped<T: AsMut<[u8]>>(pub T);

#[cfg(feature = "std")]
impl<T: AsMut<[u8]>> Drop for Wiped<T> {
    fn drop(&mut self) {
        wipe(self.0.as_mut());
    }
}

#[cfg(test)]
pub(crate) mod tests {
    use core::mem::MaybeUninit;

    /// Drops a value, and returns what is left in the place of a field, which is of numbers alone.
    pub(crate) fn left_of<T, F>(value: T, field: fn(&T) -> &F) -> F {
        let offset = field(&value) as *const F as usize - &raw const value as usize;
        let mut place = MaybeUninit::new(value);
        // SAFETY: the value is dropped once, and the field lies in its place, where dropping leaves numbers.
        unsafe {
            place.as_mut_ptr().drop_in_place();
            place.as_ptr().byte_add(offset).cast::<F>().read()
        }
    }

    #[test]
    fn wipe_zeroes_exactly_the_slice() {
        let mut bytes = [1; 5];
        super::wipe(&mut bytes[1..]);
        assert_eq!(bytes, [1, 0, 0, 0, 0]);
    }
}
