//! What comes from C: pointers with lengths.

pub use core::slice::{from_raw_parts as input, from_raw_parts_mut as output};

pub type In = *const u8;
pub type Out = *mut u8;

/// Declares exports, each of which returns the code of its body's [`Answer`](crate::code::Answer). No pointer is null, and each
/// has as many bytes as its length or its type: C ensures it, as `c/library/proved.h` says.
macro_rules! exports {
    ($(fn $name:ident($($argument:ident: $type:ty),* $(,)?) $body:block)*) => {
        $(
            #[unsafe(no_mangle)]
            #[allow(unused_unsafe)]
            pub unsafe extern "C" fn $name($($argument: $type),*) -> i32 {
                // SAFETY: the caller ensures what is said above.
                crate::code::code((|| unsafe { $body })())
            }
        )*
    };
}
pub(crate) use exports;
