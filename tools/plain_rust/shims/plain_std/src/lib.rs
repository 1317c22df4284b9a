//! The standard library as the translated crates call it, over Rust's own.
//!
//! What allocates is passed an allocator, which is nothing here, and returns a `Result`, which is always `Ok`: where memory
//! is wanting, the program ends. The names and the types of results are those of the kit's std, and there is just what the
//! crates of the repository call.

pub mod alloc;
pub mod boxed;
pub mod collections;
pub mod env;
pub mod fs;
pub mod io;
mod macros;
pub mod rt;
pub mod slice;
pub mod string;
pub mod vec;

pub use std::{cmp, error, fmt, mem, num, ops, process, str};

/// Traits that say something of types alone.
pub mod marker {
    /// A type that contracts see as a model.
    pub trait Model {}

    /// A type whose values may be let go.
    pub trait Drop {}

    impl<T: ?Sized> Drop for T {}
}

/// Clocks.
pub mod time {
    pub use crate::rt::CpuClock;
    pub use std::time::Duration;
}

/// Tests.
pub mod test {
    /// Why a test failed.
    #[derive(Debug)]
    pub struct Fail;
}

/// What each module has without naming it.
pub mod prelude {
    pub use crate::boxed::BoxIn;
    pub use crate::io::{Eprint, Print};
    pub use crate::marker::Drop;
    pub use crate::rt::{AllocGlobal, HostRuntime};
    pub use crate::slice::{CollectIn, SliceIn};
    pub use crate::string::String;
    pub use crate::vec::Vec;
}
