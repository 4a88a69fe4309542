//! The crate `bitflags` as docs/src uses it: version 2, where Debian has 1.3.2.
//!
//! The two differ, for docs/src, in one thing: version 2 wants the traits of the flags listed in a `#[derive(..)]`,
//! version 1 derives the same ones unasked and would then have them twice. So that line is dropped and the rest is
//! handed on.
#![no_std]

#[doc(hidden)]
pub use bitflags_1;

#[macro_export]
macro_rules! bitflags {
    (#[derive($($trait:ident),*)] $($declaration:tt)*) => {
        $crate::bitflags_1::bitflags! { $($declaration)* }
    };
}
