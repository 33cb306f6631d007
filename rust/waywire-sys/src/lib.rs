//! Declarations of the calls, types and numbers of libwaywire, as `waywire.h` and `waywire-socket.h` have them.
//!
//! The headers say what each call does, and what it asks of its caller; they are in the same installation. This
//! crate declares the calls that the crate `waywire` makes, which is safe to use. The build script finds the
//! library: the page of this package says where.
//!
//! Names are those of the headers. A value of an enum is a [`u32`], also in a signature.

#![allow(non_camel_case_types)]

#[cfg(not(all(target_os = "linux", target_arch = "x86_64", target_pointer_width = "64")))]
compile_error!("libwaywire is for Linux on x86-64");

mod calls;
#[cfg(test)]
mod headers;
mod numbers;
pub mod system;
mod types;

pub use calls::*;
pub use numbers::*;
pub use types::*;
