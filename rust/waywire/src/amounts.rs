//! Numbers of bytes and tokens.

use crate::args::MAX_ARGS;
use crate::socket::MOST_DESCRIPTORS;
use waywire_sys as ffi;

/// Numbers of bytes and of tokens.
#[derive(Clone, Copy, Debug, Default, PartialEq, Eq, Hash)]
pub struct Amounts {
    /// How many bytes.
    pub bytes: usize,
    /// How many tokens, each of which is a file descriptor.
    pub tokens: usize,
}

impl Amounts {
    #[inline]
    pub(crate) fn of(raw: ffi::waywire_amounts) -> Amounts {
        Amounts { bytes: raw.bytes, tokens: raw.tokens }
    }
}

/// What [`Writer::announce`](crate::Writer::announce) wrote.
#[derive(Clone, Copy, Debug, PartialEq, Eq)]
pub struct Announced {
    /// How many events were written.
    pub count: usize,
    /// Whether these were all; if not, the next one did not fit.
    pub all: bool,
}

/// The sizes of the outbox and the inbox of an end, which never grow. A token is a file descriptor.
///
/// An outbox has at most 16,777,216 bytes and 65,536 tokens. An inbox has from `limit` to 16,777,216
/// bytes, and from 20 to 65,536 tokens. A [`Link`](crate::socket::Link) needs
/// [more than the least](crate::socket::Link::new).
#[derive(Clone, Copy, Debug, PartialEq, Eq, Hash)]
pub struct Sizes {
    /// The bytes of the outbox.
    pub out_bytes: usize,
    /// The tokens of the outbox.
    pub out_tokens: usize,
    /// The bytes of the inbox.
    pub in_bytes: usize,
    /// The tokens of the inbox.
    pub in_tokens: usize,
    /// The length of the longest message in bytes, with its header: a multiple of 4 from 4,096 to
    /// 65,532, or 0 for [`Sizes::USUAL_LIMIT`]. Both ends of a connection must have the same limit.
    pub limit: u32,
}

impl Sizes {
    /// The limit unless both ends use another: 4,096 bytes, as in libwayland.
    pub const USUAL_LIMIT: u32 = 4096;

    pub(crate) fn raw(&self) -> ffi::waywire_sizes {
        ffi::waywire_sizes {
            out_bytes: self.out_bytes,
            out_tokens: self.out_tokens,
            in_bytes: self.in_bytes,
            in_tokens: self.in_tokens,
            limit: self.limit,
        }
    }

    /// Whether an end with these sizes can take what libwayland sends at once, and any message, even while
    /// the descriptors of an incomplete message wait.
    pub(crate) fn can_carry(&self) -> bool {
        let limit = if self.limit == 0 { Sizes::USUAL_LIMIT } else { self.limit };
        self.out_bytes >= limit as usize
            && self.out_tokens >= MAX_ARGS
            && self.in_tokens >= MOST_DESCRIPTORS + MAX_ARGS
    }
}

impl Default for Sizes {
    /// 65,536 bytes and 64 tokens for the outbox, 16,384 bytes and 256 tokens for the inbox, as a
    /// connection in C has. That is enough for one read of a socket, and for the descriptors that wait for
    /// the bytes of their messages: libwayland passes 28 at once, and a newer one may do so several times
    /// before it sends those bytes.
    fn default() -> Self {
        Sizes { out_bytes: 65536, out_tokens: 64, in_bytes: 16384, in_tokens: 256, limit: 0 }
    }
}
