//! A safe interface to `libmold`: MoldUDP64 packets, a listener to two lines, a repairer that also requests what is
//! missing, a publisher, a re-request server, and a checker of captures. The library is proved, and this crate is not:
//! `docs/LIBRARY.md` of the repository states what holds.
//!
//! The library opens no socket, reads no clock, starts no thread and prints nothing. A program passes datagrams to it
//! and gets messages back:
//!
//! ```
//! use mold::{Error, Listener, Origin};
//!
//! fn print_messages(listener: &mut Listener, datagram: &[u8]) -> Result<(), Error> {
//!     listener.take(Origin::LineA, datagram)?;
//!     for (sequence, message) in listener.batch() {
//!         println!("{sequence} {}", message.len());
//!     }
//!     listener.clear();
//!     Ok(())
//! }
//! # let mut listener = Listener::new(mold::Session(*b"SESSION001"), 1, 1024)?;
//! # print_messages(&mut listener, b"SESSION001\0\0\0\0\0\0\0\x01\0\x01\0\x02AB")?;
//! # assert_eq!((listener.next(), listener.batch().len()), (2, 0));
//! # Ok::<(), Error>(())
//! ```
//!
//! | Type | What it is |
//! |---|---|
//! | [`Packet`], [`Request`], [`Packer`] | decoded datagrams, request packets, and a writer of packets |
//! | [`Listener`] | delivers the messages of two lines and a server in order |
//! | [`Repairer`] | a listener that also decides when to request what, and from which server |
//! | [`Publisher`] | puts messages in datagrams, and keeps them in a journal |
//! | [`Server`] | responds to requests, from a journal |
//! | [`Checker`] | reports whether captured datagrams are one whole session |
//!
//! # Ownership
//!
//! A type that owns memory of the library frees it when it is dropped. It may be sent to another thread, but not
//! shared. Messages are slices that borrow from it or from a datagram, so the compiler refuses a use after the next
//! call.
//!
//! # Memory
//!
//! A method returns [`Error::Memory`] if an allocation fails. `docs/LIBRARY.md` lists the calls of the library that
//! allocate. This crate itself allocates only the vectors that [`Publisher::journal`] and [`Checker::ranges`] return,
//! and one more in the latter.
//!
//! # The archive
//!
//! The build script links `libmold.a`. `docs/LIBRARY.md` states where it looks for the archive.
//!
//! The archive has to have the version of this crate, except for the patch number. Otherwise each function that makes a
//! [`Listener`], a [`Repairer`], a [`Publisher`], a [`Server`] or a [`Checker`] panics, with a message that has both
//! versions.

mod batch;
mod checker;
mod delivered;
mod error;
mod handle;
mod line_stats;
mod listener;
mod messages;
mod origin;
mod packer;
mod packet;
mod plan;
mod publisher;
mod ranges;
mod repair_options;
mod repair_stats;
mod repairer;
mod report;
mod request;
mod server;
mod session;
mod sys;
mod taken;
mod time;
mod vector;
mod verdict;
mod version;
mod written;

pub use batch::Batch;
pub use checker::Checker;
pub use delivered::Delivered;
pub use error::Error;
pub use line_stats::LineStats;
pub use listener::Listener;
pub use messages::Messages;
pub use origin::Origin;
pub use packer::Packer;
pub use packet::{Kind, Packet};
pub use plan::Plan;
pub use publisher::Publisher;
pub use ranges::Ranges;
pub use repair_options::RepairOptions;
pub use repair_stats::RepairStats;
pub use repairer::Repairer;
pub use report::Report;
pub use request::Request;
pub use server::Server;
pub use session::Session;
pub use taken::Taken;
pub use verdict::Verdict;

/// Returns the version of the linked library: the major number times 1,000,000, plus the minor number times 1,000,
/// plus the patch number. Version 0.3.0 is 3000.
pub fn library_version() -> u32 {
    // SAFETY: The call has no argument.
    unsafe { sys::mold_library_version() }
}
