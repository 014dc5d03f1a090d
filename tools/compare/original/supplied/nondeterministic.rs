//! Supplied: the modules of the nondeterministic parser. `context.rs` is included as it is, so that `readout.rs` can read
//! its private fields.

pub mod error;
mod node;

pub use error::{FeedSuccess, ParseError, ParseErrorBranch};
pub use node::Node;
pub(crate) use node::NodeId;

mod context {
    include!("context.rs");
    include!("readout.rs");
}
pub use context::{Context, Entries};
