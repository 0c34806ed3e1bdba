//! One call of an entry, by the library and by the reference, with everything lent looked at.

mod asked;
mod code;
mod decode;
mod equal;
mod feed;
mod frame;
mod output;
mod read;
mod reading;
mod resolve;
mod texts;
mod walk;

use crate::shown::Difference;
pub use asked::Asked;
pub use code::{name_code, name_code_of};
pub use decode::decode;
pub use equal::equal;
pub use feed::{Expected, Fed};
pub use frame::{feed_any, finish_any};
pub use read::{read, read_alike};
pub use reading::Reading;
pub use resolve::Resolving;
pub use texts::{compare_texts, compare_texts_of};
pub use walk::Walking;

pub type Compared<T> = Result<T, Difference>;
