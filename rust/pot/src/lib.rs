//! Sketches of sets of cells: how many different cells were seen, from small
//! samples that merge in any order.
//!
//! A cell is a number from 1 to n. A [`Sketch`] takes stretches of cells and
//! keeps a sample of at most `capacity` of them. While all of them fit it knows
//! their number exactly; after that it estimates it. Sketches with the same
//! [`Settings`] merge, and the merge is that of all cells together, whatever the
//! order and the repeats.
//!
//! ```
//! use pot::{Estimate, Settings, Sketch};
//!
//! // Drawn once, and shared by all handhelds.
//! let settings = Settings { n: 1_000_000, p: 15_485_863, a: 9_245_170, b: 3_021_377, capacity: 504 };
//!
//! let mut one = Sketch::open(settings)?;
//! one.add(12..=480)?;
//! assert_eq!(one.estimate(), Estimate::Exact(469));
//!
//! let mut two = Sketch::open(settings)?;
//! two.add(300..=70_000)?;
//! one.merge(&two)?;
//! assert!(matches!(one.estimate(), Estimate::About(cells) if (60_000.0..80_000.0).contains(&cells)));
//!
//! // To the link and back.
//! let image = one.to_image();
//! assert_eq!(Sketch::try_from(&image[..])?, one);
//! # Ok::<(), pot::Refusal>(())
//! ```
//!
//! Every call answers every input: what is wrong is refused with a [`Refusal`]
//! that names the cause, and then nothing has changed. The calls are those of
//! `libhost.a`, whose promises are proved; [`calls`] has them as they are, on
//! rows of numbers.

#![deny(missing_docs, unsafe_code)]

// Calls into a linked library can't be checked by the compiler.
#[allow(unsafe_code)]
pub mod calls;
mod refusal;
mod settings;
mod sketch;
mod stretch;
mod walker;

pub use refusal::Refusal;
pub use settings::Settings;
pub use sketch::{Estimate, Sketch};
pub use stretch::Stretch;
pub use walker::Walker;

/// How many cells a sketch has places for: the largest capacity.
pub const PLACES: usize = 504;
/// The largest n of good settings.
pub const LARGEST_N: u32 = 200_000_000;
/// The largest n of the plain engine, which tests each cell where the first
/// doesn't walk over them, and up to here answers the same:
/// [`Settings::plain_count`], [`Settings::plain_next_hit`] and
/// [`Sketch::plain_add`].
pub const PLAIN_LIMIT: u32 = 4_096;
/// The bytes of the largest image.
pub const LARGEST_IMAGE: usize = 2_560;
