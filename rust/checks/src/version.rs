//! The calls of docs/RULES.md as a trait, which the library, the peer and the
//! naive version meet. The tests are said once, over it.

use crate::shape::{Estimate, Refusal, Settings, Sketch, Stretch, Walker};
use std::fmt::Debug;
use std::marker::PhantomData;

/// The calls, on anything of the right shape.
pub trait Version {
    /// How many cells of lo..hi pass at a level.
    fn count(settings: &Settings, level: u32, lo: u32, hi: u32) -> Result<u32, Refusal>;

    /// The least cell from `from` up to n that passes at a level.
    fn next_hit(settings: &Settings, level: u32, from: u32) -> Result<Option<u32>, Refusal>;

    /// A walker over lo..hi at a level.
    fn walker(settings: &Settings, level: u32, lo: u32, hi: u32) -> Result<Walker, Refusal>;

    /// What one request to a walker answers, and the walker after it.
    fn step(walker: &Walker) -> (Result<Option<u32>, Refusal>, Walker);

    /// A sketch with no cells.
    fn open(settings: &Settings) -> Result<Sketch, Refusal>;

    /// The sketch with lo..hi added.
    fn add(sketch: &Sketch, lo: u32, hi: u32) -> Result<Sketch, Refusal>;

    /// The sketch with a row of stretches added.
    fn add_row(sketch: &Sketch, row: &[Stretch]) -> Result<Sketch, Refusal>;

    /// The sketch with what the other stands for added.
    fn merge(sketch: &Sketch, other: &Sketch) -> Result<Sketch, Refusal>;

    /// How many cells the sketch stands for.
    fn estimate(sketch: &Sketch) -> Result<Estimate, Refusal>;

    /// Writes the image at the start of the room, and answers its length.
    fn write(sketch: &Sketch, room: &mut [u8]) -> Result<usize, Refusal>;

    /// The sketch of an image.
    fn read(image: &[u8]) -> Result<Sketch, Refusal>;

    /// The count by the plain engine.
    fn plain_count(settings: &Settings, level: u32, lo: u32, hi: u32) -> Result<u32, Refusal>;

    /// The next hit by the plain engine.
    fn plain_next_hit(settings: &Settings, level: u32, from: u32) -> Result<Option<u32>, Refusal>;

    /// The sketch with lo..hi added by the plain engine.
    fn plain_add(sketch: &Sketch, lo: u32, hi: u32) -> Result<Sketch, Refusal>;
}

/// Two versions side by side: each call is made of both, and fails unless they
/// answer the same and leave the same behind.
pub struct Beside<V, W>(PhantomData<(V, W)>);

fn alike<T: PartialEq + Debug>(one: T, other: T, call: impl FnOnce() -> String) -> T {
    assert!(one == other, "{}: {one:?} beside {other:?}", call());
    one
}

impl<V: Version, W: Version> Version for Beside<V, W> {
    fn count(settings: &Settings, level: u32, lo: u32, hi: u32) -> Result<u32, Refusal> {
        let call = || format!("count {settings:?} {level} {lo} {hi}");
        let one = V::count(settings, level, lo, hi);
        alike(one, W::count(settings, level, lo, hi), call)
    }

    fn next_hit(settings: &Settings, level: u32, from: u32) -> Result<Option<u32>, Refusal> {
        let call = || format!("next hit {settings:?} {level} {from}");
        let one = V::next_hit(settings, level, from);
        alike(one, W::next_hit(settings, level, from), call)
    }

    fn walker(settings: &Settings, level: u32, lo: u32, hi: u32) -> Result<Walker, Refusal> {
        let call = || format!("walker {settings:?} {level} {lo} {hi}");
        let one = V::walker(settings, level, lo, hi);
        alike(one, W::walker(settings, level, lo, hi), call)
    }

    fn step(walker: &Walker) -> (Result<Option<u32>, Refusal>, Walker) {
        alike(V::step(walker), W::step(walker), || {
            format!("step {walker:?}")
        })
    }

    fn open(settings: &Settings) -> Result<Sketch, Refusal> {
        alike(V::open(settings), W::open(settings), || {
            format!("open {settings:?}")
        })
    }

    fn add(sketch: &Sketch, lo: u32, hi: u32) -> Result<Sketch, Refusal> {
        let call = || format!("add {sketch:?} {lo} {hi}");
        alike(V::add(sketch, lo, hi), W::add(sketch, lo, hi), call)
    }

    fn add_row(sketch: &Sketch, row: &[Stretch]) -> Result<Sketch, Refusal> {
        let call = || format!("add row {sketch:?} {row:?}");
        alike(V::add_row(sketch, row), W::add_row(sketch, row), call)
    }

    fn merge(sketch: &Sketch, other: &Sketch) -> Result<Sketch, Refusal> {
        let call = || format!("merge {sketch:?} {other:?}");
        alike(V::merge(sketch, other), W::merge(sketch, other), call)
    }

    fn estimate(sketch: &Sketch) -> Result<Estimate, Refusal> {
        alike(V::estimate(sketch), W::estimate(sketch), || {
            format!("estimate {sketch:?}")
        })
    }

    fn write(sketch: &Sketch, room: &mut [u8]) -> Result<usize, Refusal> {
        let mut second = room.to_vec();
        let one = V::write(sketch, room);
        let other = W::write(sketch, &mut second);
        assert!(*room == second, "the rooms differ after write {sketch:?}");
        alike(one, other, || {
            format!("write {sketch:?} to {} bytes", second.len())
        })
    }

    fn read(image: &[u8]) -> Result<Sketch, Refusal> {
        alike(V::read(image), W::read(image), || format!("read {image:?}"))
    }

    fn plain_count(settings: &Settings, level: u32, lo: u32, hi: u32) -> Result<u32, Refusal> {
        let call = || format!("plain count {settings:?} {level} {lo} {hi}");
        let one = V::plain_count(settings, level, lo, hi);
        alike(one, W::plain_count(settings, level, lo, hi), call)
    }

    fn plain_next_hit(settings: &Settings, level: u32, from: u32) -> Result<Option<u32>, Refusal> {
        let call = || format!("plain next hit {settings:?} {level} {from}");
        let one = V::plain_next_hit(settings, level, from);
        alike(one, W::plain_next_hit(settings, level, from), call)
    }

    fn plain_add(sketch: &Sketch, lo: u32, hi: u32) -> Result<Sketch, Refusal> {
        let call = || format!("plain add {sketch:?} {lo} {hi}");
        let one = V::plain_add(sketch, lo, hi);
        alike(one, W::plain_add(sketch, lo, hi), call)
    }
}

/// Makes tests of suites over a [`Version`]: each runs on the library beside the
/// naive version, and on the peer beside it.
#[macro_export]
macro_rules! beside_naive {
    ($($suite:ident),* $(,)?) => {
        mod library_beside_naive {
            use $crate::{library::Library, naive::Naive, version::Beside};
            $(#[test] fn $suite() { super::$suite::<Beside<Library, Naive>>() })*
        }
        mod peer_beside_naive {
            use $crate::{naive::Naive, peer::Peer, version::Beside};
            $(#[test] fn $suite() { super::$suite::<Beside<Peer, Naive>>() })*
        }
    };
}

/// The same for suites that are too long for the naive version: each runs on the
/// library beside the peer.
#[macro_export]
macro_rules! beside_peer {
    ($($suite:ident),* $(,)?) => {
        mod library_beside_peer {
            use $crate::{library::Library, peer::Peer, version::Beside};
            $(#[test] fn $suite() { super::$suite::<Beside<Library, Peer>>() })*
        }
    };
}
