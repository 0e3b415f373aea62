//! The library, called as it is: on rows of numbers, good or not. Each row that a
//! call fills has stale numbers in it and fences around it, and a refused call
//! must leave behind what docs/RULES.md says.

use crate::shape::{Estimate, Refusal, Settings, Sketch, Stretch, Walker};
use crate::version::Version;
use pot::calls::{self, SKETCH, WALKER};
use std::fmt::Debug;

/// What lies in the places for results before a call.
const STALE: u32 = 0xDEAD_BEEF;
const STALE_BYTE: u8 = 0xA5;
/// Numbers, or bytes, of a fence.
const FENCE: usize = 16;

/// A row between two fences, which no call may touch.
#[repr(C)]
struct Fenced<const LENGTH: usize> {
    before: [u32; FENCE],
    lent: [u32; LENGTH],
    after: [u32; FENCE],
}

impl<const LENGTH: usize> Fenced<LENGTH> {
    fn new(lent: [u32; LENGTH]) -> Fenced<LENGTH> {
        Fenced {
            before: [STALE; FENCE],
            lent,
            after: [STALE; FENCE],
        }
    }

    fn stale() -> Fenced<LENGTH> {
        Fenced::new([STALE; LENGTH])
    }

    /// The row after a call.
    fn open(self) -> [u32; LENGTH] {
        assert_eq!((self.before, self.after), ([STALE; FENCE], [STALE; FENCE]));
        self.lent
    }
}

/// The value of a call; or its refusal, which must come with this other value.
fn told<T: PartialEq + Debug>(number: u32, value: T, refused: T) -> Result<T, Refusal> {
    if number == 0 {
        return Ok(value);
    }
    assert!(value == refused, "refusal {number} comes with {value:?}");
    Err(Refusal { number, place: 0 })
}

fn some_cell(cell: u32) -> Option<u32> {
    (cell != 0).then_some(cell)
}

/// The library's calls.
pub struct Library;

impl Version for Library {
    fn count(settings: &Settings, level: u32, lo: u32, hi: u32) -> Result<u32, Refusal> {
        let answer = calls::count(&settings.for_library(), level, lo, hi);
        told(answer.number, answer.value, 0)
    }

    fn next_hit(settings: &Settings, level: u32, from: u32) -> Result<Option<u32>, Refusal> {
        let answer = calls::next_hit(&settings.for_library(), level, from);
        told(answer.number, answer.value, 0).map(some_cell)
    }

    fn walker(settings: &Settings, level: u32, lo: u32, hi: u32) -> Result<Walker, Refusal> {
        let mut row = Fenced::stale();
        let number = calls::walker_open(&settings.for_library(), level, lo, hi, &mut row.lent);
        told(number, row.open(), [0; WALKER]).map(Walker::of_row)
    }

    fn step(walker: &Walker) -> (Result<Option<u32>, Refusal>, Walker) {
        let mut row = Fenced::new(walker.row());
        let answer = calls::walker_next(&mut row.lent);
        let found = told(answer.number, answer.cell, 0).map(some_cell);
        (found, Walker::of_row(row.open()))
    }

    fn open(settings: &Settings) -> Result<Sketch, Refusal> {
        let mut row = Fenced::stale();
        let number = calls::open(&settings.for_library(), &mut row.lent);
        told(number, row.open(), [0; SKETCH]).map(Sketch::of_row)
    }

    fn add(sketch: &Sketch, lo: u32, hi: u32) -> Result<Sketch, Refusal> {
        let mut row = Fenced::new(sketch.row());
        let number = calls::add(&mut row.lent, lo, hi);
        told(number, row.open(), sketch.row()).map(Sketch::of_row)
    }

    /// No stretch of the fences is good, so a call that reads too far shows too.
    fn add_row(sketch: &Sketch, row: &[Stretch]) -> Result<Sketch, Refusal> {
        let fence = [(STALE, STALE); FENCE];
        let fenced = for_library(&[&fence, row, &fence].concat());
        let lent = fenced.clone();
        let mut numbers = Fenced::new(sketch.row());
        let answer = calls::add_row(&mut numbers.lent, &lent[FENCE..FENCE + row.len()]);
        assert!(lent == fenced, "the row lent has changed");
        let place = u32::try_from(answer.place).expect("a place of the row");
        let number = answer.number;
        assert!(number == 2 || place == 0, "{number} names place {place}");
        let sketch = told(number, numbers.open(), sketch.row()).map(Sketch::of_row);
        sketch.map_err(|refusal| Refusal { place, ..refusal })
    }

    fn merge(sketch: &Sketch, other: &Sketch) -> Result<Sketch, Refusal> {
        let mut row = Fenced::new(sketch.row());
        let number = calls::merge(&mut row.lent, &other.row());
        told(number, row.open(), sketch.row()).map(Sketch::of_row)
    }

    fn estimate(sketch: &Sketch) -> Result<Estimate, Refusal> {
        let answer = calls::estimate(&sketch.row());
        let (exact, value) = told(answer.number, (answer.exact, answer.value), (0, 0.0))?;
        match exact {
            0 => Ok(Estimate::About(value)),
            1 => {
                let cells = value as u32;
                assert!(f64::from(cells) == value, "exactly {value}");
                Ok(Estimate::Exact(cells))
            }
            _ => panic!("exact is {exact}"),
        }
    }

    fn write(sketch: &Sketch, room: &mut [u8]) -> Result<usize, Refusal> {
        let fence = [STALE_BYTE; FENCE];
        let mut fenced = [&fence, &*room, &fence].concat();
        let end = FENCE + room.len();
        let answer = calls::write(&sketch.row(), &mut fenced[FENCE..end]);
        assert_eq!((&fenced[..FENCE], &fenced[end..]), (&fence[..], &fence[..]));
        let written = told(answer.number, answer.length, 0);
        if written.is_err() {
            assert!(fenced[FENCE..end] == *room, "refused, yet written to");
        }
        room.copy_from_slice(&fenced[FENCE..end]);
        written
    }

    fn read(image: &[u8]) -> Result<Sketch, Refusal> {
        let mut row = Fenced::stale();
        let answer = calls::read(image, &mut row.lent);
        let (number, place) = (answer.number, answer.block);
        assert!(number == 7 || place == 0, "{number} names block {place}");
        let sketch = told(number, row.open(), [0; SKETCH]).map(Sketch::of_row);
        sketch.map_err(|refusal| Refusal { place, ..refusal })
    }

    fn plain_count(settings: &Settings, level: u32, lo: u32, hi: u32) -> Result<u32, Refusal> {
        let answer = calls::plain_count(&settings.for_library(), level, lo, hi);
        told(answer.number, answer.value, 0)
    }

    fn plain_next_hit(settings: &Settings, level: u32, from: u32) -> Result<Option<u32>, Refusal> {
        let answer = calls::plain_next_hit(&settings.for_library(), level, from);
        told(answer.number, answer.value, 0).map(some_cell)
    }

    fn plain_add(sketch: &Sketch, lo: u32, hi: u32) -> Result<Sketch, Refusal> {
        let mut row = Fenced::new(sketch.row());
        let number = calls::plain_add(&mut row.lent, lo, hi);
        told(number, row.open(), sketch.row()).map(Sketch::of_row)
    }
}

/// A row of stretches as the library takes it.
pub fn for_library(row: &[Stretch]) -> Vec<pot::Stretch> {
    let stretch = |&(lo, hi): &Stretch| pot::Stretch { lo, hi };
    row.iter().map(stretch).collect()
}

impl Settings {
    /// The settings as the library takes them.
    pub fn for_library(&self) -> pot::Settings {
        let Settings {
            n,
            p,
            a,
            b,
            capacity,
        } = *self;
        pot::Settings {
            n,
            p,
            a,
            b,
            capacity,
        }
    }

    fn of_row(row: &[u32]) -> Settings {
        Settings {
            n: row[0],
            p: row[1],
            a: row[2],
            b: row[3],
            capacity: row[4],
        }
    }
}

impl Walker {
    fn row(&self) -> [u32; WALKER] {
        let Settings {
            n,
            p,
            a,
            b,
            capacity,
        } = self.settings;
        [n, p, a, b, capacity, self.level, self.position, self.hi]
    }

    fn of_row(row: [u32; WALKER]) -> Walker {
        Walker {
            settings: Settings::of_row(&row),
            level: row[5],
            position: row[6],
            hi: row[7],
        }
    }
}

impl Sketch {
    /// The sketch as the library takes it.
    pub fn row(&self) -> [u32; SKETCH] {
        let Settings {
            n,
            p,
            a,
            b,
            capacity,
        } = self.settings;
        let mut row = [0; SKETCH];
        row[..7].copy_from_slice(&[n, p, a, b, capacity, self.level, self.count]);
        row[7..].copy_from_slice(&self.cells);
        row
    }

    fn of_row(row: [u32; SKETCH]) -> Sketch {
        let mut sketch = Sketch {
            settings: Settings::of_row(&row),
            level: row[5],
            count: row[6],
            ..Sketch::default()
        };
        sketch.cells.copy_from_slice(&row[7..]);
        sketch
    }
}
