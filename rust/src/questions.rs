//! The questions over the archive.
use crate::{Fault, ItemId, Refusal, Size, Table, HEAD_MAX, TABLE_WORDS};

const OUT: usize = 8;

extern "C" {
    fn still_verdict(head: *const u8, head_len: usize, total: u64, table: *mut u32, table_len: usize, out: *mut [u64; OUT]);
    fn still_size(head: *const u8, head_len: usize, total: u64, table: *mut u32, table_len: usize, item: u32, out: *mut [u64; OUT]);
    fn still_trace(head: *const u8, head_len: usize, total: u64, table: *mut u32, table_len: usize, item: u32, x: u32, y: u32, out: *mut [u64; OUT]);
    fn still_points(head: *const u8, head_len: usize, total: u64, table: *mut u32, table_len: usize, item: u32, points: *mut Point, points_len: usize, out: *mut [u64; OUT]);
    fn still_sources(head: *const u8, head_len: usize, total: u64, table: *mut u32, table_len: usize, item: u32, list: *mut u32, list_len: usize, out: *mut [u64; OUT]);
    fn still_property(head: *const u8, head_len: usize, total: u64, table: *mut u32, table_len: usize, item: u32, k: u32, out: *mut [u64; OUT]);
    fn still_orientation(head: *const u8, head_len: usize, total: u64, table: *mut u32, table_len: usize, item: u32, out: *mut [u64; OUT]);
    fn still_body(head: *const u8, head_len: usize, total: u64, table: *mut u32, table_len: usize, item: u32, body: *mut u8, body_len: usize, out: *mut [u64; OUT]);
    fn still_transforms(orientation: u32, out: *mut [u64; OUT]);
}

// A question with the numbers of its own: the answer's values, or the refusal.
macro_rules! ask {
    ($question:ident, $still:ident, $table:ident $(, $own:expr)*) => {{
        let mut out = [0; OUT];
        // SAFETY: every pointer comes from a live slice and goes with that slice's length, Rust's borrows keep them apart, and `out` has its eight numbers.
        unsafe { $question($still.head.as_ptr(), $still.head.len(), $still.total, $table.lent().as_mut_ptr(), TABLE_WORDS, $($own,)* &mut out) };
        told(out)
    }};
}

fn told(out: [u64; OUT]) -> Result<[u64; OUT - 2], Refusal> {
    match out {
        [0, 0, values @ ..] => Ok(values),
        [number, place, ..] => Err(refusal(number, place)),
    }
}

fn refusal(number: u64, place: u64) -> Refusal {
    Refusal { fault: Fault::of(number).expect("every number that the archive gives is a fault's"), place }
}

fn trace([end, item, x, y, passed]: [u32; 5]) -> Trace {
    Trace { end: if end == 1 { End::Pixel } else { End::Fill }, item: ItemId(item), x, y, passed }
}

#[derive(Clone, Copy, Debug, PartialEq, Eq)]
pub struct Verdict {
    pub items: u32,
    pub primary: ItemId,
}

/// A pixel of a coded item, or the fill of an overlay.
#[derive(Clone, Copy, Debug, PartialEq, Eq)]
pub enum End {
    Pixel,
    Fill,
}

/// Where a pixel comes from: the item, the point there, and how many items were passed, both ends counted.
#[derive(Clone, Copy, Debug, PartialEq, Eq)]
pub struct Trace {
    pub end: End,
    pub item: ItemId,
    pub x: u32,
    pub y: u32,
    pub passed: u32,
}

/// A point of a picture that is asked for, and room for its answer: the record of nine numbers that the archive fills.
#[repr(C)]
#[derive(Clone, Copy, Debug)]
pub struct Point {
    pub x: u32,
    pub y: u32,
    room: [u32; 7],
}

impl Point {
    pub const fn new(x: u32, y: u32) -> Point {
        Point { x, y, room: [0; 7] }
    }
}

/// A point that [`Still::points`] has answered.
#[repr(transparent)]
#[derive(Clone, Copy, Debug)]
pub struct Answer(Point);

impl Answer {
    /// The x that was asked for.
    pub fn x(&self) -> u32 {
        self.0.x
    }

    /// The y that was asked for.
    pub fn y(&self) -> u32 {
        self.0.y
    }

    /// What [`Still::trace`] says of this point: where it comes from, or that it lies outside the picture.
    pub fn trace(&self) -> Result<Trace, Refusal> {
        match self.0.room {
            [0, 0, end @ ..] => Ok(trace(end)),
            [number, place, ..] => Err(refusal(number.into(), place.into())),
        }
    }
}

/// A transform by the value that its box holds.
#[derive(Clone, Copy, Debug, PartialEq, Eq)]
pub enum Transform {
    /// So many quarter turns to the left.
    Irot(u8),
    /// 0 exchanges top and bottom, 1 left and right.
    Imir(u8),
}

/// A file: its first bytes, at most [`HEAD_MAX`], and its whole length.
#[derive(Clone, Copy, Debug)]
pub struct Still<'a> {
    pub head: &'a [u8],
    pub total: u64,
}

impl<'a> Still<'a> {
    /// A file of which all bytes are at hand.
    pub fn of(file: &'a [u8]) -> Still<'a> {
        Still { head: &file[..file.len().min(HEAD_MAX)], total: file.len() as u64 }
    }

    /// Whether the file keeps the rules, with how many items it has and which is the primary.
    pub fn verdict(self, table: &mut Table) -> Result<Verdict, Refusal> {
        let [items, primary, ..] = ask!(still_verdict, self, table)?;
        Ok(Verdict { items: items as u32, primary: ItemId(primary as u32) })
    }

    pub fn size(self, table: &mut Table, item: ItemId) -> Result<Size, Refusal> {
        let [wide, high, output_wide, output_high, depth, _] = ask!(still_size, self, table, item.0)?.map(|n| n as u32);
        Ok(Size { wide, high, output_wide, output_high, depth })
    }

    /// Where the output pixel (x, y) of an item comes from.
    pub fn trace(self, table: &mut Table, item: ItemId, x: u32, y: u32) -> Result<Trace, Refusal> {
        let [end, item, x, y, passed, _] = ask!(still_trace, self, table, item.0, x, y)?.map(|n| n as u32);
        Ok(trace([end, item, x, y, passed]))
    }

    /// Many output pixels of an item at once, at most [`MAX_POINTS`](crate::MAX_POINTS): the file is read once, and each point is answered as [`Still::trace`] would answer it.
    /// The answers are the points that were lent, in their order. A point outside the picture has its refusal in its own answer, and the others are still answered;
    /// where the whole call is refused nothing is written to the points.
    ///
    /// ```no_run
    /// # use still::{ItemId, Point, Refusal, Still, Table};
    /// # fn seam(still: Still, table: &mut Table) -> Result<(), Refusal> {
    /// let mut row: Vec<Point> = (0..480).map(|x| Point::new(x, 20)).collect();
    /// for answer in still.points(table, ItemId(2), &mut row)? {
    ///     println!("{} {} {:?}", answer.x(), answer.y(), answer.trace());
    /// }
    /// # Ok(())
    /// # }
    /// ```
    pub fn points<'l>(self, table: &mut Table, item: ItemId, points: &'l mut [Point]) -> Result<&'l [Answer], Refusal> {
        ask!(still_points, self, table, item.0, points.as_mut_ptr(), points.len())?;
        // SAFETY: an `Answer` is laid out as the `Point` that it holds, and the points stay borrowed as long as the answers.
        Ok(unsafe { &*(points as *const [Point] as *const [Answer]) })
    }

    /// The IDs of all coded items that an item needs, each once, in the order of `iinf`: the front of the list that is lent. A refusal writes nothing to it.
    pub fn sources<'l>(self, table: &mut Table, item: ItemId, list: &'l mut [u32]) -> Result<&'l [u32], Refusal> {
        let [count, ..] = ask!(still_sources, self, table, item.0, list.as_mut_ptr(), list.len())?;
        Ok(&list[..count as usize])
    }

    /// The box of an item's property k, counted from 1, header included, as a part of the caller's own head; empty where the association names no property.
    pub fn property(self, table: &mut Table, item: ItemId, k: u32) -> Result<&'a [u8], Refusal> {
        let [offset, length, ..] = ask!(still_property, self, table, item.0, k)?.map(|n| n as usize);
        Ok(&self.head[offset..offset + length])
    }

    /// The Exif orientation, 1 to 8, that does what the item's own turns and mirrors do, however many they are. An item with a crop has none.
    pub fn orientation(self, table: &mut Table, item: ItemId) -> Result<u8, Refusal> {
        let [number, ..] = ask!(still_orientation, self, table, item.0)?;
        Ok(number as u8)
    }

    /// The body of an item that is a picture, its extents joined, also where they are made of other items' bytes: the front of the buffer that is lent, which must have
    /// [`BODY_MAX`](crate::BODY_MAX) bytes however short the body is. Empty for a coded item and for `iden`. A refusal writes nothing to the buffer.
    ///
    /// ```no_run
    /// # use still::{ItemId, Refusal, Still, Table, BODY_MAX};
    /// # fn canvas(still: Still, table: &mut Table) -> Result<(), Refusal> {
    /// let mut room = [0; BODY_MAX];
    /// if let [0, 0, rows, columns, ..] = still.body(table, ItemId(3), &mut room)? {
    ///     println!("{} rows, {} columns", *rows as u32 + 1, *columns as u32 + 1);
    /// }
    /// # Ok(())
    /// # }
    /// ```
    pub fn body<'l>(self, table: &mut Table, item: ItemId, room: &'l mut [u8]) -> Result<&'l [u8], Refusal> {
        let [length, ..] = ask!(still_body, self, table, item.0, room.as_mut_ptr(), room.len())?;
        Ok(&room[..length as usize])
    }
}

/// The shortest list of transforms that does what an orientation asks, `irot` first. No file is read: the one refusal is that the number is none of 1 to 8.
pub fn transforms(orientation: u32) -> Result<[Option<Transform>; 2], Refusal> {
    let mut out = [0; OUT];
    // SAFETY: `out` has its eight numbers.
    unsafe { still_transforms(orientation, &mut out) };
    let [_, kind, value, next_kind, next_value, _] = told(out)?;
    Ok([transform(kind, value), transform(next_kind, next_value)])
}

fn transform(kind: u64, value: u64) -> Option<Transform> {
    match kind {
        1 => Some(Transform::Irot(value as u8)),
        2 => Some(Transform::Imir(value as u8)),
        _ => None,
    }
}
