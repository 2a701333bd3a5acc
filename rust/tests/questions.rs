//! The questions on a file of two items: a picture of 640 × 480, and a copy of it turned a quarter to the left.
#![cfg(still_linked)]
use still::{transforms, End, Fault, ItemId, Point, Refusal, Size, Still, Table, Trace, Transform, Verdict, BODY_MAX, MAX_POINTS, TABLE_WORDS};

static FILE: &[u8] = include_bytes!("../../crates/listing/stdin");
// README's example: item 9 has a crop, item 8 is turned to the right and then mirrored.
static CROPPED: &[u8] = include_bytes!("../../docs/example.heif");
// Items 3 and 4 are grids, and each body has two extents in item 5, which is no picture.
static JOINED: &[u8] = include_bytes!("../../docs/joined.heif");

fn refused<T>(fault: Fault, place: u64) -> Result<T, Refusal> {
    Err(Refusal { fault, place })
}

#[test]
fn the_answers() {
    let (still, mut table, mut list) = (Still::of(FILE), Table::new(), [7; 3]);
    let turned = ItemId(2);
    assert_eq!(still.verdict(&mut table), Ok(Verdict { items: 2, primary: turned }));
    assert_eq!(table.words()[..6], [2, 2, 3, 1, 1, 2]);
    assert_eq!(still.size(&mut table, turned), Ok(Size { wide: 640, high: 480, output_wide: 480, output_high: 640, depth: 1 }));
    assert_eq!(still.trace(&mut table, turned, 10, 20), Ok(Trace { end: End::Pixel, item: ItemId(1), x: 619, y: 10, passed: 2 }));
    assert_eq!(still.sources(&mut table, turned, &mut list), Ok(&[1][..]));
    assert_eq!(list, [1, 7, 7]);
    assert_eq!(still.property(&mut table, turned, 2), Ok(&b"\0\0\0\x09irot\x01"[..]));
    assert_eq!(still.orientation(&mut table, turned), Ok(8));
    assert_eq!(still.orientation(&mut table, ItemId(1)), Ok(1));
}

#[test]
fn points_are_answered_as_single_traces() {
    // A picture of 480 × 640: the points from (480, 480) on are outside.
    let (still, mut table, turned) = (Still::of(FILE), Table::new(), ItemId(2));
    let mut seam: Vec<Point> = (0..MAX_POINTS as u32).map(|k| Point::new(k, k)).collect();
    let answers = still.points(&mut table, turned, &mut seam).unwrap().to_vec();
    assert_eq!(table.words()[..6], [2, 2, 3, 1, 1, 2]);
    assert_eq!(answers.len(), MAX_POINTS);
    assert_eq!(answers[10].trace(), Ok(Trace { end: End::Pixel, item: ItemId(1), x: 629, y: 10, passed: 2 }));
    assert_eq!(answers[480].trace(), refused(Fault::OutsideThePicture, 2));
    for (k, answer) in (0..).zip(&answers) {
        assert_eq!((answer.x(), answer.y()), (k, k));
        assert_eq!(answer.trace(), still.trace(&mut table, turned, k, k), "{k}");
    }
}

#[test]
fn no_points_and_too_many() {
    let (still, mut table) = (Still::of(FILE), Table::new());
    assert_eq!(still.points(&mut table, ItemId(2), &mut []).unwrap().len(), 0);
    let mut seam = [Point::new(7, 8); MAX_POINTS + 1];
    let before = format!("{seam:?}");
    assert_eq!(still.points(&mut table, ItemId(2), &mut seam).unwrap_err(), Refusal { fault: Fault::TooManyPoints, place: 2 });
    assert_eq!(table.words()[5], 2, "the table is the file's");
    assert_eq!(still.points(&mut table, ItemId(3), &mut seam).unwrap_err(), Refusal { fault: Fault::NoSuchItem, place: 3 });
    assert_eq!(Still::of(&[]).points(&mut table, ItemId(2), &mut seam).unwrap_err(), Refusal { fault: Fault::NotAStill, place: 0 });
    assert_eq!(format!("{seam:?}"), before, "a refusal writes to no point");
    assert_eq!(still.points(&mut table, ItemId(2), &mut seam[1..]).unwrap().len(), MAX_POINTS);
}

#[test]
fn items_are_listed_as_in_iinf_and_found_by_id() {
    // The two entries of `iinf` exchanged: item 2 is listed first.
    let (mut file, mut table) = (FILE.to_vec(), Table::new());
    file[123..165].rotate_left(21);
    let still = Still::of(&file);
    assert_eq!(still.verdict(&mut table), Ok(Verdict { items: 2, primary: ItemId(2) }));
    let listed: Vec<_> = table.items().map(|item| (item.id.0, item.place, item.kind)).collect();
    assert_eq!(listed, [(2, 0, *b"iden"), (1, 1, *b"jpeg")]);
    assert_eq!(table.items_by_id().map(|item| item.id.0).collect::<Vec<_>>(), [1, 2]);
    for id in [1, 2] {
        assert_eq!(table.item(ItemId(id)).unwrap().size, still.size(&mut table, ItemId(id)).ok());
    }
    assert_eq!(table.item(ItemId(3)), None);
    // Both items are protected: the first fault is that of the first entry.
    (file[138], file[159]) = (1, 1);
    assert_eq!(Still::of(&file).verdict(&mut table), refused(Fault::ProtectedOrUnknown, 2));
    assert_eq!(table.items().len(), 0);
}

#[test]
fn a_property_is_a_part_of_the_callers_bytes() {
    let part = Still::of(FILE).property(&mut Table::new(), ItemId(1), 1).unwrap();
    assert_eq!(part.as_ptr(), FILE[181..].as_ptr());
    assert_eq!(part.len(), 20);
}

#[test]
fn what_is_asked_wrongly() {
    let (still, mut table) = (Still::of(FILE), Table::new());
    assert_eq!(still.size(&mut table, ItemId(3)), refused(Fault::NoSuchItem, 3));
    assert_eq!(still.trace(&mut table, ItemId(2), 480, 0), refused(Fault::OutsideThePicture, 2));
    assert_eq!(still.sources(&mut table, ItemId(2), &mut []), refused(Fault::ListTooShort, 2));
    assert_eq!(still.property(&mut table, ItemId(2), 3), refused(Fault::NoSuchProperty, 2));
    assert_eq!(still.orientation(&mut table, ItemId(3)), refused(Fault::NoSuchItem, 3));
    assert_eq!(table.words()[5], 2, "the table is the file's");
}

#[test]
fn a_crop_has_no_orientation() {
    let (still, mut table) = (Still::of(CROPPED), Table::new());
    assert_eq!(still.orientation(&mut table, ItemId(9)), refused(Fault::HasACrop, 9));
    assert_eq!(table.words()[0], 10, "the table is the file's");
    assert_eq!(still.orientation(&mut table, ItemId(8)), Ok(5));
}

#[test]
fn an_item_without_its_decoder_configuration() {
    // In `ipma` each of the items 1 to 6 names its size and its `hvcC`, which is marked essential: none, one that is not marked, two.
    let mut table = Table::new();
    assert!(Still::of(CROPPED).verdict(&mut table).is_ok());
    for (at, byte, place) in [(741, 0, 1), (746, 0x0b, 2), (745, 0x8b, 2)] {
        let mut file = CROPPED.to_vec();
        file[at] = byte;
        assert_eq!(Still::of(&file).verdict(&mut table), refused(Fault::NotConfigured, place));
        assert_eq!(table.words(), &[0; TABLE_WORDS]);
    }
}

#[test]
fn a_body_joined_from_another_item() {
    let (still, mut table, mut room) = (Still::of(JOINED), Table::new(), [9; BODY_MAX + 1]);
    assert_eq!(still.body(&mut table, ItemId(3), &mut room), Ok(&[0, 0, 0, 1, 0, 128, 0, 48][..]));
    assert_eq!(room[8..], [9; BODY_MAX - 7]);
    assert_eq!(still.body(&mut table, ItemId(4), &mut room[..BODY_MAX]), Ok(&[0, 0, 1, 0, 0, 64, 0, 96][..]));
    assert_eq!(still.body(&mut table, ItemId(1), &mut room), Ok(&[][..]));
    assert_eq!(Still::of(FILE).body(&mut table, ItemId(2), &mut room), Ok(&[][..]));
}

#[test]
fn bodies_that_are_refused() {
    let (still, mut table, mut room) = (Still::of(JOINED), Table::new(), [9; BODY_MAX]);
    assert_eq!(still.body(&mut table, ItemId(5), &mut room), refused(Fault::NoPicture, 5));
    assert_eq!(still.body(&mut table, ItemId(6), &mut room), refused(Fault::NoSuchItem, 6));
    assert_eq!(table.words()[0], 5, "the table is the file's");
    assert_eq!(still.body(&mut table, ItemId(3), &mut room[1..]), refused(Fault::BodyTooShort, 3));
    assert_eq!(table.words(), &[0; TABLE_WORDS]);
    assert_eq!(Still::of(&[]).body(&mut table, ItemId(3), &mut []), refused(Fault::BodyTooShort, 3));
    assert_eq!(Still::of(&[]).body(&mut table, ItemId(3), &mut room), refused(Fault::NotAStill, 0));
    assert_eq!(room, [9; BODY_MAX], "a refusal writes nothing");
}

#[test]
fn a_chain_of_items_that_goes_round() {
    // The `iloc` reference of grid 3 names grid 4 instead of item 5, and that of 4 names 3.
    let (mut file, mut table) = (JOINED.to_vec(), Table::new());
    let found: Vec<_> = (0..file.len() - 8).filter(|&at| file[at..].starts_with(b"\0\0\0\x0eiloc")).collect();
    assert_eq!(found.len(), 2);
    (file[found[0] + 13], file[found[1] + 13]) = (4, 3);
    assert_eq!(Still::of(&file).verdict(&mut table), refused(Fault::BytesWithoutEnd, 3));
    assert_eq!(table.words(), &[0; TABLE_WORDS]);
}

#[test]
fn every_orientation_as_transforms() {
    use Transform::{Imir, Irot};
    let lists = [
        [None, None],
        [Some(Imir(1)), None],
        [Some(Irot(2)), None],
        [Some(Imir(0)), None],
        [Some(Irot(3)), Some(Imir(1))],
        [Some(Irot(3)), None],
        [Some(Irot(1)), Some(Imir(1))],
        [Some(Irot(1)), None],
    ];
    for (n, list) in (1..).zip(lists) {
        assert_eq!(transforms(n), Ok(list), "{n}");
    }
    for n in [0, 9, u32::MAX] {
        assert_eq!(transforms(n), refused(Fault::NoOrientation, 0));
    }
}

#[test]
fn every_cut_is_refused_and_leaves_nothing() {
    let mut table = Table::new();
    for n in 0..FILE.len() {
        let cut = Still::of(&FILE[..n]);
        assert!(Still::of(FILE).verdict(&mut table).is_ok());
        assert!(cut.verdict(&mut table).is_err(), "{n} bytes");
        assert_eq!(table.words(), &[0; TABLE_WORDS], "{n} bytes");
    }
    assert_eq!(Still { head: FILE, total: 368 }.verdict(&mut table), refused(Fault::HeadTooLong, 0));
}

#[test]
fn a_refusal_in_words() {
    let refusal = Still::of(&[]).verdict(&mut Table::new()).unwrap_err();
    assert_eq!(refusal.to_string(), "refused 4 at 0: the file does not begin with an `ftyp` that names the brand `mif1`");
}
