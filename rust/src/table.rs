//! The table that a question fills, and the items in it.
use crate::TABLE_WORDS;

// Where the records of items begin, and what some of their words are; include/still.h has all.
const ITEMS_AT: usize = 16;
const ITEM_WORDS: usize = 16;
const PLACE: usize = 15;

/// The item_ID of an item; never its row.
#[derive(Clone, Copy, Debug, PartialEq, Eq, PartialOrd, Ord, Hash)]
pub struct ItemId(pub u32);

/// The reconstructed size of a picture, the size of its output after its turns and crops, and its depth.
#[derive(Clone, Copy, Debug, PartialEq, Eq)]
pub struct Size {
    pub wide: u32,
    pub high: u32,
    pub output_wide: u32,
    pub output_high: u32,
    pub depth: u32,
}

/// What a file's table says of an item.
#[derive(Clone, Copy, Debug, PartialEq, Eq)]
pub struct Item {
    pub id: ItemId,
    /// Its four letters, as `hvc1`.
    pub kind: [u8; 4],
    pub hidden: bool,
    /// Its place in `iinf`, from 0.
    pub place: usize,
    /// `None` for an item that is no picture.
    pub size: Option<Size>,
}

/// The words that a question fills. What stands in them before does not matter, so one table serves any number of questions.
///
/// After an answer, or a refusal from 21 on but 29, the table is the file's: [`items`](Table::items) goes through its items as the file lists them, and [`item`](Table::item) finds one by its ID.
/// After another refusal there are none.
pub struct Table(Box<[u32; TABLE_WORDS]>);

impl Table {
    pub fn new() -> Table {
        Table(Box::new([0; TABLE_WORDS]))
    }

    /// The file's words after an answer or a refusal from 21 on but 29; all 0 after another refusal. Their layout is told in include/still.h.
    pub fn words(&self) -> &[u32; TABLE_WORDS] {
        &self.0
    }

    #[cfg(still_linked)]
    pub(crate) fn lent(&mut self) -> &mut [u32; TABLE_WORDS] {
        &mut self.0
    }

    /// The items in the order of `iinf`, which is the file's own and that of `Still::sources`.
    pub fn items(&self) -> impl ExactSizeIterator<Item = Item> {
        let mut items: Vec<Item> = self.items_by_id().collect();
        items.sort_unstable_by_key(|item| item.place);
        items.into_iter()
    }

    /// The items in rising order of their IDs, as their records stand in the table.
    pub fn items_by_id(&self) -> impl ExactSizeIterator<Item = Item> + '_ {
        self.records().map(read)
    }

    /// The item with this ID, found by halving.
    pub fn item(&self, id: ItemId) -> Option<Item> {
        let (mut low, mut high) = (0, self.records().len());
        while low < high {
            let middle = (low + high) / 2;
            if self.record(middle)[0] < id.0 {
                low = middle + 1;
            } else {
                high = middle;
            }
        }
        (low < self.records().len()).then(|| read(self.record(low))).filter(|item| item.id == id)
    }

    fn record(&self, row: usize) -> &[u32] {
        &self.0[ITEMS_AT + ITEM_WORDS * row..][..ITEM_WORDS]
    }

    fn records(&self) -> std::slice::ChunksExact<'_, u32> {
        self.0[ITEMS_AT..][..ITEM_WORDS * self.0[0] as usize].chunks_exact(ITEM_WORDS)
    }
}

impl Default for Table {
    fn default() -> Table {
        Table::new()
    }
}

fn read(record: &[u32]) -> Item {
    // No picture is 0 wide.
    let size = Size { wide: record[10], high: record[11], output_wide: record[12], output_high: record[13], depth: record[14] };
    Item { id: ItemId(record[0]), kind: record[1].to_be_bytes(), hidden: record[2] != 0, place: record[PLACE] as usize, size: (size.wide != 0).then_some(size) }
}

#[cfg(test)]
mod tests {
    use super::*;

    // A table of items by their IDs in the order of `iinf`; the one at place 0 is no picture.
    fn of(ids: &[u32]) -> Table {
        let mut table = Table::new();
        let mut filed: Vec<(u32, usize)> = ids.iter().copied().zip(0..).collect();
        filed.sort_unstable();
        table.0[0] = ids.len() as u32;
        for (row, (id, place)) in filed.into_iter().enumerate() {
            let record = &mut table.0[ITEMS_AT + ITEM_WORDS * row..][..ITEM_WORDS];
            (record[0], record[1], record[2], record[PLACE]) = (id, u32::from_be_bytes(*b"hvc1"), 1, place as u32);
            if place != 0 {
                record[10..15].copy_from_slice(&[640, 480, 480, 640, place as u32]);
            }
        }
        table
    }

    #[test]
    fn listed_as_in_iinf() {
        for ids in [&[][..], &[7], &[1, 2, 3], &[3, 2, 1], &[0x8000_0000, u32::MAX, 0, 5, 0x7fff_ffff]] {
            let table = of(ids);
            assert_eq!(table.items().map(|item| item.id.0).collect::<Vec<_>>(), ids);
            assert!(table.items().map(|item| item.place).eq(0..ids.len()));
            assert_eq!(table.items().len(), ids.len());
            assert!(table.items_by_id().map(|item| item.id).is_sorted());
        }
    }

    #[test]
    fn found_by_id() {
        let ids: Vec<u32> = (0..256).map(|k: u32| (k * 97 % 256) * 0x0101_0101).collect();
        let table = of(&ids);
        for (place, id) in ids.iter().enumerate() {
            let item = table.item(ItemId(*id)).unwrap();
            assert_eq!((item.id.0, item.place, item.hidden, &item.kind), (*id, place, true, b"hvc1"));
            assert_eq!(item.size.map(|size| (size.wide, size.output_wide, size.depth)), (place != 0).then_some((640, 480, place as u32)));
            assert_eq!(table.item(ItemId(id ^ 1)), None);
        }
        assert_eq!(Table::new().item(ItemId(0)), None);
    }
}
