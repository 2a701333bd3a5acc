//! The questions of crates/answers, with their right answers, through the archive. Digests of tables are not made here: those lines are passed over.
#![cfg(still_linked)]
use still::{transforms, End, ItemId, Point, Refusal, Still, Table, Trace, Transform};

static QUESTIONS: &[u8] = include_bytes!("../../crates/answers/stdin");
static ANSWERS: &str = include_str!("../../crates/answers/stdout");

struct Input(&'static [u8]);

impl Input {
    fn take(&mut self, n: usize) -> &'static [u8] {
        let (front, rest) = self.0.split_at(n);
        self.0 = rest;
        front
    }

    // a number of n bytes, the highest first
    fn number(&mut self, n: usize) -> u64 {
        self.take(n).iter().fold(0, |sum, &b| sum * 256 + b as u64)
    }

    fn word(&mut self) -> u32 {
        self.number(4) as u32
    }

    fn text(&mut self) -> &'static [u8] {
        let n = self.word() as usize;
        self.take(n)
    }
}

fn sum_of(part: &[u8]) -> u32 {
    part.iter().fold(0u32, |sum, &b| sum.wrapping_mul(31).wrapping_add(b as u32))
}

fn numbers(list: &[u32]) -> String {
    list.iter().map(u32::to_string).collect::<Vec<_>>().join(" ")
}

// How many there are, then each by type and value.
fn list(transforms: [Option<Transform>; 2]) -> String {
    let said = transforms.into_iter().flatten().map(|t| match t {
        Transform::Irot(value) => format!(" irot {value}"),
        Transform::Imir(value) => format!(" imir {value}"),
    });
    let said: Vec<_> = said.collect();
    said.len().to_string() + &said.concat()
}

fn end(t: Trace) -> String {
    format!("{} {}", if t.end == End::Pixel { "pixel" } else { "fill" }, numbers(&[t.item.0, t.x, t.y, t.passed]))
}

fn refusal(r: Refusal) -> String {
    format!("refused {} {}", r.fault as u8, r.place)
}

// The length of a body, then its bytes in hex.
fn bytes(body: &[u8]) -> String {
    let hex: String = body.iter().map(|b| format!("{b:02x}")).collect();
    format!("{} {hex}", body.len()).trim_end().into()
}

// How many points there are, then the answer of each.
fn points(still: Still, table: &mut Table, item: ItemId, points: &mut [Point]) -> Result<String, Refusal> {
    let answers = still.points(table, item, points)?;
    let said = answers.iter().map(|a| format!(", {}", a.trace().map_or_else(refusal, end)));
    Ok(answers.len().to_string() + &said.collect::<String>())
}

// The question and its answer as they stand in a line.
fn answer(input: &mut Input, still: Still, table: &mut Table, kind: u32, id: u32, x: u32, y: u32) -> (String, Result<String, Refusal>) {
    let item = ItemId(id);
    match kind {
        0 => ("verdict\t".into(), still.verdict(table).map(|v| numbers(&[v.items, v.primary.0]))),
        2 => (format!("size\t{id}"), still.size(table, item).map(|s| numbers(&[s.wide, s.high, s.output_wide, s.output_high, s.depth]))),
        3 => (format!("trace\t{id} {x} {y}"), still.trace(table, item, x, y).map(end)),
        4 => (format!("sources\t{id} {x}"), still.sources(table, item, &mut vec![9; x as usize]).map(numbers)),
        5 => (format!("prop\t{id} {x}"), still.property(table, item, x).map(|p| numbers(&[p.len() as u32, sum_of(p)]))),
        6 => (format!("orientation\t{id}"), still.orientation(table, item).map(|n| n.to_string())),
        7 => (format!("transforms\t{id}"), transforms(id).map(list)),
        9 => (format!("body\t{id} {x}"), still.body(table, item, &mut vec![9; x as usize]).map(bytes)),
        _ => {
            let mut seam: Vec<_> = (0..x).map(|_| Point::new(input.word(), input.word())).collect();
            let asked: String = seam.iter().map(|p| format!(" {} {}", p.x, p.y)).collect();
            (format!("points\t{id}{asked}"), points(still, table, item, &mut seam))
        }
    }
}

#[test]
fn all_questions() {
    let (mut input, mut table, mut lines) = (Input(QUESTIONS), Table::new(), ANSWERS.lines());
    for _ in 0..input.word() {
        let name = std::str::from_utf8(input.text()).unwrap();
        let total = input.number(8);
        let head = input.text();
        for _ in 0..input.word() {
            let [kind, id, x, y] = [(); 4].map(|_| input.word());
            let line = lines.next().unwrap();
            if kind == 1 {
                continue;
            }
            let (question, told) = answer(&mut input, Still { head, total }, &mut table, kind, id, x, y);
            let told = told.unwrap_or_else(refusal);
            assert_eq!(line, format!("{name}\t{total}\t{question}\t{told}"));
        }
    }
    assert_eq!((lines.next(), input.0.len()), (None, 0));
}
