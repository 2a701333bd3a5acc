use still::{Still, Table};

fn main() -> Result<(), Box<dyn std::error::Error>> {
    let file = std::fs::read(std::env::args().nth(1).ok_or("usage: first FILE")?)?;
    let (still, mut table) = (Still::of(&file), Table::new());
    let verdict = still.verdict(&mut table)?;
    let size = still.size(&mut table, verdict.primary)?;
    println!("{} items, the primary one {} x {}", verdict.items, size.output_wide, size.output_high);
    Ok(())
}
