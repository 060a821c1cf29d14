//! tune LIMIT < PROFILE: the sheet of the best table.
//! `MTE_TOOL_LIBRARY=DIR/lib cargo run --example tune 8 < app.profile`, where DIR is that of `scripts/library`
use std::io::{Read, Write};

fn main() -> Result<(), Box<dyn std::error::Error>> {
    let limit = std::env::args().nth(1).ok_or("it is `tune LIMIT`")?.parse()?;
    let mut profile = Vec::new();
    std::io::stdin().read_to_end(&mut profile)?;
    let sheet = mte_tool::tune(&profile, &mte_tool::Options::new(limit))?;
    assert!(mte_tool::check(&sheet, &profile)?.is_optimal());
    std::io::stdout().write_all(&sheet)?;
    Ok(())
}
