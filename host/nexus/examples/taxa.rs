//! Prints each taxon of a NEXUS file and how many cells it has, and holds the text written again
//! to the same record.

use std::error::Error;

fn main() -> Result<(), Box<dyn Error>> {
    let path = std::env::args().nth(1).ok_or("which file?")?;
    let record = nexus::read(&std::fs::read(path)?)?;
    for taxon in record.taxa() {
        println!("{}: {} cells", taxon.name(), taxon.cells().len());
    }
    assert_eq!(nexus::read(&record.write()?)?, record);
    Ok(())
}
