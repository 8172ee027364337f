//! Draws what bench/picture measured: points on standard input, an SVG to the file named, the figures to standard output.
//! Usage: drawing FILE

mod figures;
mod panel;
mod picture;
mod points;
mod svg;

use std::error::Error;
use std::io::Read;

fn main() -> Result<(), Box<dyn Error>> {
    let file = std::env::args().nth(1).ok_or("usage: drawing FILE")?;
    let mut text = String::new();
    std::io::stdin().read_to_string(&mut text)?;
    let sets = points::sets(&text).ok_or("the points are not as bench/picture writes them")?;
    std::fs::write(file, picture::picture(&sets))?;
    print!("{}", figures::figures(&sets));
    Ok(())
}
