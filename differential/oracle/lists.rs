//! The lists of answers that the repository's own programs replay.

use std::fs;
use std::io;
use std::path::Path;

mod edges;
pub mod flights;
mod libm;
mod modules;

/// Every list: its file name and what makes its text.
const LISTS: [(&str, fn() -> String); 22] = [
    ("sqrtf.txt", libm::sqrtf),
    ("expf.txt", libm::expf),
    ("sinf.txt", libm::sinf),
    ("cosf.txt", libm::cosf),
    ("atan2f.txt", libm::atan2f),
    ("asinf.txt", libm::asinf),
    ("logf.txt", libm::logf),
    ("powf.txt", libm::powf),
    ("density.txt", libm::density),
    ("lag_factor.txt", modules::lag_factor),
    ("approach_saturated.txt", modules::approach_saturated),
    ("motors.txt", modules::motors),
    ("lift.txt", modules::lift),
    ("motor_rows.txt", modules::motor_rows),
    ("surfaces.txt", modules::surfaces),
    ("falloff_share.txt", modules::falloff_share),
    ("wash.txt", modules::wash_list),
    ("stall_blend.txt", modules::stall_blend),
    ("wrench.txt", modules::wrench),
    ("rotate.txt", modules::rotate),
    ("body_step.txt", modules::body_step),
    ("flights.txt", flights::flights),
];

/// Writes every list into `folder`.
pub fn write_all(folder: &Path) -> io::Result<()> {
    fs::create_dir_all(folder)?;
    for (name, text) in LISTS {
        let text = text();
        fs::write(folder.join(name), &text)?;
        println!(
            "{name}: {} lines, {} bytes",
            text.lines().count(),
            text.len()
        );
    }
    Ok(())
}

/// The text of a list: a first line that names the words and says how it was made, then its
/// cases.
fn list(words: &str, cases: Vec<String>) -> String {
    format!(
        "# {words}. Made by differential/lists (the original Rust with the stand-ins of documents 01 \
         and 02); compare as numbers: zeros alike, NaNs alike.\n{}\n",
        cases.join("\n")
    )
}
