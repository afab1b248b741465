//! The further crate: no functions, the meaning of the rows in specs/, the rows and their theorems
//! in proofs/.

use super::opened::Opened;
use super::tables::{table_modules, Table};
use std::fs;
use std::io;
use std::path::Path;

/// Writes the crate.
pub fn write_crosscheck(
    folder: &Path,
    opened: &Opened,
    seed: u64,
    tables: &[Table],
) -> io::Result<()> {
    for part in ["src", "specs", "proofs"] {
        fs::create_dir_all(folder.join(part))?;
    }
    fs::write(
        folder.join("src/lib.rt"),
        "// The definitions compute what the second implementation answers.\n\n#![tactic(auto)]\n",
    )?;
    let (mut specs, mut proofs) = (String::new(), String::new());
    for table in tables {
        let name = table.name;
        specs += &format!("pub mod {name}\n");
        fs::write(folder.join(format!("specs/{name}.antt")), table.meaning)?;
        for (module, text) in table_modules(table, opened, seed) {
            proofs += &format!("pub mod {module}\n");
            fs::write(folder.join(format!("proofs/{module}.antt")), text)?;
        }
    }
    fs::write(folder.join("specs/Lib.antt"), specs)?;
    fs::write(folder.join("proofs/Lib.antt"), proofs)
}
