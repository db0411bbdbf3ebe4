//! Writes the examples: `examples/key-cabinet.eb3` and `examples/library.eb3`, block files, each with a
//! listing of the same name.
//!
//! Document 01, "Examples" (the key cabinet) and source document 002, figure 3 (the library). Each is
//! admitted by the plain reader before it is written; the sizes are printed.

use std::path::Path;
use std::{fs, io};

use host::listing::{listing, Names};
use host::rules::RuleSet;
use host::{examples, on_large_stack, plain, Sizes};

fn main() -> io::Result<()> {
    on_large_stack(|| {
        let folder = Path::new(env!("CARGO_MANIFEST_DIR")).join("../examples");
        fs::create_dir_all(&folder)?;
        write(&folder, "key-cabinet", &examples::key_cabinet(2), &examples::key_cabinet_names())?;
        write(&folder, "library", &examples::library(2, 2, 2), &examples::library_names())?;
        // Not written to a file: only its sizes are printed, for a larger library.
        admitted("library of 8 and 8", &examples::library(8, 8, 2));
        Ok(())
    })
}

fn write(folder: &Path, name: &str, rules: &RuleSet, names: &Names) -> io::Result<()> {
    let sizes = admitted(name, rules);
    fs::write(folder.join(format!("{name}.eb3")), rules.file())?;
    fs::write(folder.join(format!("{name}.txt")), listing(rules, names, sizes))
}

/// Prints the sizes. If an example is refused, this program is wrong.
fn admitted(name: &str, rules: &RuleSet) -> Sizes {
    let file = rules.file();
    let sizes = plain::admit(&file).unwrap_or_else(|refusal| panic!("{name} is refused {refusal}"));
    let Sizes { cells, reach, breadth, size } = sizes;
    println!(
        "{name}: {} blocks, {} words; C {cells}, G {reach}, W {breadth}, start size {size}",
        file.len() / 512,
        rules.stream().len()
    );
    sizes
}
