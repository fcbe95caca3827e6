//! Installs the files of a package and their list on a mounted tree, in one transaction.
#[path = "kagzuvis_mount.rs"]
mod kagzuvis_mount;
use kagzuvis_mount::{Options, run};
use std::fs;

const FILES: [(&str, &str); 3] = [("edit", "program"), ("help", "keys"), ("files", "edit\nhelp\n")];

fn main() -> Result<(), Box<dyn std::error::Error>> {
    let tree = std::env::args().nth(1).ok_or("usage: installer_mount TREE")?;
    run(tree, Options { retries: 9, ..Options::default() }, |view| {
        fs::create_dir(view.join("editor"))?;
        for (name, content) in FILES {
            fs::write(view.join("editor").join(name), content)?;
        }
        std::io::Result::Ok(())
    })?;
    Ok(())
}
