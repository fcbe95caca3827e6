//! Installs the files of a package and their list, in one transaction; each answer is printed.
#[path = "kagzuvis.rs"]
mod kagzuvis;
use kagzuvis::{CREAT, Kernel, Options, RDONLY, WRONLY};

const FILES: [(&str, &str); 3] = [("edit", "program"), ("help", "keys"), ("files", "edit\nhelp\n")];

fn main() -> Result<(), Box<dyn std::error::Error>> {
    let options = Options { priorities: vec![0, 0], trace: Some(Box::new(std::io::stdout())), ..Options::default() };
    let kernel = Kernel::start(std::env::args().nth(1).ok_or("usage: installer PROGRAM")?, options)?;
    kernel.process(1).run(9, |process| {
        process.mkdir("/editor")?;
        for (name, content) in FILES {
            let file = process.open(format!("/editor/{name}"), WRONLY | CREAT)?;
            process.write(file, content)?;
            process.close(file)?;
        }
        kagzuvis::Result::Ok(())
    })?;
    kernel.process(2).open("/editor/files", RDONLY)?;
    Ok(kernel.close().map(|_end| ())?)
}
