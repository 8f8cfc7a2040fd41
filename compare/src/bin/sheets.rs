//! sheets FOLDER: writes the sheets of the program crate `sheets`, a file each in FOLDER/data, their names to FOLDER/args and, a line each, their
//! answers to FOLDER/stdout.

use compare::examples::to_hex;
use compare::sheet::program_bytes;
use compare::sheet_cases::cases;
use std::fs;
use std::path::Path;

fn main() -> std::io::Result<()> {
    let folder = std::env::args().nth(1).expect("sheets FOLDER");
    let folder = Path::new(&folder);
    let (mut names, mut answers) = (String::new(), String::new());
    for (name, sheet) in cases() {
        let shown = to_hex(&program_bytes(&sheet));
        fs::write(folder.join("data").join(&name), &sheet)?;
        names += &format!("{name}\n");
        answers += &format!("{name} {shown}\n");
    }
    fs::write(folder.join("args"), names)?;
    fs::write(folder.join("stdout"), answers)
}
