//! Reads site.bin and sheet.bin, runs from fresh and prints.

fn main() {
    let read = |name| std::fs::read(name).unwrap_or_default();
    print!("{}", engine::program(&read("site.bin"), &read("sheet.bin")));
}
