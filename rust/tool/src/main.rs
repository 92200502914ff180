//! The program `levtosziv`.

fn main() {
    tool::commands::program();
}
