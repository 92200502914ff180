//! The same program, for `tests/tool` to link with another core.

fn main() {
    tool::commands::program();
}
