include!("../shared/link.rs");

fn main() {
    link(&["mark_exports"]);
}
