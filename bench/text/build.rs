include!("../shared/link.rs");

fn main() {
    link(&["text_exports"]);
}
