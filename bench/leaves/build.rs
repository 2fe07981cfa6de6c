include!("../shared/link.rs");

fn main() {
    link(&["leaf_exports"]);
}
