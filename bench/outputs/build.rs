include!("../shared/link.rs");

fn main() {
    link(&["output_exports", "record_exports"]);
}
