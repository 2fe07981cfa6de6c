include!("../shared/link.rs");

fn main() {
    link(&["exports", "batches", "record_exports"]);
}
