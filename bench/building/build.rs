include!("../shared/link.rs");

fn main() {
    link(&["building_batches", "record_exports"]);
}
