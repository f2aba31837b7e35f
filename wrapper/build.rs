// Where liblinked.a is: the folder named by SLOTFIGURES_LIB.
fn main() {
    println!("cargo:rerun-if-env-changed=SLOTFIGURES_LIB");
    let folder =
        std::env::var("SLOTFIGURES_LIB").expect("SLOTFIGURES_LIB names the folder of liblinked.a");
    println!("cargo:rerun-if-changed={folder}/liblinked.a");
    println!("cargo:rustc-link-search=native={folder}");
}
