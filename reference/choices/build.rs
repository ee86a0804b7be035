//! Links the two proved choices, which `rt lib` writes in crates/choices; HIVEPADLET_CHOICES names its folder.
fn main() {
    println!("cargo:rerun-if-env-changed=HIVEPADLET_CHOICES");
    let dir = std::env::var("HIVEPADLET_CHOICES")
        .expect("HIVEPADLET_CHOICES: the folder of libchoices.a");
    println!("cargo:rustc-link-search=native={dir}");
    println!("cargo:rustc-link-lib=static=choices");
    println!("cargo:rerun-if-changed={dir}/libchoices.a");
}
