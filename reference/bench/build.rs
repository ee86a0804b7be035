//! Sets cfg(linked) where package hivepadlet links the proved library.
fn main() {
    println!("cargo:rustc-check-cfg=cfg(linked)");
    println!("cargo:rustc-check-cfg=cfg(saves)");
    println!("cargo:rustc-check-cfg=cfg(gossip)");
    if std::env::var_os("DEP_HOST_LINKED").is_some() {
        println!("cargo:rustc-cfg=linked");
    }
    if std::env::var_os("DEP_HOST_SAVES").is_some() {
        println!("cargo:rustc-cfg=saves");
    }
    if std::env::var_os("DEP_HOST_GOSSIP").is_some() {
        println!("cargo:rustc-cfg=gossip");
    }
}
