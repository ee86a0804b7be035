//! Links the proved library, which `rt lib` writes in crates/host, where HIVEPADLET_LIB names its folder, and
//! tells the packages that depend on this one. Without it the functions are missing; the table's layout, the
//! constants and the answers are there.

/// Whether the library has hivepadlet_save and hivepadlet_load.
const SAVES: bool = true;

/// Whether it has the functions of IDONTWANT, IHAVE and IWANT.
const GOSSIP: bool = true;

fn main() {
    println!("cargo:rustc-check-cfg=cfg(linked)");
    println!("cargo:rustc-check-cfg=cfg(saves)");
    println!("cargo:rustc-check-cfg=cfg(gossip)");
    println!("cargo:rerun-if-env-changed=HIVEPADLET_LIB");
    if let Ok(dir) = std::env::var("HIVEPADLET_LIB") {
        println!("cargo:rustc-cfg=linked");
        println!("cargo:linked=yes");
        if SAVES {
            println!("cargo:rustc-cfg=saves");
            println!("cargo:saves=yes");
        }
        if GOSSIP {
            println!("cargo:rustc-cfg=gossip");
            println!("cargo:gossip=yes");
        }
        println!("cargo:rustc-link-search=native={dir}");
        println!("cargo:rustc-link-lib=static=host");
        println!("cargo:rerun-if-changed={dir}/libhost.a");
    }
}
