//! The simulation is one over the proved library, which package hivepadlet links.
fn main() {
    let linked = std::env::var_os("DEP_HOST_LINKED").is_some();
    assert!(linked, "HIVEPADLET_LIB has to name the folder of libhost.a");
}
