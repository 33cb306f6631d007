//! Checks that the modules of typed calls are there, and whether the compositor among the examples has data-control.
//!
//! These modules are part of an installed package; in the repository `make` makes them. Without the file of
//! wlr-data-control, which is rarely installed, the compositor is built without data-control. The build script of
//! waywire-sys finds the library.

use std::env;
use std::path::Path;
use std::process;

fn main() {
    for module in ["src/wayland.rs", "src/data_device.rs"] {
        println!("cargo:rerun-if-changed={module}");
        if !Path::new(module).exists() {
            eprintln!(
                "{module} is missing: `make` at the top of the repository makes it; to make it alone, \
                `make rust/waywire/{module}` needs only Python"
            );
            process::exit(1);
        }
    }
    // The compositor among the examples has data-control if `make` has made its module.
    println!("cargo:rerun-if-env-changed=DATA_CONTROL");
    println!("cargo::rustc-check-cfg=cfg(data_control)");
    let module = Path::new("examples/protocols/wlr_data_control_unstable_v1.rs");
    println!("cargo:rerun-if-changed={}", module.display());
    let is_wanted = env::var_os("DATA_CONTROL").map_or(true, |it| !it.is_empty());
    if module.exists() && is_wanted {
        println!("cargo:rustc-cfg=data_control");
    }
}
