//! Links the static library of kernels and the kernels in C, which `tools/bench` builds and names.
use std::{env, path::Path};

fn main() {
    println!("cargo:rerun-if-env-changed=KERNELS");
    println!("cargo:rerun-if-env-changed=C_KERNELS");
    println!("cargo:rerun-if-env-changed=KIT_C");
    let (Ok(kernels), Ok(c_kernels), Ok(kit_c)) = (env::var("KERNELS"), env::var("C_KERNELS"), env::var("KIT_C")) else {
        panic!("this is built by tools/bench, which names the static library of kernels (KERNELS), those in C (C_KERNELS) and the kit's folder c (KIT_C)");
    };
    println!("cargo:rerun-if-changed={kernels}");
    println!("cargo:rerun-if-changed={c_kernels}");
    println!("cargo:rustc-link-arg={c_kernels}");
    let folder = Path::new(&kernels).parent().expect("KERNELS is the path of a file");
    println!("cargo:rustc-link-search=native={}", folder.display());
    println!("cargo:rustc-link-search=native={kit_c}");
    println!("cargo:rustc-link-lib=static=constriction_kernels");
    // what a library of Rattle asks for memory by
    println!("cargo:rustc-link-lib=static=libc_c");
}
