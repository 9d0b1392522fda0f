//! Links the reader's static library; build.sh says where it is.
fn main() {
    println!("cargo:rerun-if-env-changed=RULZHAMM_LIB");
    let folder = std::env::var("RULZHAMM_LIB").expect("RULZHAMM_LIB names the folder of librulzhamm.a");
    println!("cargo:rustc-link-search=native={folder}");
    println!("cargo:rustc-link-lib=static=rulzhamm");
}
