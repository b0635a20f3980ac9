//! Links target/staticlib/libspeed_oneway.a, libspeed_sheet.a, libspeed_twoway.a and libspeed_repeated.a, and links them again when they change.

fn main() {
    let folder = std::env::var("STATICLIB").expect("STATICLIB: tools/speed sets it");
    println!("cargo:rustc-link-search=native={folder}");
    for library in ["speed_oneway", "speed_sheet", "speed_twoway", "speed_repeated"] {
        println!("cargo:rustc-link-lib=static={library}");
        println!("cargo:rerun-if-changed={folder}/lib{library}.a");
    }
    println!("cargo:rerun-if-env-changed=STATICLIB");
}
