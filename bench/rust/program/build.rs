//! Tells where the archive of our functions is, the folder that ARCHIVE names, and how many numbers a row of a table
//! has: what HEADER, the C header, says of UZ_WIDTH.

fn named(variable: &str) -> String {
    println!("cargo:rerun-if-env-changed={variable}");
    std::env::var(variable).unwrap_or_else(|_| panic!("{variable} names nothing"))
}

fn main() {
    let folder = named("ARCHIVE");
    println!("cargo:rerun-if-changed={folder}/libspeed.a");
    println!("cargo:rustc-link-search=native={folder}");
    let header = named("HEADER");
    println!("cargo:rerun-if-changed={header}");
    let lines = std::fs::read_to_string(&header).expect("the header can't be read");
    let width = lines
        .lines()
        .find_map(|line| line.strip_prefix("#define UZ_WIDTH "))
        .and_then(|rest| rest.split(' ').next())
        .expect("the header has no UZ_WIDTH");
    println!("cargo:rustc-env=UZ_WIDTH={width}");
}
