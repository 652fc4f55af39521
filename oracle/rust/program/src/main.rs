//! The oracle: reads questions on standard input and answers each with what
//! the crate says, one line for each line.

mod allocator;
mod supervisor;
mod worker;

#[global_allocator]
static MEMORY: allocator::Bounded = allocator::Bounded;

fn main() {
    let done = if std::env::args().nth(1).as_deref() == Some("--worker") {
        worker::run()
    } else {
        supervisor::run()
    };
    if let Err(error) = done {
        eprintln!("oracle: {error}");
        std::process::exit(1);
    }
}
