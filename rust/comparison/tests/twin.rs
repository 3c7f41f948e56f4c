//! The plain Rust twin against the model: it must do what the library does, or the benchmark would compare two things.

use comparison::subject::Twin;
use comparison::suite::ALL;

#[test]
fn twin() {
    for comparison in ALL {
        println!("{}:", comparison.name);
        comparison.run(&Twin).accept();
    }
}
