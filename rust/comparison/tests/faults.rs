//! Each wrong program differs from the model in the comparison that is there to see it.

use comparison::faults::ALL;
use comparison::suite::named;

#[test]
fn every_wrong_program_is_seen() {
    for (what, comparison, program) in ALL {
        match named(comparison).run(program).difference {
            Some(difference) => println!("{what}: {}", difference.0),
            None => panic!("a program that {what} passes the comparison '{comparison}'"),
        }
    }
}
