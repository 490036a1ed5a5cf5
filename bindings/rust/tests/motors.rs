//! What the example prints, worked out by hand.
#[allow(dead_code)] // its main
#[path = "../examples/motors.rs"]
mod motors;

/// Motors 0 and 1 are unranked: one is lighter, the other cheaper. Motor 1 is cheaper and lighter than motor 2, motor 0
/// costs more than it. Motor 3 is 12 volts away, and of the two kept motors 0 has the lowest number.
#[test]
fn the_example_prints_this() {
    let expected = "2 of 4 kept\n\
                    0 kept\n\
                    1 kept\n\
                    2 dropped: 1 is better\n\
                    3 dropped: 0 is better\n";
    assert_eq!(motors::report().unwrap(), expected);
}
