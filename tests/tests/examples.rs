//! The marked examples 1 to 9, on the library.

use reading::examples;
use station_tests::proved;

#[test]
fn examples_1_to_9() {
    examples::hold(proved::after);
}
