//! The stack that the header says is enough for each call.

use antenna_tests::stack;

#[test]
fn the_stated_stack_is_enough() {
    for (call, taken, stated) in stack::of_calls() {
        println!("{call}: {taken} bytes of {stated}");
        assert!(taken > 0 && taken <= stated, "{call}: {taken} of {stated}");
    }
}
