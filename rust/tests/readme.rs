//! README's Rust program is examples/first.rs, which is built and run.

#[test]
fn readme_has_the_first_example() {
    let program = include_str!("../examples/first.rs");
    assert!(include_str!("../../README.md").contains(&format!("```rust\n{program}```\n")));
}
