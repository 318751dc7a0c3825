# The wrapper and the hosts in Rust, by rustc alone and by cargo.

rust_programs=(demo recorder replay print pages)

# compile_rust OUTPUT FLAGS...
compile_rust() { rustc --edition 2021 -D warnings -C opt-level=2 -o "$build/$1" "${@:2}"; }

# over_wrapper OUTPUT SOURCE [FLAGS...]: hosts/rust/SOURCE.
over_wrapper() { compile_rust "$1" --extern "linguastel=$build/liblinguastel.rlib" "${@:3}" "hosts/rust/$2"; }

wrapper() { compile_rust liblinguastel.rlib --crate-type rlib --crate-name linguastel -L "native=$library" hosts/rust/src/lib.rs; }

# drops_rust: dropped.rs is refused, in each line that says so and in no other.
drops_rust() {
    local file=hosts/checks/dropped.rs said=$build/dropped.rustc
    rustc --edition 2021 --crate-type lib --emit metadata -D unused_must_use --error-format short --extern "linguastel=$build/liblinguastel.rlib" \
        -o "$build/dropped.rmeta" "$file" 2>"$said" && { echo "it compiles"; return 1; }
    diff <(sed -n '/dropped$/=' "$file") <(sed -n "s|^$file:\([0-9]*\):.*must be used.*|\1|p" "$said") || { cat "$said"; return 1; }
}

# with_cargo COMMAND...: in hosts/rust, where a warning is an error.
with_cargo() {
    RUSTFLAGS='-D warnings' RUSTDOCFLAGS='-D warnings' CARGO_TARGET_DIR=target/cargo \
        cargo "$1" --offline --quiet --jobs 1 --manifest-path hosts/rust/Cargo.toml "${@:2}"
}

# After `wrapper`.
rust_compiles() {
    local program
    for program in "${rust_programs[@]}"; do start "hosts/rust/src/bin/$program.rs compiles" over_wrapper "${program}_rust" "src/bin/$program.rs"; done
    start "the tests of the boundary in Rust compile" over_wrapper boundary_rust tests/boundary.rs --test
    start "answers that are dropped in Rust are refused" drops_rust
    has cargo || { leave_out "cargo, which is not on the PATH"; return 0; }
    start "cargo test" with_cargo test
    start "cargo doc" with_cargo doc --no-deps --lib
}

rust_runs() {
    start "the demo in Rust prints what the one in C prints" prints demo_rust "$build/demo.out"
    start "the recorder in Rust writes the trace of the one in C" records_like recorder_rust "$build/recorder.out" "$build/recorder.trace"
    start "the state in words from Rust is hosts/print.txt" prints print_rust hosts/print.txt
    tell=1 start "the reference pages, docs/calls, say what the kernel does" "$build/pages_rust" docs/calls
    start "the tests of the boundary in Rust" "$build/boundary_rust"
    hold "the demo in Rust records what the one in C records" records_like demo_rust "$build/demo.out" "$build/demo.trace"
}
