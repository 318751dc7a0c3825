# The trace tool, hosts/trace: its tests, and the stored traces, listed and drawn as they were when they were stored.

show=$build/show

builds() { rm -f "$show" && hosts/trace/show --built - </dev/null >"$build/show.out" && grep -qx 'records 0 differ 0 first 0 tail 0' "$build/show.out"; }

# compile_test SOURCE PROGRAM [FLAGS...]: after `builds`.
compile_test() { compile_rust "$2" --test -L "$build/trace" "${@:3}" "hosts/trace/$1.rs"; }

trace_compiles() {
    start "the tests of the trace tool compile" compile_test lib trace_tool_tests --crate-name trace_tool --extern linguastel
    start "the tests of its options compile" compile_test main show_tests --extern trace_tool
}

# What the tool prints of a stored trace, and with which exit status; the traces and the picture are those that it writes.
shows() { local status=0; "$show" "${@:3}" >"$build/show.out" || status=$?; [ "$status" = "$1" ] && diff "$2" "$build/show.out"; }
writes() { "$show" "$1" "$build/$2" && cmp "$build/$2" "hosts/trace/$2"; }
draws() { "$show" "$1" --picture "$build/$2" && cmp "$build/$2" "docs/$2"; }

trace_runs() {
    start "the tests of the trace tool" "$build/trace_tool_tests"
    start "the tests of its options" "$build/show_tests"
    hold "it writes hosts/trace/carriers.bin" writes --write-carriers carriers.bin
    hold "it lists that as hosts/trace/carriers.list.txt" shows 0 hosts/trace/carriers.list.txt hosts/trace/carriers.bin --list
    hold "it draws that as docs/carriers-trace.svg" draws hosts/trace/carriers.bin carriers-trace.svg
    hold "it draws the demo's trace as docs/demo-trace.svg" draws "$build/demo.trace" demo-trace.svg
    hold "it writes hosts/trace/differs.bin" writes --write-differs differs.bin
    hold "it shows the first difference there as hosts/trace/differs.first.txt" shows 1 hosts/trace/differs.first.txt hosts/trace/differs.bin --first
}
