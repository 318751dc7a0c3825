# The port to threads, hosts/port, and the same with sanitizers.

# compile_port PROGRAM [FLAGS...]
compile_port() {
    "${cc[@]}" -std=c11 "${strict[@]}" -O2 -pthread "${@:2}" -I hosts/c -o "$build/$1" hosts/port/*.c "${archives[@]}"
}

port_compiles() {
    local kind
    start "the port compiles" compile_port port
    port_kinds=()
    for kind in thread address; do
        links -pthread "-fsanitize=$kind" || { leave_out "the port with -fsanitize=$kind, which ${cc[*]} doesn't link here"; continue; }
        port_kinds+=("$kind")
        start "the port compiles with -fsanitize=$kind" compile_port "port_$kind" -g "-fsanitize=$kind"
    done
}

port_runs() {
    local kind
    tell=1 start "the test of the port" "$build/port"
    for kind in "${port_kinds[@]}"; do start "the test of the port with -fsanitize=$kind" "$build/port_$kind"; done
}
