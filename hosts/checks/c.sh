# The headers by themselves, the hosts in C, and the same with sanitizers.

c_programs=(demo recorder replay boundary print)
strict=(-Wall -Wextra -pedantic -Werror)
sanitize=(-g '-fsanitize=undefined,address' -fno-sanitize-recover=all)

# compile_c SOURCE PROGRAM [FLAGS...]: hosts/c/SOURCE.c.
compile_c() { "${cc[@]}" -std=c11 "${strict[@]}" -O2 "${@:3}" -o "$build/$2" "hosts/c/$1.c" "${archives[@]}"; }

# includes COMPILER LANGUAGE STANDARD...: each header compiles alone.
includes() {
    local header standard
    for header in hosts/c/*.h; do
        for standard in "${@:3}"; do
            "$1" -x "$2" "-std=$standard" "${strict[@]}" -fsyntax-only -include "$header" /dev/null || { echo "$header, $standard"; return 1; }
        done
    done
}

# drops LANGUAGE STANDARD COMPILER: dropped.c is refused, in each line that says so and in no other. (gcc with -fsyntax-only sees nothing of it.)
drops() {
    local file=hosts/checks/dropped.c said=$build/dropped.$3.$2
    "$3" -x "$1" "-std=$2" -Werror=unused-result -I hosts/c -c -o "$said.o" "$file" 2>"$said" && { echo "it compiles"; return 1; }
    diff <(sed -n '/dropped$/=' "$file") <(sed -n "s|^$file:\([0-9]*\):.*error:.*unused-result.*|\1|p" "$said" | sort -nu) || { cat "$said"; return 1; }
}

# links FLAGS...: the compiler links a program with these flags here, and the program runs.
links() { echo 'int main(void) { return 0; }' | "${cc[@]}" "$@" -x c -o "$build/links" - 2>/dev/null && "$build/links"; }

c_compiles() {
    local compiler program
    each_there "the headers alone in C" gcc clang
    for compiler in "${there[@]}"; do
        start "the headers compile alone with $compiler: C99, C11, C17" includes "$compiler" c c99 c11 c17
        start "answers that are dropped in C are refused by $compiler" drops c c11 "$compiler"
    done
    for program in "${c_programs[@]}"; do start "hosts/c/$program.c compiles" compile_c "$program" "$program"; done
    sanitized=0
    links "${sanitize[@]}" || { leave_out "the hosts in C with sanitizers, which ${cc[*]} doesn't link here"; return 0; }
    sanitized=1
    for program in "${c_programs[@]}"; do
        start "hosts/c/$program.c compiles with sanitizers" compile_c "$program" "${program}_sanitized" "${sanitize[@]}"
    done
}

# records PROGRAM: the program writes a trace into the file that it is given. What it prints is kept.
records() { "$build/$1" "$build/$1.trace" >"$build/$1.out" && cat "$build/$1.out"; }

# records_like PROGRAM OUTPUT [TRACE]: the same. It prints what the one file has, and writes what the other has.
records_like() { records "$1" && diff "$2" "$build/$1.out" && { [ $# = 2 ] || cmp "$3" "$build/$1.trace"; }; }

c_runs() {
    hold "the demo in C prints hosts/demo.txt" prints demo hosts/demo.txt
    hold "the demo in C prints it too where it records" records_like demo hosts/demo.txt
    tell=1 hold "the recorder in C writes a trace" records recorder
    tell=1 start "the test of the boundary in C" "$build/boundary" hosts/runs compare/corpus
    start "the state in words from C is hosts/print.txt" prints print hosts/print.txt
    [ "$sanitized" = 1 ] || return 0
    start "the test of the boundary in C, with sanitizers" "$build/boundary_sanitized" hosts/runs compare/corpus
    start "the demo in C, with sanitizers" records_like demo_sanitized hosts/demo.txt "$build/demo.trace"
    start "the recorder in C, with sanitizers" records_like recorder_sanitized "$build/recorder.out" "$build/recorder.trace"
    start "the state in words from C, with sanitizers" prints print_sanitized hosts/print.txt
}
