# The headers and the demo in C++.

cpp_standards=(c++11 c++14 c++17 c++20)

# cpp_demo COMPILER STANDARD: hosts/cpp/demo.cpp compiles and prints hosts/cpp/demo.txt.
cpp_demo() {
    local program=demo.$1.$2
    "$1" "-std=$2" "${strict[@]}" -O2 -I hosts/c -o "$build/$program" hosts/cpp/demo.cpp "${archives[@]}" && prints "$program" hosts/cpp/demo.txt
}

cpp_compiles() {
    local compiler standard
    each_there "C++" g++ clang++
    for compiler in "${there[@]}"; do
        start "the headers compile alone with $compiler: ${cpp_standards[*]}" includes "$compiler" c++ "${cpp_standards[@]}"
        for standard in c++11 c++17; do start "answers that are dropped in $standard are refused by $compiler" drops c++ "$standard" "$compiler"; done
        for standard in "${cpp_standards[@]}"; do start "the demo in $standard with $compiler prints hosts/cpp/demo.txt" cpp_demo "$compiler" "$standard"; done
    done
}
