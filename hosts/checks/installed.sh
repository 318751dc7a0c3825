# What hosts/install and hosts/release make, and what hosts/demo, hosts/install and hosts/release refuse.

# DESTDIR puts the files into another folder than their prefix, where they have to work too.
stage=$build/stage
prefix=$stage/usr/local/linguastel
examples=$prefix/share/linguastel/examples
first=hosts/examples/first.txt

installs() { rm -rf "$stage" && DESTDIR=$stage hosts/install /usr/local/linguastel --built; }

package() { PKG_CONFIG_PATH=$prefix/lib/pkgconfig pkg-config "$@" linguastel; }

# same_version COMMAND...: it prints the header's version.
same_version() { local header; header=$(version) && diff <(echo "$header") <("$@"); }
wrapper_version() { sed -n 's/^version = "\(.*\)"$/\1/p' "$prefix/share/linguastel/rust/Cargo.toml"; }

# by_package PROGRAM SOURCE COMPILER...: an example compiles with the words that pkg-config gives, and prints what it has to.
by_package() {
    local words
    words=$(package --cflags --libs) && read -r -a words <<<"$words" &&
        "${@:3}" "${strict[@]}" -o "$build/$1" "$examples/$2" "${words[@]}" && prints "$1" "$first"
}

by_cmake() {
    rm -rf "$build/cmake" && cmake -S "$examples/cmake" -B "$build/cmake" -DCMAKE_PREFIX_PATH="$PWD/$prefix" &&
        cmake --build "$build/cmake" && prints cmake/first "$first"
}

by_cargo() { CARGO_TARGET_DIR=target/cargo_first cargo run --offline --quiet --jobs 1 --manifest-path "$examples/cargo/Cargo.toml" | diff "$first" -; }

# Every link of an installed page to a file leads to an installed file.
leads() {
    local page link
    cd "$prefix/share/doc/linguastel" || return 1
    for page in *.md */*.md; do
        for link in $(grep -o '](\([^) ]*\))' "$page" | sed 's/^](//; s/[#)].*//' | grep -v '://' | sort -u); do
            [ -f "$(dirname "$page")/$link" ] || { echo "$page has a link to $link"; return 1; }
        done
    done
}

# A release is made twice, with the same bytes, and the sums in it are those of its files.
releases() {
    local name
    name=linguastel-$(version)-x86_64-linux
    rm -rf "$build/release" && hosts/release "$build/release/1" --built && (umask 077 && hosts/release "$build/release/2" --built) &&
        cmp "$build/release/1/$name.tar.gz" "$build/release/2/$name.tar.gz" && tar -xzf "$build/release/1/$name.tar.gz" -C "$build/release" &&
        cd "$build/release/$name" && sha256sum --check --quiet SHA256SUMS && [ "$(wc -l <SHA256SUMS)" = $(($(find . -type f | wc -l) - 1)) ]
}

# hosts/demo through a link, in another folder, with a compiler that has an argument.
linked_demo() {
    local link=$PWD/$build/linked
    ln -sf "$PWD/hosts/demo" "$link" && (cd / && CC="${cc[*]} -Wall" "$link" --built) | diff hosts/demo.txt -
}

# A copy without archives and without docs/PROOF.md.
bare=$build/bare
makes_bare() { rm -rf "$bare" && mkdir "$bare" && cp -R hosts crates.txt "$bare"; }

installed_refusals() {
    start "hosts/demo names a compiler that is missing" refused "no-such-cc is not on the PATH" env CC="no-such-cc -Wall" hosts/demo --built
    start "hosts/demo names an archive that is missing" refused "liblinguastel.a is missing" "$bare/hosts/demo" --built
    start "hosts/install names an archive that is missing" refused "liblinguastel.a is missing" "$bare/hosts/install" "$build/nothing" --built
    start "hosts/install asks for a prefix" refused "usage: hosts/install PREFIX" hosts/install --built
    start "hosts/install refuses a prefix that can't be written" refused "can't be written" hosts/install hosts/install/prefix --built
    start "hosts/release says that docs/PROOF.md is missing" refused "docs/PROOF.md" "$bare/hosts/release" "$build/nothing" --built
}

installed_runs() {
    local compiler
    hold "hosts/demo runs through a link in another folder, and with arguments in CC" linked_demo
    hold "a copy without archives is made" makes_bare
    installed_refusals
    hold "hosts/install installs, with DESTDIR" installs
    start "the installed pages have links to installed files alone" leads
    start "the wrapper has the header's version" same_version wrapper_version
    start "hosts/release makes the same bytes twice" releases
    if has pkg-config; then
        start "pkg-config gives the header's version" same_version package --modversion
        start "the first host in C compiles by pkg-config, and runs" by_package first_c first.c "${cc[@]}"
        each_there "the first host in C++" c++
        for compiler in "${there[@]}"; do start "the first host in C++ compiles by pkg-config, and runs" by_package first_cpp first.cpp "$compiler"; done
    else
        leave_out "the installed library by pkg-config, which is not on the PATH"
    fi
    if has cmake && has pkg-config; then start "the first host in C by CMake" by_cmake; else leave_out "CMake, which needs cmake and pkg-config on the PATH"; fi
    if has cargo; then start "the first host in Rust by cargo" by_cargo; else leave_out "the first host in Rust, which needs cargo on the PATH"; fi
}
