# What the scripts of hosts/ share: the compiler, the archives, tools that are missing. A script reads this once it stands in the repository's root.

# The C compiler. CC may have arguments, as in CC="gcc -Wall".
read -r -a cc <<<"${CC:-cc}"

library=target/staticlib
names=(linguastel linguastel_table linguastel_replay)
archives=("${names[@]/#/$library/lib}")
archives=("${archives[@]/%/.a}")

# So many crates are proved at a time.
proved_at_once=$(nproc 2>/dev/null || echo 2)

stop() { echo "hosts/${0##*/}: $*" >&2; exit 2; }
refuse() { echo "usage: $usage" >&2; exit 2; }
has() { command -v "$1" >/dev/null; }

# need TOOL...: each is on the PATH.
need() { local tool; for tool; do has "$tool" || stop "$tool is not on the PATH"; done; }

# take COUNT WORDS...: --built sets built=1. The other words, so many, go to the array `words`.
take() {
    built=0
    words=()
    local count=$1 word
    for word in "${@:2}"; do
        case $word in
        --built) built=1 ;;
        -* | '') refuse ;;
        *) words+=("$word") ;;
        esac
    done
    [ ${#words[@]} = "$count" ] || refuse
}

# The archives are proved and built, or with --built they are there.
provide_archives() {
    local archive
    [ "$built" = 1 ] || hosts/library
    for archive in "${archives[@]}"; do
        [ -r "$archive" ] || stop "$archive is missing: hosts/library proves and builds it"
    done
}

# in_order NAME...: these crates and those that they use, and so on, each after those that it uses; crates.txt has a line 'NAME: CRATE CRATE' for each,
# for a static library 'NAME staticlib: CRATE CRATE'. Libraries that it doesn't list are the toolchain's.
in_order() {
    awk -v names="$*" '
        /^[^#]*:/ { name = $1; sub(":.*", "", name); sub("^[^:]*:", ""); uses[name] = $0 }
        function visit(name,    n, k, more) {
            if (!(name in uses) || name in seen) return
            seen[name]
            n = split(uses[name], more)
            for (k = 1; k <= n; k++) visit(more[k])
            print name
        }
        END { n = split(names, wanted); for (i = 1; i <= n; i++) visit(wanted[i]) }' crates.txt
}

# proved_here CRATE: rt has made its library in this folder, and none of its files is newer.
proved_here() {
    local made files=("crates/$1/src" "crates/$1/specs" "crates/$1/proofs")
    case $1 in
    *_c) made=crates/$1/out/lib$1.a ;;
    *) made=crates/$1/out/rlib/stamp ;;
    esac
    [ -f "$made" ] && [ -z "$(find "${files[@]}" -newer "$made" -print -quit 2>/dev/null)" ]
}

# The first crate that the archives use and that isn't; nothing where all are.
first_unproved() {
    local crate
    for crate in $(in_order "${names[@]/%/_c}"); do proved_here "$crate" || { echo "$crate"; return; }; done
}

# program NAME: where rt leaves a program that it built.
program() { echo "crates/$1/out/$1"; }

# build_program NAME: proves and builds it, and runs it once, on no input. What rt says goes to standard error.
build_program() { (cd "crates/$1" && rt run </dev/null >/dev/null); }

# from FOLDER PATH: the path, which was meant in that folder.
from() { case $2 in /*) echo "$2" ;; *) echo "$1/$2" ;; esac; }

# The version, as the header has it.
version() {
    local text
    text=$(sed -n 's/^#define LINGUASTEL_VERSION_TEXT "\(.*\)"$/\1/p' hosts/c/linguastel.h)
    [ -n "$text" ] || stop "hosts/c/linguastel.h defines no LINGUASTEL_VERSION_TEXT"
    echo "$text"
}
