# How hosts/check runs its checks. A check is a text and a command; the command's output is shown where it failed.

logs=$build/logs
mkdir -p "$logs"
at_once=2

checks=()
tells=()
reported=0
passed=0
failed=0

# start WHAT COMMAND...: runs it beside others. `report` waits for all that were started, and prints what came of them, in the order of their start.
# With tell=1 the last line of the command's output is printed too.
start() {
    local number=${#checks[@]}
    checks+=("$1")
    tells+=("${tell:-0}")
    while [ "$(jobs -rp | wc -l)" -ge "$at_once" ]; do wait -n || true; done
    { if ("${@:2}") >"$logs/$number" 2>&1; then echo passed; else echo FAILED; fi >"$logs/$number.came"; } &
}

# leave_out WHAT: a check that can't be made here, and why.
leave_out() {
    local number=${#checks[@]}
    checks+=("$1")
    tells+=(0)
    echo "left out" >"$logs/$number.came"
}

report() {
    local came
    wait
    while [ "$reported" -lt ${#checks[@]} ]; do
        came=$(cat "$logs/$reported.came")
        echo "$came: ${checks[reported]}"
        case $came in
        passed) passed=$((passed + 1)); [ "${tells[reported]}" = 0 ] || tail -n 1 "$logs/$reported" ;;
        FAILED) failed=$((failed + 1)); sed 's/^/    /' "$logs/$reported" ;;
        esac
        reported=$((reported + 1))
    done
}

# hold WHAT COMMAND...: after all that was started before.
hold() { report; start "$@"; report; }

# each_there WHAT TOOL...: the array `there` gets the tools that are on the PATH; with each of the others, the check is left out.
each_there() {
    local what=$1 tool
    there=()
    for tool in "${@:2}"; do
        if has "$tool"; then there+=("$tool"); else leave_out "$what with $tool, which is not on the PATH"; fi
    done
}

# prints PROGRAM FILE: the program succeeds and prints what the file has.
prints() { "$build/$1" >"$build/$1.out" && diff "$2" "$build/$1.out"; }

# refused WORDS COMMAND...: the command fails with status 2, and what it says has the words.
refused() {
    local status=0 said
    said=$("${@:2}" 2>&1) || status=$?
    echo "exit status $status: $said"
    [ "$status" = 2 ] && [[ $said == *"$1"* ]]
}
