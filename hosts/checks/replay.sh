# The replay of what the hosts recorded, by the program replay and by the hosts that replay in blocks.

# replays PROGRAM: its trace has calls, and the replay gives all their answers.
replays() {
    local bytes calls
    bytes=$(wc -c <"$build/$1.trace") && calls=$((bytes / 32)) && [ "$calls" -gt 0 ] && "$replay" <"$build/$1.trace" >"$build/$1.replay" &&
        diff <(echo "records $calls differ 0 first 0 tail 0") "$build/$1.replay" && cat "$build/$1.replay"
}

# cuts PROGRAM: with each seed, it prints a recording's line, however it cuts the recording: for the stored ones the line that is stored, for the traces of
# demo and recorder the one that the program replay gave. Recordings named -from-COUNTER don't start at the empty state.
seeds=(1 2 3 4294967295)
cuts() {
    local file line seed
    for file in compare/corpus/*.bin "$build/demo.trace" "$build/recorder.trace"; do
        case $file in
        *-from-*) continue ;;
        *.trace) line=${file%.trace}.replay ;;
        *) line=${file%.bin}.line ;;
        esac
        for seed in "${seeds[@]}"; do
            "$build/$1" "$file" "$seed" >"$build/$1.out" && diff "$line" "$build/$1.out" || { echo "$file, seed $seed" && return 1; }
        done
    done
}

# refuses PROGRAM: where it is called wrongly, or the file can't be read, it prints no line and the exit status is 2.
refuses() {
    local line status
    while read -r -a line; do
        status=0
        "$build/$1" "${line[@]}" >"$build/$1.refused" || status=$?
        [ "$status" = 2 ] && [ ! -s "$build/$1.refused" ] || { echo "$1 ${line[*]}: exit status $status" && return 1; }
    done <<<"
compare/corpus/bad.bin 0
compare/corpus/bad.bin -1
compare/corpus/bad.bin 4294967296
compare/corpus/bad.bin 1x
compare/corpus/bad.bin 1 1
compare/corpus
compare/no-such-file"
}

replay_runs() {
    local program in_blocks=(replay replay_rust)
    for program in demo recorder; do tell=1 start "the replay of the $program's trace differs nowhere" replays "$program"; done
    report
    [ "$sanitized" = 0 ] || in_blocks+=(replay_sanitized)
    for program in "${in_blocks[@]}"; do
        start "$program gives the line of every recording, in blocks that end anywhere" cuts "$program"
        start "$program refuses to be called wrongly" refuses "$program"
    done
}
