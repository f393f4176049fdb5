#!/usr/bin/env bash
# Measures the proved layer beside plain Rust: benchmarks/README.md.
source "$(dirname "$0")/build.sh"

instructions=$top/benchmarks/instructions.csv
results=$top/benchmarks/results.csv
picture=$top/docs/growth.svg
# Of a few parts nothing is stored.
if [ -n "${PARTS:-}" ]; then
    instructions=$scratch/instructions.csv
    results=$scratch/results.csv
    picture=$scratch/growth.svg
fi

# The most memory of each program beside these numbers of standing services.
measure_peaks() {
    local number program
    for number in "$@"; do
        for program in "${programs[@]}"; do
            "$driver" peak "$program" "$number"
        done
    done >"$scratch/peaks.csv"
}

count_all() {
    count_programs "$scratch" "$*" "${programs[@]}"
    measure_peaks 10000 30000
    python3 "$top/benchmarks/report.py" instructions "$scratch" "$instructions" "$picture"
}

# Counts again by single instruction: what has this causes.
count_causes() {
    local callgrind_options=(--dump-instr=yes --compress-pos=no)
    count_programs "$scratch/causes" 1000 proved vectors
    count_programs "$scratch/causes" "1000 100000" large map
    python3 "$top/benchmarks/report.py" causes "$scratch/causes" "$driver"
}

time_all() {
    local starts=${STARTS:-5} start number
    [ $# -gt 0 ] || set -- 1000 3000 10000 30000 100000
    rm -f "$scratch"/times-*.csv
    for ((start = 1; start <= starts; start++)); do
        tell "start $start of $starts"
        "$driver" time >"$scratch/times-$start.csv"
        for number in "$@"; do
            # A start beside more than 50,000 services takes minutes, so there are half as many.
            if ((number <= 50000 || 2 * start <= starts + 1)); then
                tell "start $start of $starts, beside $number"
                "$driver" beside "$number" >"$scratch/times-$start-$number.csv"
            fi
        done
    done
    python3 "$top/benchmarks/report.py" times "$scratch" "$results"
}

# Whether other tasks take less than a tenth of the processors, for ten seconds.
is_quiet() {
    local before after idle=0 all=0 field
    read -ra before </proc/stat
    sleep 10
    read -ra after </proc/stat
    for field in 1 2 3 4 5 6 7 8; do
        ((all += after[field] - before[field])) || true
    done
    ((idle = after[4] + after[5] - before[4] - before[5])) || true
    tell "other tasks take $((100 - 100 * idle / all)) percent of the processors"
    ((10 * idle >= 9 * all))
}

what=--times
case "${1:-}" in
    --*)
        what=$1
        shift
        ;;
esac
if [ "$what" = --page ]; then
    exec python3 "$top/benchmarks/report.py" page "$scratch" "$instructions"
fi
build
describe_run
echo
case "$what" in
    --all)
        count_all "${counted_beside[@]}"
        count_causes
        if is_quiet; then
            time_all
        else
            tell "so no times are taken"
        fi
        python3 "$top/benchmarks/report.py" page "$scratch" "$instructions"
        ;;
    --instructions)
        [ $# -gt 0 ] || set -- "${counted_beside[@]}"
        count_all "$@"
        ;;
    --causes)
        count_causes
        ;;
    --times)
        time_all "$@"
        ;;
    --shared)
        need valgrind valgrind
        copy_kept shared_lines
        prove_crate shared_lines "$scratch" run shared_lines
        python3 "$top/benchmarks/shared_log.py" "$scratch/crates/shared_lines/out/shared_lines" "$driver" "$@"
        ;;
    *)
        echo "not an option: $what" >&2
        exit 2
        ;;
esac
