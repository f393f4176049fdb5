# Builds the proved layer and the driver: run.sh, guard and kit/count read this.
set -eu

top=$(cd "$(dirname "${BASH_SOURCE[0]}")/.." && pwd)
scratch=${BENCHMARK_FOLDER:-/tmp/negotiation-benchmark}
sources=/usr/share/cargo/registry
libraries="iceoryx2_session iceoryx2_builder iceoryx2_large_table iceoryx2_table iceoryx2_world"
libraries="$libraries iceoryx2_access iceoryx2_data iceoryx2_description iceoryx2_attribute"
driver=$scratch/driver/target/release/driver

# Tells how far a script is, and how many seconds it took up to here.
tell() {
    printf '[%5d s] %s\n' "$SECONDS" "$*" >&2
}

# Installs packages where a command or a folder isn't there.
need() {
    if ! compgen -G "$1" >/dev/null && ! command -v "$1" >/dev/null; then
        tell "installing $2"
        apt-get update >/dev/null
        apt-get install -y "$2" >/dev/null
    fi
}

# A repository of copies, with the static library beside the crates.
copy_crates() {
    local crate name part
    mkdir -p "$scratch/crates/measured/src"
    [ -e "$scratch/.git" ] || git init -q "$scratch"
    for crate in "$top"/crates/*/; do
        name=$(basename "$crate")
        mkdir -p "$scratch/crates/$name"
        for part in src specs proofs; do
            rm -rf "$scratch/crates/$name/$part"
            [ ! -e "$crate/$part" ] || cp -a "$crate/$part" "$scratch/crates/$name/"
        done
    done
    cp "$top/crates.txt" "$scratch/crates.txt"
    copy_crate "measured staticlib" "$scratch" "negotiate_serve negotiate_lines $libraries libc"
    copy_crate shared_lines "$scratch" "negotiate_serve negotiate_lines $libraries iceoryx2_file_log iceoryx2_journal iceoryx2_log"
}

# Copies what rt kept of earlier checks of the crates on which this one stands, unless what is kept here is later.
copy_kept() {
    local name from to
    for name in $(crates_below "$1"); do
        from=$top/crates/$name/out
        to=$scratch/crates/$name/out
        if [ -e "$from" ] && { [ ! -e "$to" ] || [ "$from/rlib/stamp" -nt "$to/rlib/stamp" ]; }; then
            rm -rf "$to"
            cp -a "$from" "$to"
        fi
    done
}

# The repository's crates on which one stands.
crates_below() {
    python3 - "$scratch/crates.txt" "$1" <<'LIST'
import sys

lines = [line.split(":") for line in open(sys.argv[1]) if ":" in line and not line.startswith("#")]
uses = {names.split()[0]: libraries.split() for names, libraries in lines}
found, left = set(), [sys.argv[2]]
while left:
    below = [name for name in uses[left.pop()] if name in uses and name not in found]
    found.update(below)
    left += below
print(*sorted(found))
LIST
}

# Puts a crate beside those of a repository: a folder of benchmarks/ whose files end in `.rattle`.
copy_crate() {
    local name=${1%% *} repository=$2 below=$3
    mkdir -p "$repository/crates/$name/src"
    rm -f "$repository/crates/$name/src"/*
    for file in "$top/benchmarks/$name"/*.rattle; do
        cp "$file" "$repository/crates/$name/src/$(basename "$file" .rattle).rt"
    done
    echo "$1: $below" >>"$repository/crates.txt"
}

# Proves and builds a crate by `rt lib` or `rt run`, which then makes this file. Tells of each crate below it when rt
# comes to it, and how far rt is.
prove_crate() {
    local name=$1 repository=$2 how=$3 made=$4 line
    tell "proving and building $name; from nothing each crate below it is proved first"
    rm -f "$repository/crates/$name/out/$made"
    (set +e
        cd "$repository/crates/$name" && rt "$how" </dev/null 2>&1 | tee "$scratch/proof.log" | while IFS= read -r line; do
            case "$line" in
                rt:* | 'so far:'*) tell "${line#rt: }" ;;
            esac
        done)
    [ -e "$repository/crates/$name/out/$made" ] || {
        tail -n 40 "$scratch/proof.log" >&2
        exit 1
    }
}

# A program in Rust with its library, built for the processors that rt builds for. Its SHA-1 is Debian's package of
# the crate sha1.
build_program() {
    local sources_of_it=$1 built=$2 library=$3 repository=$4
    local kit
    kit=$(dirname "$(rt doc)")
    rm -rf "$built/src"
    mkdir -p "$built/.cargo"
    cp -a "$sources_of_it/Cargo.toml" "$sources_of_it/src" "$built/"
    cat >"$built/.cargo/config.toml" <<CONFIG
[source.crates-io]
replace-with = "debian"

[source.debian]
directory = "$sources"

[build]
rustflags = [
    "-C", "target-cpu=x86-64-v2",
    "-L", "native=$repository/crates/$library/out",
    "-L", "native=$kit/c",
    "-l", "static=$library",
    "-l", "static=libc_c",
    "-l", "static=os_c",
]
CONFIG
    touch "$built/src/main.rs"
    tell "building the program in Rust"
    (cd "$built" && cargo build --quiet --release --offline)
}

build() {
    need "$sources/sha1-0.10.*" librust-sha1-dev
    copy_crates
    copy_kept measured
    prove_crate measured "$scratch" lib libmeasured.a
    build_program "$top/benchmarks/driver" "$scratch/driver" measured "$scratch"
}

# What was measured, and where.
describe_run() {
    local commit
    commit=$(git -C "$top" log -1 --format='%h of %cs')
    [ -z "$(git -C "$top" status --porcelain crates benchmarks)" ] || commit="$commit, with changes"
    echo "$commit, $(rt version), $(rustc --version)"
    lscpu | sed -n 's/^Model name: */processor: /p'
    echo "load: $(cut -d' ' -f1-3 /proc/loadavg), of $(nproc) processors"
}

# The programs that are measured, those whose counts take longest first, and the numbers of standing services.
programs=(proved vectors large map records)
counted_beside=(10 100 1000 10000 100000)

# Counts the instructions of each section of a program's run, beside so many standing services. Without
# `rep movsb`, of which valgrind counts each byte. Further options for callgrind stand in `callgrind_options`.
callgrind_options=()

count_sections() {
    local program=$1 counts=$2/counts-$1
    shift 2
    tell "counting instructions: $program${1:+, beside $*}"
    rm -rf "$counts"
    mkdir -p "$counts"
    GLIBC_TUNABLES=glibc.cpu.x86_rep_movsb_threshold=2000000000 \
        valgrind --tool=callgrind --compress-strings=no "${callgrind_options[@]}" --dump-before='clock_gettime*' \
        --callgrind-out-file="$counts/out" \
        "$driver" sections "$program" "$@" >"$counts/sections" 2>"$counts/log" || {
        tail -n 20 "$counts/log" >&2
        return 1
    }
    tell "counted: $program"
}

# Counts those of some programs side by side, which changes no count.
count_programs() {
    local folder=$1 numbers=$2 running=() one
    shift 2
    need valgrind valgrind
    for one in "$@"; do
        # shellcheck disable=SC2086
        count_sections "$one" "$folder" $numbers &
        running+=($!)
    done
    for one in "${running[@]}"; do
        wait "$one"
    done
}
