# Building, for scripts/program and examples/run-*: to be sourced, with the repository's folder in `top` and the command's name in `name`.
# One build runs in a folder at a time. A mark in target/built, left by a build that ended well, tells whether a source is newer.

say() { printf '%s: %s\n' "$name" "$*" >&2; }

# Status 3: the command could not be run at all.
fail() {
    say "$@"
    exit 3
}

# Whether the mark $1 is missing or older than a source. Folders count too, so a file that is gone is seen.
stale() {
    [ ! -e "$1" ] || [ -n "$(find "$top/crates.txt" "$top"/crates/*/{src,specs,proofs} -newer "$1" -print -quit 2> /dev/null)" ]
}

# Begins a build: waits for another one, removes what a broken-off one left, and makes `scratch`, a folder for temporary files.
# Programs are tried as the user nobody, so it stands where temporary files do and may be passed through.
begin_build() {
    command -v rt > /dev/null || fail "rt, the command of the Rattle kit, is not on the PATH, and without it nothing can be built"
    { mkdir -p "$top/target/built" && [ -w "$top/target/built" ]; } 2> /dev/null || fail "cannot write below $top/target, where what is built goes"
    exec {lock}< "$top"
    flock -n "$lock" || { say "another build is running here; waiting for it"; flock "$lock"; }
    local left
    left=$(cat "$top/target/built/.scratch" 2> /dev/null || :)
    case $left in */bastersepia.??????) rm -rf -- "$left" ;; esac
    touch "$top/target/built/.begun" 2> /dev/null || fail "cannot write below $top/target, where what is built goes"
    scratch=$(mktemp -d "${TMPDIR:-/tmp}/bastersepia.XXXXXX") || fail "cannot make a folder for temporary files in ${TMPDIR:-/tmp}"
    trap 'rm -rf -- "$scratch"' EXIT
    chmod 711 "$scratch"
    printf '%s\n' "$scratch" > "$top/target/built/.scratch"
}

# Ends a build that went well, with the mark $1, whose time is that of the beginning.
end_build() {
    mv -- "$top/target/built/.begun" "$1"
    rm -rf -- "$scratch" "$top/target/built/.scratch"
    trap - EXIT
    exec {lock}<&-
}

# How many crates of this repository the crate $1 is proved with, itself included.
crate_count() {
    awk -v wanted="$1" '
        function visit(crate,    list, i, n) {
            if (!(crate in needs) || crate in seen) return
            seen[crate] = 1
            count++
            n = split(needs[crate], list, " ")
            for (i = 1; i <= n; i++) visit(list[i])
        }
        { sub(/#.*/, ""); at = index($0, ":") }
        at { split(substr($0, 1, at - 1), words, " "); needs[words[1]] = substr($0, at + 1) }
        END { visit(wanted); print count }' "$top/crates.txt"
}

# Shows how far a run of rt has come: each crate as it is proved, of $1.
show_progress() {
    local line crate='' count=0
    while IFS= read -r line; do
        printf '%s\n' "$line"
        case $line in
        'crate '*': modules '*)
            crate=${line#crate }
            crate=${crate%%:*}
            ;;
        'logic=proved'*)
            count=$((count + 1))
            say "$count of $1: $crate proved"
            ;;
        esac
    done
}

# Runs rt $1 in the crate $2, with its output in target/built/$2.log.
run_rt() {
    local log=$top/target/built/$2.log
    (cd "$top/crates/$2" && TMPDIR=$scratch exec rt "$1" 2>&1 < /dev/null) | show_progress "$(crate_count "$2")" > "$log"
    [ "${PIPESTATUS[0]}" -eq 0 ] && return
    tail -n 20 "$log" >&2
    fail "rt $1 in crates/$2 failed; all that it said is in $log"
}

# Builds the static library, `library`, where that was not done yet or a source is newer.
build_library() {
    library=$top/target/staticlib/libsepia.a
    local mark=$top/target/built/libsepia
    if stale "$mark" || [ ! -e "$library" ]; then
        begin_build
        if stale "$mark" || [ ! -e "$library" ]; then
            say "building the library: $(crate_count sepia) crates are proved, which takes minutes the first time"
            run_rt lib sepia
            mkdir -p "$top/target/staticlib"
            cp -- "$top/crates/sepia/out/libsepia.a" "$library"
        fi
        end_build "$mark"
    fi
    mkdir -p "$top/target/examples"
}

# Whether $1, an example, is missing or older than the library or one of its own sources, the other arguments.
changed() { [ ! -x "$1" ] || [ -n "$(find "$library" "${@:2}" -newer "$1" -print -quit)" ]; }
