# How the launcher proves and builds the program. Sourced by osgi.
#
# It says on standard error how far it has come. A signal, or a standard error that nobody reads any more, ends what
# it started, and the lock ends with the launcher.
# shellcheck shell=bash disable=SC2034,SC2154

log=$here/out/osgi.log
beat=60   # seconds between two reports
usual=150 # seconds for a crate of which the gate's table has no figure

# Has the program found, or else built.
need_program() {
    find_program
    [[ -z $program ]] || return 0
    begin_build
    find_program # another launcher may have built it meanwhile
    [[ -n $program ]] || build
    exec {lock}>&-
}

# Proves and builds the program, and compares it with the shipped one.
verify() {
    begin_build
    [[ -f $shipped && -f $shipped.txt ]] || stop 'there is no program in dist/ to compare with'
    [[ $(said "$shipped" sources) == "$(digest_sources)" ]] ||
        stop 'the sources are not those that the program of dist/ was proved from: there is nothing to compare'
    is_of_toolchain "$shipped" || say 'dist/ has a program of another kit, linker or C library: the bytes may differ'
    build
    if cmp -s -- "$shipped" "$program"; then
        say "the program of dist/ is the one that was built here, byte for byte: SHA-256 $(digest_of "$program")"
    else
        say "the program of dist/ is not the one that was built here, $program"
        exit 1
    fi
}

# Takes the lock, which one builder has at a time. `why` says why there has to be a build.
begin_build() {
    [[ " ${closed[*]-} " != *' 2 '* ]] || exit 70
    command -v rt >/dev/null ||
        stop "$why, so it has to be proved and built; and rt, which proves and builds it, is not on the PATH"
    need_to_build
    { mkdir -p -- "$here/out" && : >>"$own.lock"; } 2>/dev/null ||
        stop "$why, so it has to be proved and built; and $here/out cannot be written"
    read_crates
    exec {lock}>>"$own.lock"
    flock -n "$lock" || wait_for_lock
}

# Stops where a command that a build takes is not there, or where `find` is not GNU's.
need_to_build() {
    need "${to_digest[@]}" flock cat cmp cp mv rm mkdir chmod grep head tail sleep uname
    find -L "$here" -maxdepth 0 -printf '' 2>/dev/null || stop 'a build needs the GNU find: this one has no -printf'
}

wait_for_lock() {
    local status
    say 'waiting for another build'
    child=starting
    flock "$lock" </dev/null &
    await $!
    [[ $status -eq 0 ]] || stop "$own.lock cannot be locked"
}

# Proves the crates from the lowest to the program, and keeps what the last one gives, with its record.
build() {
    local list digest built=$here/crates/$main/out/$main
    list=$(list_sources)
    digest=$(digest_sources)
    say "$why, so it is proved and built now; the log is $log"
    say 'Ctrl-C ends that safely: what is proved by then is kept'
    : >"$log"
    prove_all
    [[ $list == "$(list_sources)" ]] || stop 'a source changed while the program was built: start again'
    record "$built" ./osgi "$digest" >"$own.record"
    install_program "$built" "$own.record" "$own"
    rm -f -- "$own.record"
    program=$own
}

prove_all() {
    local crate number=0 began spent=0 status ticker
    local -A figures=()
    local proved=0 left=0
    read_figures
    child_end=TERM
    start_ticker
    for crate in "${crates[@]}"; do
        number=$((number + 1))
        began=$SECONDS
        report || end_by closed
        prove "$crate"
        [[ $status -eq 0 ]] || stop_unproved "$crate"
        spent=$((spent + SECONDS - began))
        proved=$((proved + figures[$crate]))
        left=$((left - figures[$crate]))
    done
    kill "$ticker" 2>/dev/null || true
    trap : USR1
    child_end=''
}

# Proves and builds one crate, and sets `status`. `rt run` ends with the program's own, which on an empty script is 0.
prove() {
    local words=(lib)
    [[ $1 != "$main" ]] || words=(run -- run)
    child=starting
    (cd -- "$here/crates/$1" && exec rt "${words[@]}") </dev/null >>"$log" 2>&1 {lock}>&- &
    await $!
}

stop_unproved() {
    kill "$ticker" 2>/dev/null || true
    # without the counts, the indented details and what was proved
    { grep -v -e '^ ' -e 'modules loaded=' -e ': proved$' "$log" | tail -n 20 >&2; } || true
    stop "$1 was not built: $log says why, and its last lines stand above"
}

# Has this script report now and then, as long as it lives.
start_ticker() {
    trap 'signals=$((signals + 1)); report || pass_on closed' USR1
    (
        trap 'kill "$!"; exit' TERM
        while sleep "$beat" & wait "$!" && kill -s USR1 "$$"; do
            :
        done
    ) </dev/null >/dev/null 2>&1 {lock}>&- &
    ticker=$!
}

# Sets `figures` to the seconds that each crate took at the gate, and `left` to their sum.
read_figures() {
    local line crate
    while read -r line; do
        if [[ $line =~ ^\|\ \`([a-z0-9_]+)\`\ \|\ ([0-9]+)\ \| ]]; then
            figures[${BASH_REMATCH[1]}]=${BASH_REMATCH[2]}
        fi
    done < <(cat "$here/docs/GATE_FIGURES.md" 2>/dev/null)
    for crate in "${crates[@]}"; do
        figures[$crate]=${figures[$crate]-$usual}
        left=$((left + figures[$crate]))
    done
}

# Says which crate is proved, the time so far, and what is expected: the gate's figures for the rest, times what was
# taken here for each second of the figures. As long as little is done, they count as if ten minutes had taken just
# that.
report() {
    local this=$((SECONDS - began)) rest
    rest=$((left * (spent + 600) / (proved + 600) - this))
    [[ $rest -ge 0 ]] || rest=0
    this=$(((spent + this) / 60))
    rest=$((rest / 60 + 1))
    say_progress "proving $crate ($number of ${#crates[@]}): $this min so far, about $rest min to go"
}
