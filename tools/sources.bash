# Which sources the program is proved from, their digest, and the record of a program. Sourced by osgi, tools/ship,
# .ci/run and tests/check.
#
# Who sources it has set `here`, the top of the repository, and has a function `stop` that says a text and ends the
# script.
# shellcheck shell=bash disable=SC2034,SC2154

main=osgi_main                  # the crate whose `main` is the program's
own=$here/out/osgi_program      # the program that ./osgi runs: it was built here, or is a copy of the shipped one
shipped=$here/dist/osgi_program # the program that the repository holds
crates=()
facts='%C@ %T@ %s %i %p\n'
to_digest=(find sort xargs sha256sum cut) # the commands that digests take

# Sets `crates` to the program's crates, each after those that it stands on: in crates.txt a line `NAME: DEP DEP ..`
# names what a crate stands on, words such as `may_wait=1` may follow the name, and a crate without a line is the
# kit's.
read_crates() {
    local line name
    local -A stands_on=() seen=()
    while IFS= read -r line || [[ $line ]]; do
        line=${line%%#*}
        [[ $line == *:* ]] || continue
        read -r name _ <<<"${line%%:*}"
        stands_on[$name]=${line#*:}
    done <"$here/crates.txt"
    [[ -v stands_on[$main] ]] || stop "crates.txt has no line for $main"
    crates=()
    visit "$main"
}

visit() {
    local below
    [[ -v stands_on[$1] && ! -v seen[$1] ]] || return 0
    seen[$1]=1
    for below in ${stands_on[$1]}; do
        visit "$below"
    done
    crates+=("$1")
}

# Finds the sources, by their paths from the top, and does with each what the words say, which are actions of `find`.
find_sources() {
    local crate part roots=(crates.txt)
    cd -- "$here" || return
    [[ ! -e HANDLES ]] || roots+=(HANDLES)
    for crate in "${crates[@]}"; do
        for part in src specs proofs; do
            [[ ! -d crates/$crate/$part ]] || roots+=("crates/$crate/$part")
        done
    done
    find -L "${roots[@]}" ! -type d "$@"
}

# Prints when each source changed last, by the system's time and by its own, its size, its inode number and its path.
# Where two such lists are equal, no source has changed between them.
list_sources() (
    find_sources -printf "$facts"
)

# The same of other files.
list_files() {
    find -L "$@" -maxdepth 0 -printf "$facts"
}

digest_of() {
    local digest
    digest=$(sha256sum -- "$1")
    digest=${digest#\\} # where the path has a backslash
    echo "${digest%% *}"
}

# Prints the digest of the sources, by their paths and contents alone.
digest_sources() (
    cd -- "$here" || exit
    find_sources -print0 | LC_ALL=C sort -z | xargs -0 sha256sum -- | sha256sum | cut -d ' ' -f 1
)

# ---- records

# Prints what the record of a program says under a word: nothing, where it does not say it or there is none.
said() {
    local word text
    [[ -f $1.txt ]] || return 0
    while IFS= read -r text; do
        word=${text%%: *}
        [[ $word != "$2" ]] || echo "${text#*: }"
    done <"$1.txt"
}

# Whether the program is there, and is the one that its record is of.
is_whole() {
    [[ -f $1 && -f $1.txt && $(digest_of "$1") == "$(said "$1" program)" ]]
}

# Whether a program can be run, is whole, and was proved from sources of this digest.
is_proved_from() {
    [[ -x $1 && $(said "$1" sources) == "$2" ]] && is_whole "$1"
}

first_line() {
    local line
    line=$("$@" 2>/dev/null | head -n 1) || true
    echo "${line:-unknown}"
}

# Prints the lines of a record that say what made the program: the kit, and the linker and the C library that it
# brings, or else the system's.
toolchain() {
    local kit linker=ld library
    kit=$(dirname -- "$(dirname -- "$(readlink -f -- "$(command -v rt)")")")
    [[ ! -x $kit/toolchain/bin/ld.lld ]] || linker=$kit/toolchain/bin/ld.lld
    library=$(grep -aoEm 1 'GNU C Library [ -~]*' "$kit/toolchain/lib/libc.so.6" 2>/dev/null) ||
        library=$(first_line ldd --version)
    echo "kit: $(first_line rt version)"
    echo "linker: $(first_line "$linker" --version)"
    echo "c-library: $library"
}

# Whether a program was made by what stands here.
is_of_toolchain() {
    [[ $(grep -E '^(kit|linker|c-library): ' "$1.txt") == "$(toolchain)" ]]
}

# Prints the record of a program: who built it, and the digest of the sources that it was proved from, follow its
# path.
record() {
    cat <<END
# What the program beside this file is, and what it was proved from. ./osgi runs it where the digests of both agree
# with the checkout, and ./osgi --verify proves and builds it again and compares.
#
# sources: the SHA-256 of what sha256sum prints of crates.txt, HANDLES, and all files in src, specs and proofs of the
#     crates that osgi_main stands on by crates.txt, in the order of the bytes of their paths
# program: the SHA-256 of the program
# kit, linker, c-library: what rt version prints, and what the linker and the C library that made it say of themselves
system: $(uname -m) $(uname -s)
by: $2
sources: $3
program: $(digest_of "$1")
$(toolchain)
END
}

# Puts a program and its record in the place of others, each at once, if the command that a fourth word names says of
# the program, by its path, that it will do.
install_program() {
    local from=$1 record=$2 to=$3 will_do=${4:-true}
    mkdir -p -- "$(dirname -- "$to")" || return
    if cp -- "$from" "$to.$$" && cp -- "$record" "$to.txt.$$" && chmod 755 "$to.$$" && chmod 644 "$to.txt.$$" &&
        "$will_do" "$to.$$"; then
        mv -f -- "$to.$$" "$to" && mv -f -- "$to.txt.$$" "$to.txt"
    else
        rm -f -- "$to.$$" "$to.txt.$$"
        return 1
    fi
}
