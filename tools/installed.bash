# Which program an installed launcher runs: the one beside it, which tools/install put there. Sourced by osgi, in the
# place of the files that find or build the program of a checkout.
#
# Who sources it has set `here`, the folder of the launcher, and has a function `stop` that says a text and ends the
# script.
# shellcheck shell=bash disable=SC2034,SC2154

own=$here/osgi_program
shipped=$own

need_program() {
    [[ -x $own ]] || stop "the installed program is not there: $own"
    program=$own
}

begin_build() {
    stop 'this is an installed program: it is built, and compared, in a checkout'
}

verify() {
    begin_build
}
