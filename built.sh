# What ./list and ./listing share: the program of a crate, proved and built where that is not done, and run; and what README.md says of a
# refusal. The script that reads this file has set `here`, the project's folder, `me`, its own name, and `what`, the program in a sentence.
# shellcheck shell=sh disable=SC2154

say() { printf '%s: %s\n' "$me" "$*" >&2; }

# Ends with a status and a sentence that says why.
stop() {
    status=$1
    shift
    say "$*"
    exit "$status"
}

# A descriptor that is closed would be taken by the next file that is opened.
(: 3>&2) || exec 2>/dev/null
(: 3>&1) 2>/dev/null || stop 2 "standard output is closed."
input=open
(: 3<&0) 2>/dev/null || { input=closed && exec </dev/null; }

# Whether a file, or standard input, can be read: `readable FILE "a hive"`.
readable() {
    if [ "$1" = - ]; then
        [ "$input" = open ] || stop 2 "standard input is closed."
    elif [ -d "$1" ]; then
        stop 2 "$1 is a folder, and $2 is a file."
    elif [ ! -e "$1" ]; then
        stop 2 "no such file: $1"
    elif [ ! -r "$1" ]; then
        stop 2 "$1 may not be read by this user."
    fi
}

# A file's name in a sentence.
named() { if [ "$1" = - ]; then printf 'standard input'; else printf '%s' "$1"; fi; }

# The lines of crates.txt for the program's crate and what that stands on.
needed() {
    awk -v program="$crate" '
        { sub(/#.*/, ""); i = index($0, ":"); if (i) { n = substr($0, 1, i - 1); gsub(/[ \t]/, "", n); on[n] = substr($0, i + 1) } }
        function visit(n, a, k, m) {
            if (!(n in on) || seen[n]++) return
            print n ":" on[n]
            m = split(on[n], a, " ")
            for (k = 1; k <= m; k++) visit(a[k])
        }
        END { visit(program) }' "$here/crates.txt"
}

# The sum of all that the program is made from: toolchain, crates.txt, and each file of its crate and of what that stands on, but for what
# the toolchain itself puts there.
sum_of_sources() (
    cd "$here" || exit 1
    {
        printf '%s\n' "$kit" "$machine"
        cat crates.txt
        needed | cut -d: -f 1 | while read -r each; do find -L "crates/$each" -name out -prune -o -type f -exec sha256sum {} +; done | sort
    } | sha256sum | cut -c 1-32
)

# The sources once more, in a temporary folder outside the project, where the toolchain proves and builds them: it writes beside them, and
# the gate takes no sources below target/.
copy_sources() {
    copy=$(mktemp -d "${TMPDIR:-/tmp}/$me.XXXXXX" 2>/dev/null) || return 1
    mkdir "$copy/crates" && needed >"$copy/crates.txt" || return 1
    for each in $(needed | cut -d: -f 1); do
        mkdir "$copy/crates/$each" || return 1
        for part in src specs proofs; do
            if [ -d "$here/crates/$each/$part" ]; then cp -R "$here/crates/$each/$part" "$copy/crates/$each/" || return 1; fi
        done
    done
}

unwritable() {
    stop 2 "$what is not built from these sources, and this user cannot write $here/target to build it." \
        "Let the owner of that folder run ./$me once, or make a copy of your own."
}

# One call proves at a time: by flock, which the system lets go when the call ends, or else by a link that names the process.
waiting() { say "another call is proving; this one waits for it."; }
alive() { kill -0 "$1" 2>/dev/null || [ -d "/proc/$1" ]; }
held=
take_lock() {
    if command -v flock >/dev/null 2>&1; then
        (: >>"$lock.flock") 2>/dev/null || unwritable
        exec 9>>"$lock.flock"
        flock -n 9 || { waiting && flock 9; } || stop 2 "the lock $lock.flock cannot be had."
        return
    fi
    missed=0 told=
    until ln -s "$$" "$lock" 2>/dev/null; do
        if owner=$(readlink "$lock"); then
            missed=0
            if ! alive "$owner" && ln -s "$$" "$lock.gone" 2>/dev/null; then
                [ "$(readlink "$lock")" != "$owner" ] || rm -f "$lock"
                rm -f "$lock.gone"
                continue
            fi
            [ -n "$told" ] || waiting
            told=yes
        else
            missed=$((missed + 1))
            [ "$missed" -lt 10 ] || unwritable
        fi
        sleep 1
    done
    held=yes
}
drop_lock() {
    if [ -n "$held" ]; then rm -f "$lock"; fi
    held=
    exec 9>&-
}

prove() {
    mkdir -p "$work" 2>/dev/null || unwritable
    for folder in "$here/target" "$here"/target/*; do
        if [ -d "$folder" ] && [ ! -w "$folder" ]; then unwritable; fi
    done
    take_lock
    if [ -r "$program" ]; then return; fi
    (: >"$work/log") 2>/dev/null || unwritable
    (echo >"$work/log") 2>/dev/null || stop 2 "nothing can be written to $here/target. Is the disk full?"
    say "proving and building $what, which takes a minute or two the first time."
    copy_sources || stop 2 "the sources cannot be copied to a temporary folder. Is the disk full?"
    # Built, the program runs once, on no input. Before that 1 and 3 say that it is not proved.
    (cd "$copy/crates/$crate" && rt run) </dev/null >"$work/log" 2>&1
    status=$?
    if [ "$status" -ne 0 ]; then
        verdict=2 why="the toolchain failed with status $status."
        case $status in
        1 | 3) if ! grep -q '^rt: running' "$work/log"; then verdict=1 why="$what is not proved."; fi ;;
        esac
        say "$why The last lines of target/list/log:"
        tail -n 5 "$work/log" >&2
        exit "$verdict"
    fi
    [ "$(sum_of_sources)" = "$sum" ] || stop 2 "the sources changed while they were proved. Run ./$me again."
    new=$work/new.$$
    if ! { cp "$copy/crates/$crate/out/$crate" "$new" && chmod 755 "$new" && rm -f "$work/$crate"-* && mv "$new" "$program"; }; then
        stop 2 "the program cannot be put into target/list. Is the disk full?"
    fi
}

new='' scratch='' copy=''
clean() {
    if [ -n "$copy" ]; then rm -rf "$copy"; fi
    for each in "$new" "$scratch"; do
        if [ -n "$each" ]; then rm -f "$each"; fi
    done
    drop_lock
}

# Makes the program of `crate` ready to run. What is built stands in target/list under the sum of its sources: where it is there, it is
# current.
build() {
    command -v rt >/dev/null 2>&1 ||
        stop 2 "the Rattle toolchain is missing: its command 'rt' is not on the PATH. It proves and builds $what."
    if ! kit=$(rt version </dev/null 2>/dev/null) || ! guide=$(rt doc </dev/null 2>/dev/null); then
        stop 2 "the Rattle toolchain does not work: 'rt version' or 'rt doc' fails."
    fi
    machine=$(uname -m)
    [ "$machine" = x86_64 ] || stop 2 "the program is for x86-64, and this machine is another."
    work=$here/target/list
    lock=$work/lock
    sum=$(sum_of_sources)
    [ -n "$sum" ] || stop 2 "the sources cannot be summed: is sha256sum missing?"
    program=$work/$crate-$sum
    trap clean EXIT
    trap 'exit 129' HUP
    trap 'exit 130' INT
    trap 'exit 143' TERM
    if [ ! -r "$program" ]; then prove; fi
    drop_lock
    tools=$(dirname "$guide")/toolchain
    loader=$tools/lib/ld-linux-x86-64.so.2
}

# Runs the program with these arguments.
run() {
    set -- "$program" "$@"
    if [ -f "$loader" ]; then set -- "$loader" --library-path "$tools/lib" "$@"; fi
    "$@"
}

# The number of entries dropped, which have no line, where it is not 0: `tell_dropped NUMBER "the root's"`.
tell_dropped() {
    [ "${1:-0}" = 0 ] || say "the list is not whole. Entries of $2 subkey lists that lead past 4,294,967,295 and are dropped:" \
        "$1. The copy is damaged: fetch it again."
}

# What README's table of refusals says of a number.
explain() {
    row=$(tr -d '\140' <"$here/README.md" | awk -F ' *[|] *' -v n="$1" -v me="$me" '
        $2 == n && NF == 6 { print me ": " $2 " is " $3 ": " $4 "."; print me ": " $5; exit }')
    printf '%s\n' "${row:-$me: README.md, \"Refusals\", says what $1 means.}" >&2
}
