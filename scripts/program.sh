# What the programs' wrappers (./gateday, ./readlisting) share; they source it. A wrapper has set `top`, the repository's folder, and `name`,
# its own name, and has a function `usage`. Status 2 is wrong usage, 1 any other failure; both say why on standard error.
# shellcheck shell=bash disable=SC2154

complain() { printf '%s: %s\n' "$name" "$*" >&2; }

die() {
    complain "$*"
    exit 1
}

wrong_usage() { # WHAT-IS-WRONG
    complain "$*"
    usage | sed '/^$/,$d' >&2
    exit 2
}

# ---- input

# What is no file at all is wrong usage.
want_file() { # FILE
    [ -e "$1" ] || wrong_usage "there is no file ${1@Q}"
    [ ! -d "$1" ] || wrong_usage "${1@Q} is a directory"
}

# Makes FILE standard input, where one is given. What could only be read as an empty input is wrong usage: the programs take a failing read
# for the input's end.
take_input() { # [FILE]
    [ $# -le 1 ] || wrong_usage "$# arguments where one file is due"
    if [ $# -eq 1 ]; then
        case $1 in -*) wrong_usage "there is no option ${1@Q} (a file of that name is ./$1)" ;; esac
        want_file "$1"
        { exec < "$1"; } 2> /dev/null || wrong_usage "${1@Q} can't be read"
    fi
    { : 9<&0; } 2> /dev/null || wrong_usage "standard input is closed"
    [ ! -t 0 ] || wrong_usage "the input is a terminal: name a file, or redirect one to standard input"
    [ ! -d /dev/fd/0 ] || wrong_usage "standard input is a directory"
}

# ---- building

# The crates of the repository that the programs are made of, themselves included, by crates.txt. A library of the kit would have no line there, and be
# left out.
crates_of() { # NAME...
    awk -v wanted="$*" '
        { sub(/#.*/, ""); i = index($0, ":") }
        i { crate = $1; sub(/:.*/, "", crate); needs[crate] = substr($0, i + 1) }
        END {
            n = split(wanted, list, " ")
            for (k = 1; k <= n; k++) {
                if (!(list[k] in needs) || (list[k] in seen)) continue
                seen[list[k]] = 1
                print list[k]
                m = split(needs[list[k]], more, " ")
                for (j = 1; j <= m; j++) list[++n] = more[j]
            }
        }' "$top/crates.txt"
}

# Why the program has to be built, in words; nothing where it has not. Folders count as well, since a file that was removed leaves no other trace.
why_build() { # NAME
    local program=$top/target/bin/$1 crate part parts=("$top/crates.txt") newer
    if [ ! -f "$program" ] || [ ! -x "$program" ]; then
        echo "there is no program target/bin/$1 yet"
        return
    fi
    if [ -e "$top/target/log/$1-build.began" ]; then
        echo "the last build of target/bin/$1 failed or was stopped"
        return
    fi
    for crate in $(crates_of "$1"); do
        for part in src specs proofs; do
            [ ! -d "$top/crates/$crate/$part" ] || parts+=("$top/crates/$crate/$part")
        done
    done
    newer=$(find -L "${parts[@]}" -newer "$program" -print -quit)
    [ -z "$newer" ] || echo "${newer#"$top"/} is newer than target/bin/$1"
}

# Sets `stale` to those of the programs that have to be built, and `reason` to why, for the first of them.
look_for_stale() { # NAME...
    local program why
    stale=() reason=''
    for program in "$@"; do
        why=$(why_build "$program")
        [ -n "$why" ] || continue
        stale+=("$program")
        reason=${reason:-$why}
    done
}

# Proves and builds those of the programs that need it, one wrapper at a time; does not return where that fails. rt inherits the lock, so
# that it is held as long as rt runs, even where the wrapper was killed.
build() { # NAME...
    local lock
    look_for_stale "$@"
    [ "${#stale[@]}" -ne 0 ] || return 0
    command -v rt > /dev/null || die "$reason, and rt, which proves and builds it, is not in PATH: it is a command of the Rattle kit"
    mkdir -p "$top/target/log" || die "there is no place to build in"
    { exec {lock}> "$top/target/log/build.lock"; } 2> /dev/null || die "target/log/build.lock can't be written"
    if ! flock -n "$lock"; then
        complain "another build is under way: waiting for its end"
        flock "$lock" || die "target/log/build.lock can't be locked"
        look_for_stale "$@"
    fi
    [ "${#stale[@]}" -eq 0 ] || prove "${stale[@]}"
    exec {lock}>&-
}

# One scripts/build. A file PROGRAM-build.began is there from its start until it has ended well: rt may have linked a program whose run failed, or
# been stopped. Afterwards the programs bear the time at which the build began: a file that was edited meanwhile is newer, and a program that rt
# found unchanged is not looked at again.
prove() { # NAME...
    local log=target/log/$name-build.log program status
    complain "$reason"
    complain "proving once, tens of minutes and up to 4 GB (less where little has changed); the prover's words: $log"
    for program in "$@"; do
        : > "$top/target/log/$program-build.began" || die "target/log can't be written"
    done
    "$top/scripts/build" "$@" < /dev/null 2>&1 | tee "$top/$log" | show_progress "$(crates_of "$@" | wc -l)"
    status=${PIPESTATUS[0]}
    for program in "$@"; do
        if [ "$status" -ne 0 ] || [ ! -x "$top/target/bin/$program" ]; then not_built "$log" "$@"; fi
        touch -r "$top/target/log/$program-build.began" "$top/target/bin/$program" && rm "$top/target/log/$program-build.began"
    done
}

not_built() { # LOG NAME...
    tail -n 20 "$top/$1" >&2
    die "scripts/build ${*:2} failed, so nothing was run; all of the prover's words are in $top/$1"
}

# Counts the crates that rt proves: one line, written over, on a terminal; else a line for each. Of a crate that was proved before rt says nothing, so
# the count may end below their number.
show_progress() { # HOW-MANY-CRATES
    local line proved=0 form='%s: %d of %d crates proved\n' ended=''
    [ ! -t 2 ] || form='\r%s: %d of %d crates proved' ended='\n'
    while IFS= read -r line || [ -n "$line" ]; do
        # the last line of a crate's check: 'logic=proved functions=6 ..'
        [[ $line =~ ^logic=proved\  ]] || continue
        proved=$((proved + 1))
        # shellcheck disable=SC2059
        printf "$form" "$name" "$proved" "$1" >&2
    done
    # shellcheck disable=SC2059
    [ "$proved" -eq 0 ] || printf "$ended" >&2
}

# ---- running

# Standard input through the program, with its arguments, to standard output. The two cats tell by their status whether all was read and all was written:
# the program sees only the pipes between; they pass on what they get as they get it, so that an answer comes before the next line is written.
filter() { # NAME [ARGUMENT...]
    cat | "$top/target/bin/$1" "${@:2}" | cat
    judge "${PIPESTATUS[@]}"
}

# What the statuses of reader, program and writer come to. Whoever closes the output early ends all three, the writer first: then the status is
# 141, that of a filter that a broken pipe ended (128 + SIGPIPE), and nothing is said. Where SIGPIPE is ignored it is 1, with a message.
judge() { # READER PROGRAM WRITER
    [ "$3" -ne 141 ] || exit 141
    [ "$3" -eq 0 ] || die "the output could not be written in full"
    [ "$2" -eq 0 ] || die "the program ended with status $2"
    [ "$1" -eq 0 ] || die "the input could not be read in full"
}
