# Sourced by the scripts that start a program, with `top` the folder of the repository and `name` the program's. It makes
#   fail STATUS WORDS   one line on standard error, and the end
#   say TEXT            on standard output, or the end where that cannot be written
#   say_usage TEXT      a usage text, and the end
#   need_input          fails where standard input is closed
#   ready               proves and builds the program where its sources are newer than it
#   start [WORDS]       becomes it
#   answer [WORDS]      runs it
#   feed SED-SCRIPT     gives standard input, changed, to the script's own `answers`

# What a build from nothing took. It is said here, and in README.md.
minutes="about 5 to 7 minutes on two cores with an older kit"

fail() {
    status=$1
    shift
    printf '%s: %s\n' "$name" "$*" >&2
    exit "$status"
}

# A closed stream is opened as nothing: else the next file that is opened would take its place, and the shell would complain in its own words.
(exec 3>&2) || exec 2>/dev/null
(exec 3>&1) 2>/dev/null || fail 1 "the output cannot be written"
input=open
(exec 3<&0) 2>/dev/null || { input=closed; exec </dev/null; }

need_input() { [ "$input" = open ] || fail 1 "the input cannot be read"; }

say() { printf '%s\n' "$1" 2>/dev/null || fail 1 "the output cannot be written"; }

say_usage() {
    say "$1"
    exit 0
}

ready() {
    program=$top/target/bin/$name
    if [ ! -x "$program" ]; then
        build "is not built"
    elif [ -n "$(cd "$top" && find crates crates.txt -path 'crates/*/out' -prune -o -type f -newer "$program" -print -quit 2>/dev/null)" ]; then
        build "is older than its sources"
    fi
}

# rt proves the crates that the program sees, in the order of its line in crates.txt, builds it as crates/NAME/out/NAME and runs it. Neither may read the texts
# on standard input, and rt is a session of its own, which ^C does not reach: it is ended with all that it began (`stop`). How the program that it runs ends says
# nothing: it has been built where rt says that it is running it.
build() { # WHY
    command -v rt >/dev/null || fail 1 "the program $1, and rt, which builds it, is not on the path"
    began=$top/target/$name.began said=$top/target/$name.said
    { mkdir -p "$top/target/bin" && (: >"$began" && : >"$said"); } 2>/dev/null || fail 1 "the program $1, and $top/target cannot be written"
    list='' crates=0
    for crate in $(sed -n "s/^$name: *//p" "$top/crates.txt") "$name"; do
        [ ! -d "$top/crates/$crate" ] || list="$list $crate" crates=$((crates + 1)) # the others are the kit's
    done
    printf '%s: the program %s: proving %d crates and building it (from nothing %s)\n' "$name" "$1" "$crates" "$minutes" >&2
    (cd "$top/crates/$name" && exec $(command -v setsid) rt run) </dev/null >"$said" 2>&1 &
    builder=$!
    trap 'stop 129' HUP
    trap 'stop 130' INT
    trap 'stop 131' QUIT
    trap 'stop 143' TERM
    seen=' '
    while kill -0 "$builder" 2>/dev/null; do
        sleep 1
        tell_started
    done
    wait "$builder"
    trap - HUP INT QUIT TERM
    if ! grep -q "^rt: running out/$name;" "$said"; then
        grep -v -e '^statements ' -e '^library ' "$said" | tail -n 20 >&2 # without what rt has read of other crates
        fail 1 "the program could not be built; $said has all that rt said"
    fi
    { cp "$top/crates/$name/out/$name" "$program.$$" && touch -r "$began" "$program.$$" && mv -f "$program.$$" "$program"; } 2>/dev/null || {
        rm -f "$program.$$"
        fail 1 "the program is built, and $program cannot be written"
    }
}

# A line for each crate of which rt has spoken since the last look, with its place in the program's line of crates.txt. What has not changed is not proved
# again, and rt does not speak of it.
tell_started() {
    spoken=" $(sed -n 's/^rt: chose --jobs [0-9]* for \([a-z0-9_]*\)$/\1/p; s/^[a-z]* \([a-z0-9_]*\)::.*: proved.*/\1/p' "$said" | sort -u | tr '\n' ' ')"
    number=0
    for crate in $list; do
        number=$((number + 1))
        case $seen in *" $crate "*) continue ;; esac
        case $spoken in *" $crate "*) ;; *) continue ;; esac
        seen="$seen$crate "
        printf '%s: proving %d of %d: %s\n' "$name" "$number" "$crates" "$crate" >&2
    done
}

stop() { # STATUS
    trap '' HUP INT QUIT TERM
    kill -- "-$builder" 2>/dev/null || kill "$builder" 2>/dev/null
    wait "$builder" 2>/dev/null
    fail "$1" "stopped; what is proved so far need not be proved again"
}

# In the place of the shell that calls this.
start() { exec "$program" "$@"; }

# What the program says of a failure is all that it can say: it has no exit status of its own. One above 128 is a signal's.
answer() {
    { said=$(start "$@" 2>&1 >&3); } 3>&1
    status=$?
    [ -z "$said" ] && [ "$status" -eq 0 ] && return
    [ -z "$said" ] || printf '%s\n' "$said" >&2
    [ "$status" -gt 128 ] || status=1
    exit "$status"
}

# The lines of standard input, changed by sed, to `answers` of the script that calls this. sed says nothing itself: where the program has ended before it,
# that is told.
feed() { # SED-SCRIPT
    at_once=
    [ ! -t 0 ] || at_once=-u
    { cut=$({ { LC_ALL=C sed $at_once "$1" 2>/dev/null || echo cut >&4; } | answers >&5; } 4>&1); } 5>&1
    status=$?
    [ "$status" -eq 0 ] || exit "$status"
    [ -z "$cut" ] || fail 1 "the input cannot be read"
}
