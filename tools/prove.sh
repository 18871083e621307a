# prove.sh: taken in by a script (`. tools/prove.sh`) that has set `root` to the repository's folder and `me` to its own name.
# `prove NAME USUAL` proves and builds a crate if it isn't, or is older than its text. Standard error tells how far it is: one line that is
# rewritten on a terminal, one line a crate in a log. What `rt` prints goes to target/log/desk.build, and is shown only if something fails.
# USUAL says how long it takes from nothing, for the first time. A script that is ended by a signal calls `end_build`.
# shellcheck shell=sh disable=SC2046,SC2154
build=''

# Prints the crates of the repository that NAME is made of, NAME last.
made_of() { # NAME
    awk -v name="$1" '
        function visit(n,    used, i) {
            if (!(n in uses) || seen[n]++) return
            split(uses[n], used, " ")
            for (i = 1; i in used; i++) visit(used[i])
            print n
        }
        { sub(/#.*/, "") }
        index($0, ":") { n = $1; sub(/:.*/, "", n); uses[n] = substr($0, index($0, ":") + 1) }
        END { visit(name) }' "$root/crates.txt"
}

# A program's executable, or a static library's archive.
made_by() { # NAME
    if [ -f "$root/crates/$1/src/main.rt" ]; then echo "$root/crates/$1/out/$1"; else echo "$root/crates/$1/out/lib$1.a"; fi
}

# Whether NAME was proved and built here (`prove` then leaves a stamp), and no text that it is made of is newer.
is_built() { # NAME
    [ -f "$root/target/stamp/$1" ] && [ -f "$(made_by "$1")" ] || return 1
    newer=$(cd "$root" && find crates.txt $(made_of "$1" | sed 's,^,crates/,') -name out -prune -o -type f -newer "target/stamp/$1" \
        \( -name '*.rt' -o -name '*.antt' -o -name crates.txt \) -print 2>/dev/null) || return 1
    [ -z "$newer" ]
}

# ---- how far it is

seconds() { echo $(($(date +%s) - began)); }

# How long it takes: as long as the last time, of which target/log/NAME.last has the seconds and how many crates had to be proved.
expected() { # NAME USUAL
    if [ -f "$log/$1.last" ]; then
        read -r last_seconds last_crates <"$log/$1.last"
        echo "last time $last_seconds s for $last_crates"
    else
        echo "$2"
    fi
}

tell() { printf '%s: %s\n' "$me" "$1" >&2; }

# Rewrites the line of a terminal, cut to its width; it is blanked first.
move() {
    width=$(stty size <&2 2>/dev/null)
    width=${width#* }
    case $width in '' | 0 | *[!0-9]*) width=80 ;; esac
    printf "\\r%$((width - 1))s\\r%.$((width - 1))s" '' "$me: $1" >&2
}

# Looks at what rt has said so far. It takes the crates one after another, in the order of `crates`, names the one in hand, and ends it with
# a line `logic=proved`; of one that was built before it says nothing.
look() {
    set -- $(awk -v crates="$crates" '
        BEGIN { n = split(crates, name, " "); for (i = 1; i <= n; i++) place[name[i]] = i }
        /^rt: chose / { now = $NF }
        /^crate / { now = substr($2, 1, length($2) - 1) }
        now in place && ready < place[now] { ready = place[now] - 1 }
        now in place && /^logic=proved/ { ready = place[now]; ended = ended " " ready ":" now; now = "" }
        END { print ready + 0, (now in place ? now : "") ":" ended }' "$log/desk.build")
    ready=$1 now=${2%:}
    shift 2
    for crate do end_of "${crate%:*}" "${crate#*:}"; done
    [ "$moving" = no ] || move "$ready of $many done${now:+, now $now}; $(seconds) s, $hope"
}

# In a log, the line of a crate that has just ended; and how many were not built before.
end_of() { # PLACE NAME
    case " $told " in *" $2 "*) return ;; esac
    told="$told $2"
    its_time=$(($(seconds) - since)) since=$(seconds)
    anew=$((anew + 1))
    [ "$moving" = yes ] || tell "$1 of $many, $2, $its_time s ($since s so far)"
}

# ---- the build

# Ends a build that is under way, and the provers that it has started: they are a group of their own where there is `setsid`.
end_build() {
    [ -n "$build" ] || return 0
    kill -s TERM -- "-$build" 2>/dev/null || kill -s TERM "$build" 2>/dev/null
    wait "$build" 2>/dev/null
    [ "$moving" = no ] || echo >&2
    tell "stopped; what is proved so far stays proved"
    build=''
}

# What was said of the crate that failed, from its start, which says most.
show_failure() { # NAME
    awk '{ said = said $0 "\n" } /^logic=proved/ { said = "" } END { printf "%s", said }' "$log/desk.build" |
        grep -v -e ': proved$' -e ': modules loaded=' -e '^logic ' -e '^rt: chose ' -e '^rt: .*: begins with ' | head -n 30 | cut -c 1-300 >&2
    tell "not proved and built: ${now:-$1}; target/log/desk.build has all that was said"
}

prove() { # NAME USUAL
    if is_built "$1"; then return 0; fi
    if ! command -v rt >/dev/null; then
        tell "$1 has to be proved and built first, and the Rattle toolchain is missing: no rt on the PATH"
        return 2
    fi
    log=$root/target/log
    crates=$(made_of "$1" | tr '\n' ' ') told='' anew=0 since=0 began=$(date +%s) hope=$(expected "$1" "$2")
    case $(made_by "$1") in *.a) verb=lib ;; *) verb=run ;; esac
    many=$(echo "$crates" | wc -w | tr -d ' ')
    if [ -t 2 ]; then moving=yes; else moving=no; fi
    mkdir -p "$log" "$root/target/stamp" && : >"$log/desk.begun" && : >"$log/desk.build" || return 2
    tell "proving $1 first, $many crates: $hope"
    (cd "$root/crates/$1" && exec $(command -v setsid) rt "$verb") </dev/null >"$log/desk.build" 2>&1 &
    build=$!
    while kill -0 "$build" 2>/dev/null; do
        look
        sleep 1
    done
    wait "$build"
    ended=$?
    build=''
    look
    if [ "$ended" -ne 0 ] || [ ! -f "$(made_by "$1")" ]; then
        [ "$moving" = no ] || echo >&2
        show_failure "$1"
        return 2
    fi
    # what was written while it was being built counts as newer
    touch -r "$log/desk.begun" "$root/target/stamp/$1"
    [ "$anew" -eq 0 ] || echo "$(seconds) $anew" >"$log/$1.last"
    if [ "$moving" = yes ]; then move "$many of $many done, $(seconds) s"; echo >&2; else tell "done, $(seconds) s"; fi
}
