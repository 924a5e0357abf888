# Sourced by ./run, bench/run.sh and .ci/run: two of them at once in one checkout would prove over each other's target/.
#   lock NAME ROOT    waits until no other of them runs in ROOT, and says so as NAME
#   unlock            at the end; nothing if there is no lock
# The lock is a link ROOT/.lock whose text is 'PID START ROOT': ln makes it whole, or not at all. One that a dead process
# left, or that was copied with another checkout, is taken away. Beside target/, since the gate removes that.
lock_link=

# When a process began, by the kernel's count; nothing where there is no /proc.
began() {
    sed 's/.*) //' "/proc/$1/stat" 2>/dev/null | cut -d' ' -f20
}

# Whether the process of a lock's text still runs, in this checkout.
alive() {
    pid=${1%% *}
    rest=${1#* }
    [ "${rest#* }" = "$lock_root" ] || return 1
    if [ -d /proc/self ]; then
        [ "$(began "$pid")" = "${rest%% *}" ]
    else
        kill -0 "$pid" 2>/dev/null
    fi
}

# Takes a dead process's lock away. One at a time looks and takes: what it saw dead nobody else can have replaced.
take_away() {
    if ln -s "$lock_text" "$lock_link.old" 2>/dev/null; then
        seen=$(readlink "$lock_link") && ! alive "$seen" && rm -f "$lock_link"
        rm -f "$lock_link.old"
    else
        seen=$(readlink "$lock_link.old") && ! alive "$seen" && rm -f "$lock_link.old"
    fi
}

lock() {
    lock_root=$(cd "$2" && pwd -P)
    lock_link=$lock_root/.lock
    lock_text="$$ $(began $$) $lock_root"
    said=
    tries=0
    until ln -s "$lock_text" "$lock_link" 2>/dev/null; do
        if holder=$(readlink "$lock_link") && alive "$holder"; then
            [ -n "$said" ] || echo "$1: process ${holder%% *} proves or builds in this checkout, waiting for it" >&2
            said=yes
            tries=0
        elif [ "$tries" -lt 10 ]; then
            tries=$((tries + 1))
            take_away || :
        else
            echo "$1: no lock can be made at $lock_link, going on without it" >&2
            return 0
        fi
        [ "$tries" -eq 1 ] || sleep 1
    done
}

unlock() {
    if [ -n "$lock_link" ] && [ "$(readlink "$lock_link")" = "$lock_text" ]; then
        rm -f "$lock_link"
    fi
}
