# What the measurements over sockets share: their servers, a script for `fixgate serve`, and that nothing which they started
# outlives them. Each of them reads it first, and it measures nothing itself.
. "$(dirname "$0")/../building.sh"
here=$top/bench/serve
broker=${BROKER:-$top/crates/example_broker/out/example_broker}
gateway=${FIXGATE:-$top/crates/gateway_cli/out/gateway_cli}
# More turns than a run makes before the one who waits for it gives up.
turns=1000000000000
# What stands in front of the gateway's words: a bound of its time.
guard=()
# What was started and stands, by the ids: a server, a client, busy loops.
server=
client=
loops=
trap 'end_all; rm -rf "$work"' EXIT

end_all() {
    local id
    for id in $client $server $loops; do kill "$id" 2>/dev/null || true; done
}

# Programs that are named have to be there; others are built.
build_broker() {
    need cc python3
    if [ -n "${BROKER:-}" ]; then need "$BROKER"; else build_program example_broker; fi
}

build_gateway() {
    need cc python3
    if [ -n "${FIXGATE:-}" ]; then need "$FIXGATE"; else "$top/fixgate" drill 1 >/dev/null; fi
}

build_load() {
    cc -O2 -D_GNU_SOURCE -o "$work/load" "$here/load.c"
}

build_echo() {
    cc -O2 -o "$work/echo" "$here/echo.c"
}

build_quickfix() {
    if [ -e /usr/include/quickfix/Session.h ]; then
        need c++
        c++ -O2 -std=c++14 -Wno-deprecated -o "$work/quickfix" "$here/quickfix.cpp" -lquickfix -lpthread
    else
        echo "$0: nothing is measured beside QuickFIX without Debian's package libquickfix-dev" >&2
    fi
}

build_servers() {
    build_broker
    build_load
    build_echo
    build_quickfix
}

free_port() {
    python3 -c 'import socket; s = socket.socket(); s.bind(("127.0.0.1", 0)); print(s.getsockname()[1])'
}

# The words of the broker for so many sessions at a port.
broker_words() {
    local n
    echo "127.0.0.1:$1 $2"
    for n in $(seq 0 $(($2 - 1))); do echo "GATE/C$n"; done
}

# Starts a server for so many sessions, which ends by itself or is stopped.
start() {
    local kind=$1 sessions=$2
    port=$(free_port)
    case $kind in
    echo) "$work/echo" "$port" & ;;
    quickfix) "$work/quickfix" "$port" "$sessions" & ;;
    broker)
        # shellcheck disable=SC2046
        "$broker" $(broker_words "$port" "$sessions") >/dev/null 2>"$work/lines" &
        ;;
    esac
    server=$!
}

# Waits for the broker, which ends by itself, and ends another server.
stop() {
    if [ "$1" = broker ]; then
        wait "$server" || {
            echo "$0: the broker ended with status $?: $(tail -n 3 "$work/lines")" >&2
            exit 1
        }
    else
        kill "$server" && wait "$server" 2>/dev/null || true
    fi
    server=
}

# Ends a server of any kind. One that had ended otherwise than well is told, and is the answer.
cut_off() {
    local status=0
    kill "$server" 2>/dev/null || true
    wait "$server" 2>/dev/null || status=$?
    server=
    # 143 is the end that it was told.
    case $status in
    0 | 143) ;;
    *)
        echo "$0: $1 ended with status $status" >&2
        [ "$1" != broker ] || tail -n 3 "$work/lines" >&2
        return 1
        ;;
    esac
}

# Lets a client run. The wait for it ends at a signal, and the client with it.
run_client() {
    local status=0
    "$@" &
    client=$!
    wait "$client" || status=$?
    client=
    return "$status"
}

# script SESSIONS ORDERS..: a script of so many sessions. For each further word it has a library, which fills as many orders of
# a session of its own, and waits for the first one until it comes.
script() {
    awk -v sessions="$1" -v all="${*:2}" 'BEGIN {
        libraries = split(all, orders, " ")
        print "libraries " libraries
        print "connections " sessions
        for (s = 0; s < sessions; s++) print "session GATE C" s
        for (s = 0; s < libraries; s++) {
            lib = "lib " s + 1
            print lib " request " s " 0"
            print lib " answer"
            for (n = 0; n < orders[s + 1]; n++) {
                id = "C" s "-" n
                print lib " read 1"
                print lib " send " s " 35=8|37=" id "|17=" id "|150=F|39=2|11=" id "|55=ACME|54=1|38=100|32=100|31=12.50|151=0|14=100|6=12.50|"
            }
            print lib " release " s
        } }' >"$work/script"
}

# each N WORD: the word, so many times.
each() {
    for _ in $(seq "$1"); do echo "$2"; done
}

# Starts `fixgate serve` with that script.
start_gateway() {
    port=$(free_port)
    "${guard[@]}" "$gateway" serve "$work/script" "127.0.0.1:$port" "$turns" >/dev/null &
    server=$!
}
