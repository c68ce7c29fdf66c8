# Runs of the program that serve a port.

# some_port: a port that may be free.
some_port() {
    printf '%s\n' "$((20000 + $(od -An -N2 -tu2 /dev/urandom) % 40000))"
}

# listen WORKERS CONNECTIONS LIB..: from here on the program serves the folder `folder`, or the place that $serves names, at a port of this
# machine, which is found free.
# It is in $port. The row fails where none was opened.
listen() {
    tries=0
    until port=$(some_port) && listens "$@"; do
        tries=$((tries + 1))
        [ "$tries" -lt 20 ] || fail "no port was opened: $(cat -v port_got port_complaint)"
    done
}

# listens WORKERS CONNECTIONS LIB..: the same at the port $port, which may be another's.
listens() {
    workers=$1 connections=$2
    shift 2
    # (the complaint of a program that served before says that it listened)
    : > port_got
    : > port_complaint
    # (the program itself has the number that is written down, and not the `timeout` around it)
    timeout -k 5 "$SECONDS_EACH" sh -c 'echo "$$" > port_number && exec "$@"' _ \
        "$PROGRAM" serve "${serves-folder}" "$port" "$workers" "$connections" "$@" < /dev/null > port_got 2> port_complaint &
    port_process=$!
    waited=0
    until grep -q '^seaf-server: listening' port_complaint; do
        if [ -s port_got ]; then
            wait "$port_process" || :
            return 1
        fi
        waited=$((waited + 1))
        [ "$waited" -lt 500 ] || fail "serve: it didn't listen: $(cat -v port_got port_complaint)"
        sleep 0.02
    done
}

# opens OPENING: the library of that folder is opened so often by now, or soon.
opens() {
    waited=0
    until grep -q "\"opening\":$1," "folder/$LIB/status"; do
        waited=$((waited + 1))
        [ "$waited" -lt 500 ] || fail "serve: the library wasn't opened: $(cat -v "folder/$LIB/status")"
        sleep 0.02
    done
}

# served STATUS LINE..: the program that served a port ends so, and printed these lines.
served() {
    status=0
    wait "$port_process" || status=$?
    [ "$status" = "$1" ] || fail "serve: status $status, and not $1: $(cat -v port_got port_complaint)"
    shift
    : > wanted
    [ "$#" = 0 ] || printf '%s\n' "$@" > wanted
    same serve wanted port_got
    ! grep -qF "$SECRET" port_complaint || fail 'serve: it told the secret'
}

# killed SIGNAL: the program that serves a port is ended by this signal, TERM or KILL, and printed nothing.
killed() {
    kill -s "$1" "$(cat port_number)"
    case $1 in
    KILL) served 137 ;;
    TERM) served 143 ;;
    esac
}

# not_served FOLDER LINE [LIB..]: these libraries of this folder, $LIB if left out, aren't served at a port, which is told by this line.
not_served() {
    of_folder=$1 why=$2
    shift 2
    tries=0
    while :; do
        server serve "$of_folder" "$(some_port)" 1 1 "${@:-$LIB}" < /dev/null
        [ "$(cat got)" = 'seaf-server: link fault' ] || break
        tries=$((tries + 1))
        [ "$tries" -lt 20 ] || fail 'no port was opened'
    done
    [ "$status" = 1 ] || fail "serve: status $status"
    printf '%s\n' "$why" > wanted
    same serve wanted got
}

# stays FILE: a client of that port sends these bytes, and neither says nor takes anything more, until `goes`.
stays() {
    rm -f leave came
    mkfifo leave
    timeout -k 5 "$SECONDS_EACH" bash -c 'exec 3<> "/dev/tcp/127.0.0.1/$1" && cat "$2" >&3 && : > came && read -r _ < leave' _ "$port" "$1" &
    staying=$!
    waited=0
    until [ -e came ]; do
        waited=$((waited + 1))
        [ "$waited" -lt 500 ] || fail 'no client came to the port'
        sleep 0.02
    done
}

# goes: the client that stays is gone.
goes() {
    : > leave
    wait "$staying" || :
}

# turns_away FILE: a client of that port sends these bytes, takes the first byte of a reply, and is gone with the others untaken.
turns_away() {
    timeout -k 5 "$SECONDS_EACH" bash -c 'exec 3<> "/dev/tcp/127.0.0.1/$1" && cat "$2" >&3 && dd bs=1 count=1 <&3' _ "$port" "$1" > first_byte 2> /dev/null || fail 'no client came to the port'
    [ "$(cat first_byte)" = H ] || fail "the port gave no reply: $(cat -v first_byte)"
}

# over_port: what was asked goes over one connection to that port, which must give the replies in this order, and nothing else. The last
# request closes.
over_port() {
    timeout -k 5 "$SECONDS_EACH" bash -c 'exec 3<> "/dev/tcp/127.0.0.1/$1" && cat "$2" >&3 && cat <&3' _ "$port" asked > got || fail 'no client came to the port'
    spell
    same 'the connection to the port' wanted got
}
