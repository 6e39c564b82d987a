#!/usr/bin/env bash
# Starts a sidecar for the app `shop` and plays the session of README.md with it: prints each command, and what it answers.
#
# usage: examples/session.sh [PORT]     PORT: a free port of 127.0.0.1; 3500 without it
set -u
port=${1:-3500}
top=$(cd "$(dirname "${BASH_SOURCE[0]}")/.." && pwd) || exit 1
at=localhost:$port
store=$at/v1.0/state/statestore

# Prints a command as one types it, runs it, and prints its answer without the CR at each line's end.
ask() {
    printf '$ curl -i'
    local word
    for word in "$@"; do
        case $word in
            *[!A-Za-z0-9:/._-]*) printf " '%s'" "$word" ;;
            *) printf ' %s' "$word" ;;
        esac
    done
    printf '\n'
    local answer
    answer=$(curl -s -i "$@" | tr -d '\r')
    printf '%s\n' "$answer"
    # The empty line that ends a head without content.
    case $answer in
        *$'\n\n'*) ;;
        *) printf '\n' ;;
    esac
}

"$top/run" --app-id shop --dapr-http-port "$port" &
sidecar=$!
until [ "$(curl -s -o /dev/null -w '%{http_code}' "$at/v1.0/healthz")" = 204 ]; do
    kill -0 "$sidecar" 2>/dev/null || exit 1
    sleep 0.1
done

ask -d '[{"key":"order-7","value":{"total":12.50}}]' "$store"
ask "$store/order-7"
ask -d '[{"key":"order-7","value":{"total":14},"etag":"9"}]' "$store"
ask -d '[{"key":"seat-4","value":"ann","options":{"concurrency":"first-write"}}]' "$store"
ask -d '[{"key":"seat-4","value":"bob","options":{"concurrency":"first-write"}}]' "$store"
ask -d '{"operations":[{"operation":"upsert","request":{"key":"from","value":0}},{"operation":"delete","request":{"key":"seat-4","etag":"9"}}]}' "$store/transaction"
ask -X POST "$at/v1.0/shutdown"
wait "$sidecar"
