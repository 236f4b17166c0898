#!/usr/bin/env bash
# Watches a dataset with curl alone: prints its value, and again each time that it is another.
#
#   HSDS_TOKEN=tb examples/watch.sh http://127.0.0.1:5101 /home/lab raw/counts '[0:4:2,1:6:2]' 10
#
# The words are the service's URL, a domain, the path of a dataset in it, and what is wanted: a selection, all of it
# where it is missing or empty, and how many values to print before the end. A path's names are made of letters, digits,
# '.', '-' and '_'. It asks each second, or as often as SECONDS_BETWEEN says, over a link of its own each time.
set -euo pipefail
url=$1
domain=$2
path=$3
select=${4:-}
times=${5:-0}

# ask TARGET: the body of the answer. A refusal's goes to standard error, and ends the script.
ask() {
    local body
    body=$(curl -gsS --fail-with-body -m 60 -H "Authorization: Bearer ${HSDS_TOKEN:-}" -H "X-Hdf-domain: $domain" "$url$1") || {
        echo "watch: $1 was answered ${body:-not at all}" >&2
        return 1
    }
    echo "$body"
}

# text_of KEY: the text at a key of the JSON on standard input.
text_of() {
    sed -nE "s/.*\"$1\":\"([^\"]*)\".*/\1/p"
}

id=$(ask / | text_of root)
for name in ${path//\// }; do
    id=$(ask "/groups/$id/links/$name" | text_of id)
done

last=""
printed=0
until [ "$times" -gt 0 ] && [ "$printed" -ge "$times" ]; do
    value=$(ask "/datasets/$id/value${select:+?select=$select}")
    if [ "$value" != "$last" ]; then
        echo "$value"
        last=$value
        printed=$((printed + 1))
    else
        sleep "${SECONDS_BETWEEN:-1}"
    fi
done
