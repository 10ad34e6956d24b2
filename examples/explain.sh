#!/usr/bin/env bash
# explain.sh NETWORK [LISTER]: what the lister answers to a network, in words. 5, 19 and 20 have the place of an edge's `from` field, so the edge and
# its nodes can be named; the other refusals have the words of the C header. It exits with 1 where the network is refused or cannot be read.
set -eu
top=$(cd "$(dirname "$0")/.." && pwd)
network=${1:?usage: explain.sh NETWORK [LISTER]}
lister=${2:-$top/target/bin/lister}
answer=$("$lister" "$network")
read -r letter number place _ <<< "$answer"
case $letter in
  N) ;;
  P) echo accepted && exit ;;
  *) exit 1 ;;
esac
bytes=($(od -An -v -tu1 -N 63490 "$network")) # no more decide the answer
u16() { echo $((bytes[$1] + 256 * bytes[$1 + 1])); }
kind() { echo "${bytes[20 * $1 + 2]}"; }

# Where the edges start: nodes have 20 bytes, edges 6.
edges() {
  local at=0
  while [ "${bytes[at]}" = 78 ]; do at=$((at + 20)); done
  echo $at
}

case $number in
  5 | 19 | 20)
    start=$(($(edges) + 2))
    from=$(u16 "$place")
    to=$(u16 $((place + 2)))
    if [ "$number" = 19 ]; then
      words="from node $from to itself"
    elif [ "$number" = 20 ]; then
      at=$start
      while [ "${bytes[*]:at:4}" != "${bytes[*]:place:4}" ]; do at=$((at + 6)); done
      words="from node $from to node $to, as edge $(((at - start) / 6))"
    elif [ "$(kind "$to")" = 0 ]; then
      words="from node $from into node $to, which is an input"
    else
      words="out of node $from, which is an output, to node $to"
    fi
    echo "$number at $place: edge $(((place - start) / 6)) $words"
    ;;
  *)
    IFS='|' read -r _ words what < <(sed -n "$((number + 1))p" "$top/callers/c/refusals.out")
    echo "$number at $place: $words${what:+, $what $place}"
    ;;
esac
exit 1
