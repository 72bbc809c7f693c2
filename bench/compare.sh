#!/bin/bash
# Pack pictures and print a line for each: picture, footprint, packer, sum of errors, CPU seconds. Both programs
# take turns at each picture, on one core. A preset may have options of pack, as in quick+advised; a quality with a
# preset, as in fast+quick, polishes astcenc's texture with the preset, and counts the time of both. A quality may have
# options of astcenc, as in medium:-normal. WEIGHTS is an option of audit for the errors of astcenc's textures.
# [WEIGHTS=weights=R,G,B,A] bench/compare.sh FOLDER ASTC_TOOL 'FOOTPRINTS' 'PRESETS' 'QUALITIES OF astcenc' [PICTURES]
set -euo pipefail
folder=$1 tool=$2 footprints=$3 presets=$4 qualities=$5
shift 5
[ $# -gt 0 ] || set -- "$folder"/*.pam
room=$(mktemp -d)
trap 'rm -rf "$room"' EXIT

timed() {  # COMMAND: its report goes into the room; prints its seconds, the system's among them
  local TIMEFORMAT='%U %S'
  { time "$@" > "$room/report" 2>&3; } 3>&2 2>&1 | awk '{ print $1 + $2 }'
}

line() {  # FOOTPRINT NAME SECONDS, with the sum of the report
  echo "$(basename "$picture" .pam) $1 $2 $(awk '/^total/ { print $2 }' "$room/report") $3"
}

for picture; do
  for footprint in $footprints; do
    for preset in $presets; do
      seconds=$(timed "$tool" pack "$picture" "$room/own.ktx" $footprint ${preset//+/ })
      line $footprint $preset $seconds
    done
    for quality in $qualities; do
      given=${quality%%+*}
      seconds=$(timed astcenc -cl "${picture%.pam}.png" "$room/their.astc" $footprint -${given//:/ } -j 1 -silent)
      "$tool" import "$room/their.astc" "$room/their.ktx" > "$room/report"
      if [[ $quality == *+* ]]; then
        more=$(timed "$tool" polish "$picture" "$room/their.ktx" "$room/own.ktx" ${quality#*+})
        seconds=$(awk "BEGIN { print $seconds + $more }")
      else
        # An audit ends with 1 where it finds a block that can be bettered.
        "$tool" audit "$room/their.ktx" "$picture" flat ${WEIGHTS-} > "$room/report" || [ $? = 1 ]
      fi
      line $footprint astcenc-$quality $seconds
    done
  done
done
