#!/usr/bin/env bash
# Audits one archive, whose records have one length, on several cores: it is cut between records, each piece's part is
# made by a process of its own, and the parts are joined.
#
#   audit_by_cores.sh MSEED ARCHIVE LENGTH CORES [PIECES]
#
# LENGTH is the bytes of a record; there are as many pieces as cores where no number is given, at most 90,000. What is
# written, and the status, are those of `mseed audit < ARCHIVE`. Where a piece can't be read, or its process is killed,
# its part isn't there: then nothing is written, and the status is 2. Wants xargs with -P, and GNU dd.

mseed=$1 archive=$2 length=$3 cores=$4 pieces=${5:-$4}
size=$(wc -c < "$archive") || exit 2
folder=$(mktemp -d) || exit 2
trap 'rm -rf "$folder"' EXIT

records=$(((size + length - 1) / length))
bytes=$(((records + pieces - 1) / pieces * length))
export mseed archive bytes folder

# The parts are named by numbers of five digits, so that their names are in their order. One is there once it is whole.
# Where an audit ends with a fault, dd may have more to write.
seq 10000 $((9999 + pieces)) | xargs -P "$cores" -n 1 bash -c '
    dd if="$archive" bs=128K iflag=skip_bytes,count_bytes skip=$((($1 - 10000) * bytes)) count="$bytes" status=none |
        "$mseed" audit --part > "$folder/$1.new"
    case ${PIPESTATUS[*]} in "0 "[012] | "141 2") ;; *) exit 1 ;; esac
    grep -q "^records [0-9]* bytes [0-9]*$" "$folder/$1.new" && mv "$folder/$1.new" "$folder/$1.part"
' bash

printf '%s\0' "$folder"/*.part | xargs -0 cat | "$mseed" join --expect "$pieces"
