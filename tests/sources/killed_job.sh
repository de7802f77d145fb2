#!/bin/sh
# In the place of the program that MSEED names. The first job that finds the folder KILL there, an `audit` or a `repack`,
# removes it and is killed: before it wrote anything or, where HALF is set, after half of its text.
case $1 in
    audit | repack)
        if rmdir "$KILL" 2> /dev/null; then
            if [ "$HALF" ]; then
                "$MSEED" "$@" > "$KILL.text"
                head -c $(($(wc -c < "$KILL.text") / 2)) "$KILL.text"
            fi
            kill -9 $$
        fi
        ;;
esac
exec "$MSEED" "$@"
