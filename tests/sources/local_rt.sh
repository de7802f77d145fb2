#!/bin/sh
# A stand-in for the toolchain, as crates/prove.py calls it: `rt`, the compiler and the linker, by the name by which it is
# called. It proves nothing, and what it builds is the program that RT_PROGRAM names. It says in RT_LOG which crates it
# began and ended, and takes RT_SLEEP seconds for each. It fails for the one that RT_FAILS names, and, unless by one
# process, for that of RT_KILLED, as one that the system killed. With RT_OLD the compiler knows of no statements. While it
# proves the crate RT_WHILE, or as the gate, it adds a line to the file RT_CHANGED, and with RT_BACK takes it away again.
# As the gate it lays aside what it finds, and gives libraries back; as that or for must-fail it refuses each edit but one
# of the name RT_MISSED, those of the name RT_BAD, which are bad, and RT_SHAPE by their shape alone. With RT_FAILS the
# gate fails.
kit=$(dirname "$(dirname "$0")")
crate=$(basename "$PWD")
logged() { [ -z "$RT_LOG" ] || echo "$1 $crate" >> "$RT_LOG"; }
changed() {
    [ -n "$RT_CHANGED" ] || return 0
    cp -p "$RT_CHANGED" "$RT_CHANGED.old"
    echo "// Another line." >> "$RT_CHANGED"
    if [ -n "$RT_BACK" ]; then cp -p "$RT_CHANGED.old" "$RT_CHANGED"; fi
    rm "$RT_CHANGED.old"
}
# The edits of a crate, by its folder.
tried() {
    for edit in "$1"must-fail/*.edit; do
        at=$(basename "$edit") said="rt: must-fail $(basename "$1")/$(basename "$edit"):"
        case $at in
            '*.edit' | "$RT_MISSED") ;;
            "$RT_BAD") echo "$said BAD EDIT: an 'old:' text is in src/lib.rt 0 times, and not once" ;;
            "$RT_SHAPE") echo "$said refused, as it must be (only because a proof file names what the edit took away)" ;;
            *) echo "$said refused, as it must be: src/lib.rt:1:1: error: not proved" ;;
        esac
    done
}
# A crate that is proved by so many processes, where one that is killed ends by this command.
proved() {
    logged begin && sleep "${RT_SLEEP:-0}" || exit 2
    [ "$crate" != "$RT_WHILE" ] || changed
    [ "$crate" != "$RT_KILLED" ] || [ "$1" = 1 ] || $2
    [ "$crate" != "$RT_FAILS" ] || { echo "fn $crate::other: proved"; echo "fn $crate::it: not proved"; exit 1; }
    logged end
}
case $(basename "$0") in
    rt)
        case $1 in
            version) echo "${RT_VERSION:-a kit}" ;;
            doc) echo "$kit/START-HERE.md" ;;
            ci)
                changed
                for folder in crates/*/; do
                    name=$(basename "$folder") out=${folder}out
                    rm -rf aside && { [ ! -d "$out" ] || mv "$out" aside; }
                    mkdir -p "$out/rlib/$name.rlib" && echo gate > "$out/rlib/$name.rlib/format"
                    case $name in
                        mseed) cp "$RT_PROGRAM" "$out/mseed" ;;
                        mseed_c) rm -r "$out/rlib" ;;
                    esac
                    [ ! -d aside/rlib ] || { rm -rf "$out/rlib" && mv aside/rlib "$out"; }
                    tried "$folder"
                done
                [ -z "$RT_FAILS" ] || { echo "0 passed, 1 failed" && exit 1; }
                echo "${RT_PASSED:-1} passed, 0 failed"
                ;;
            must-fail)
                for folder in crates/*/; do tried "$folder"; done
                [ -z "$RT_BAD$RT_FAILS" ] || exit 1
                ;;
            lib | run)
                [ "$1" != lib ] || echo "so far: 1 of 2 functions checked"
                mkdir -p out/incremental/work && proved "$3" "exit 247"
                ;;
        esac
        case $1 in
            lib)
                mkdir -p "out/rlib/$crate.rlib" && : > "out/rlib/$crate.rlib/format" && : > out/rlib/stamp
                ;;
            run)
                cp "$RT_PROGRAM" out/mseed || exit 2
                while [ "$1" != -- ]; do shift; done
                shift
                out/mseed "$@"
                ;;
        esac
        ;;
    *)
        verb=$1 jobs= made=
        while [ $# -gt 0 ]; do
            case $1 in
                --help) [ -n "$RT_OLD" ] || echo " --statements"; exit ;;
                --jobs) jobs=$2 ;;
                -o) made=$2 ;;
            esac
            shift
        done
        [ "$verb" != build ] || proved "$jobs" "kill -9 $$"
        case $made in
            *.rlib) mkdir -p "$made" && : > "$made/format" ;;
            *.o | *.a) : > "$made" ;;
            *) cp "$RT_PROGRAM" "$made" ;;
        esac
        ;;
esac
