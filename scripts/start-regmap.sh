#!/bin/sh
# start-regmap.sh START NAME WORDS..: what the script `regmap` and the packaged one share: starts the program by START NAME, with the words
# for it, and ends with its status.
# Names and modes of files are the shell's to see (docs/DECISIONS.md): a file that is written is found through its links, one that
# nobody may write is not replaced, and one that is replaced keeps its mode.
set -u
start=$1 name=$2
shift 2
out=
case ${1-} in
set | add | unset | replay) out=${2-} ;;
build | witness | range | prefix | full | cbor | uncbor) out=${3-} ;;
merge) out=${4-} ;;
esac
mode=
if [ -n "$out" ] && [ "$out" != - ] && [ -e "$out" ]; then
    real=$(readlink -f -- "$out") || exit 2
    if [ -f "$real" ]; then
        mode=$(stat -c %a -- "$real") || exit 2
        case $(stat -c %A -- "$real") in
        *w*) [ -w "$real" ] ;;
        *) false ;;
        esac || { echo "regmap: can't write $out: it may not be written. Nothing was changed." >&2; exit 2; }
        umask 077
        command=$1
        case $command in
        set | add | unset | replay) shift 2; set -- "$command" "$real" "$@" ;;
        merge) one=$2 other=$3; shift 4; set -- merge "$one" "$other" "$real" "$@" ;;
        *) from=$2; shift 3; set -- "$command" "$from" "$real" "$@" ;;
        esac
    fi
fi

# The program ends with 0, and writes its status, one digit, to descriptor 3. Ended by a reader that stopped, it writes none.
exec 4>&1
status=$("$start" "$name" --status "$@" 3>&1 >&4 4>&-)
ended=$?
[ -z "$mode" ] || [ "$status" != 0 ] || chmod "$mode" -- "$real" || exit 2
[ -n "$status" ] || { [ "$ended" = 141 ] && exit 141; exit 2; }
exit "$status"
