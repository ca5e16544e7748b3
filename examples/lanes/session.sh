#!/bin/sh
# An editor and a lane over named pipes, as they would be in two terminals. The first has the editor:
#
#     mkfifo ask ask.out
#     ./morph serve examples/lanes -- ask
#
# and the second the lane, whose lines are answered in ask.out:
#
#     cat ask.out &
#     cat > ask
#
# Here both are one script, which shows who is answered what.
here=$(cd "$(dirname "$0")" && pwd) || exit 1
room=$(mktemp -d) || exit 1
trap 'rm -rf "$room"' EXIT
mkfifo "$room/edit" "$room/edit.out" "$room/ask" "$room/ask.out"
"${MORPH:-$here/../../morph}" serve "$here" -- "$room/ask" <"$room/edit" >"$room/edit.out" &

# this end of each pipe, in the order in which the program opens the others
exec 3>"$room/edit" 4<"$room/edit.out" 5>"$room/ask" 6<"$room/ask.out"

# shows the next so many lines that somebody was answered
told() {
    for _ in $(seq "$3"); do
        IFS= read -r line <&"$2" && echo "$1  $line"
    done
}

told 'editor:' 4 1
echo 'up Noun pens' >&5
told 'lane:  ' 6 1
printf 'splice nouns.lexc 6 0 1\npen Number ;\n' >&3
told 'editor:' 4 1
echo 'up Noun pens' >&5
told 'lane:  ' 6 2
exec 3>&- 5>&-
wait
