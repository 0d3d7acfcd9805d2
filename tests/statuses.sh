#!/bin/sh
# Runs the built program where a case of text can't: over inputs and outputs that fail, near its largest input, and without
# memory. The statuses and texts are those of docs/REPORT.md.
#
#     tests/statuses.sh [PROGRAM]
top=$(cd "$(dirname "$0")/.." && pwd) || exit 1
program=${1:-$top/crates/fiasco_run/out/fiasco_run}
script="$top/examples/first.script"
failed=0

ends() { # ends WHAT STATUS WANTED-STATUS TEXT WANTED-TEXT
    if [ "$2" = "$3" ] && [ "$4" = "$5" ]; then
        echo "ok      $1"
    else
        echo "FAILED  $1: status $2, text '$4'"
        failed=1
    fi
}

text=$("$program" run < "$top"); status=$?
ends 'an input that cannot be read' $status 3 "$text" 'read fault'

text=$("$program" check < "$top"); status=$?
ends 'an input of check that cannot be read' $status 3 "$text" 'read fault'

"$program" run < "$script" > /dev/full; status=$?
ends 'an output that takes no report, found when the buffer is sent on' $status 4 '' ''

printf 'kernel 1\ntable 2\nprogram a\nrepeat 1000\nsend #1 7 8\nagain\nend\nprogram b\nrepeat 1000\nreceive #0\nagain\nend\nthread 10 a\nthread 20 b\n' |
    "$program" run > /dev/full; status=$?
ends 'an output that takes no report, found when the buffer is full' $status 4 '' ''

"$program" check < "$top/examples/call-history.check" > /dev/full; status=$?
ends 'an output that takes no verdict' $status 4 '' ''

"$program" run < /dev/null > /dev/full; status=$?
ends 'an output that takes no refusal' $status 4 '' ''

checked() { # checked BYTES: a script, a history that is one long line, so many bytes in all
    printf 'kernel 1\ntable 1\nprogram a\nend\nthread 5 a\n--\n'
    head -c $(($1 - 45)) /dev/zero | tr '\0' x
}

text=$(checked 135266304 | (ulimit -v 1000000; "$program" check)); status=$?
ends 'an input of the most bytes' $status 6 "$text" 'unreadable 1'

text=$(checked 135266305 | (ulimit -v 1000000; "$program" check)); status=$?
ends 'one byte more is too large' $status 1 "$text" 'refused too large'

text=$(checked 135266304 | (ulimit -v 50000; "$program" check)); status=$?
ends 'no memory for an input' $status 5 "$text" 'no memory'

# 1,800,000 bytes of words, under rising limits: the program can't be started, then there is no memory for the words, and then
# they are no form.
text=$(python3 - "$program" <<'END'
import resource, subprocess, sys

def ends(limit):
    words = ["x" * 120000] * 15
    limits = lambda: resource.setrlimit(resource.RLIMIT_AS, (limit, limit))
    try:
        ran = subprocess.run([sys.argv[1], *words], stdin=subprocess.DEVNULL, capture_output=True, preexec_fn=limits)
    except OSError:
        return 127, b""
    return ran.returncode, ran.stdout

found = {ends(thousands * 1000) for thousands in range(2000, 16000, 200)}
print(sorted(it for it in found if 0 <= it[0] < 127))
END
)
usage='usage: fiasco_run run, check, big N, carry M'
ends 'no memory for the words' $? 0 "$text" "[(2, b'$usage\\n'), (5, b'no memory\\n')]"

exit $failed
