# shellcheck shell=sh disable=SC2154,SC2034
# Part of contrib/cups/try.sh: the backend without CUPS, before a stand-in for the true backend.

alone=$cups/alone
cat >"$alone/backend/stand-in" <<END
#!/bin/sh
# Keeps what the true backend gets: its words, its device URI, the format of the job, and the bytes
# that it would send.
printf '%s\n' "\$DEVICE_URI" "\$@" >"$alone/words"
printf '%s\n' "\${CONTENT_TYPE-}" "\${FINAL_CONTENT_TYPE-}" >"$alone/format"
if [ \$# -eq 5 ]; then cat; else
    copies=\$4
    while [ "\$copies" -gt 0 ]; do
        cat -- "\$6"
        copies=\$((copies - 1))
    done
fi >"$alone/sent"
exit \$(cat "$alone/status")
END
chmod 755 "$alone/backend/stand-in"
echo 0 >"$alone/status"
job=$examples/delivery_note.pcl

# start PATH COPIES [FILE]: the backend begins; its URI is pclgate:PATH, as /shop/stand-in:x.
# Without FILE the job is on standard input. PROGRAM is what it takes for pclcheck.
start() {
    DEVICE_URI=pclgate:$1
    CUPS_SERVERBIN=$alone
    PCLCHECK=${PROGRAM:-$work/bin/pclcheck}
    PCLCHECK_FLEETS=$cups/fleets
    TMPDIR=${TEMPORARY:-$alone/tmp}
    export DEVICE_URI CUPS_SERVERBIN PCLCHECK PCLCHECK_FLEETS TMPDIR
    copies=$2
    shift 2
    # shellcheck disable=SC2086  # words
    exec ${UNDER-} "$gate" 7 user title "$copies" '' "$@" 2>"$alone/told"
}
gate() {                        # gate STATUS PATH COPIES [FILE]: it ends so, and leaves no file
    rm -f "$alone/sent" "$alone/words"
    due=$1
    shift
    status=0
    (start "$@") || status=$?
    cat "$alone/told"
    is_equal "$status" "$due" && [ -z "$(ls "$alone/tmp")" ]
}
input() { gate "$1" "$2" 1 <"$3"; }             # the same, with the job on standard input
tells() { has "$1" "$alone/told"; }
sends() { cmp "$alone/sent" "$1"; }
sends_nothing() { [ ! -e "$alone/sent" ] && [ ! -e "$alone/words" ]; }

devices() { "$gate" | grep '^direct pclgate "'; }
say 'backend: tells what devices it has' devices
say 'backend: a job that passes' gate 0 /shop/stand-in:x 1 "$job"
say 'backend: is sent as it is' sends "$job"
say 'backend: the true backend gets its URI' has stand-in:x "$alone/words"
say 'backend: a job on standard input' input 0 /shop/stand-in:x "$job"
say 'backend: is sent as it is' sends "$job"
say 'backend: a job that fails is held' gate 3 /all/stand-in:x 1 "$job"
say 'backend: and why is told' \
    tells 'ERROR: preflight: export-desk refuses this job at byte 134 on page 1, ESC &l2A: the printer does'
say 'backend: nothing is sent' sends_nothing
say 'backend: on standard input, too' input 3 /all/stand-in:x "$job"
say 'backend: nothing is sent' sends_nothing

say 'backend: a job that passes once' gate 0 /front/stand-in:x 1 "$cups/once.pcl"
say 'backend: is held where it has two copies' gate 3 /front/stand-in:x 2 "$cups/once.pcl"
say 'backend: for the second one' tells 'front-desk refuses this job at byte 44 on page 1, 6.35 mm from the left and 269.87 mm from the top, '
cat "$job" "$job" "$job" >"$alone/three"
say 'backend: three copies' gate 0 /shop/stand-in:x 3 "$job"
say 'backend: are sent' sends "$alone/three"

echo 4 >"$alone/status"
say 'backend: the status of the true backend is kept' gate 4 /shop/stand-in:x 1 "$job"
echo 0 >"$alone/status"

# The way log: each job is sent, a line tells of it, and one that fails is copied.
PCLCHECK_LOG=$alone/log
export PCLCHECK_LOG
is_logged() { tail -n 1 "$alone/log/$1.jsonl" | grep -q "^{\"time\":\"....-..-..T..:..:..Z\",$2}$"; }
no_copy() { [ ! -e "$alone/log/$1/7.pcl" ]; }
mkdir "$alone/log"
passes='"job":"7","marks":16,"pages":1,"verdict":"PASS"'
say 'backend: logged: a job that passes' gate 0 /shop/log/stand-in:x 1 "$job"
say 'backend: logged: is sent' sends "$job"
say 'backend: logged: has its line' is_logged shop "$passes"
say 'backend: logged: is not copied' no_copy shop
say 'backend: logged: on standard input' input 0 /shop/log/stand-in:x "$job"
say 'backend: logged: is sent as it is' sends "$job"
say 'backend: logged: has its line' is_logged shop "$passes"
say 'backend: logged: a job that fails is sent' gate 0 /all/log/stand-in:x 1 "$job"
say 'backend: logged: as it is' sends "$job"
say 'backend: logged: and why it would be held is told' tells \
    'NOTICE: preflight: would be held: export-desk refuses this job at byte 134 on page 1, ESC &l2A: '
say 'backend: logged: has its line' is_logged all '"at":134,"code":11,.*"job":"7",.*"FAIL"'
say 'backend: logged: is copied' cmp "$alone/log/all/7.pcl" "$job"
rm "$alone/log/all/7.pcl"
say 'backend: logged: three copies' gate 0 /all/log/stand-in:x 3 "$job"
say 'backend: logged: are copied as they are sent' cmp "$alone/log/all/7.pcl" "$alone/three"
rm "$alone/log/all/7.pcl"
say 'backend: logged: one that fails on standard input' input 0 /all/log/stand-in:x "$job"
say 'backend: logged: is sent as it is' sends "$job"
say 'backend: logged: is copied' cmp "$alone/log/all/7.pcl" "$job"
rm "$alone/log/all/7.pcl"
PCLCHECK_LOG_MOST=0
export PCLCHECK_LOG_MOST
say 'backend: logged: where the folder is full' gate 0 /all/log/stand-in:x 1 "$job"
say 'backend: logged: it is sent' sends "$job"
say 'backend: logged: it is not copied' no_copy all
say 'backend: logged: which is told' tells 'all takes no more jobs'
unset PCLCHECK_LOG_MOST
PCLCHECK_LOG=$job
say 'backend: logged: where no log can be written' gate 0 /all/log/stand-in:x 1 "$job"
say 'backend: logged: the job is sent' sends "$job"
say 'backend: logged: which is told' tells "$job cannot be written"
PCLCHECK_LOG=$alone/log

# Proportional spacing, which pclcheck does not check, and a cursor that is popped too often.
printf '\033(s1P' >"$alone/spaced.pcl"
printf '\033&f1S' >"$alone/wrong.pcl"
say 'backend: a job that is wrong is held' gate 3 /front/stand-in:x 1 "$alone/wrong.pcl"
say 'backend: and why is told' \
    tells 'ERROR: preflight: this job is wrong at byte 0 on page 1, 6.35 mm from the left and 15.87 mm from the top, ESC &f1S: '
say 'backend: a job that pclcheck cannot judge is held' \
    gate 3 /front/stand-in:x 1 "$alone/spaced.pcl"
say 'backend: and why is told' tells 'ERROR: preflight: pclcheck cannot judge this job at byte 0 on page 1, 6.35 mm from the left and 15.87 mm from the top, '
say 'backend: logged: it is printed' gate 0 /front/log/stand-in:x 1 "$alone/spaced.pcl"
say 'backend: logged: and copied' cmp "$alone/log/front/7.pcl" "$alone/spaced.pcl"
rm "$alone/log/front/7.pcl"
PCLCHECK_UNCHECKED=print
export PCLCHECK_UNCHECKED
say 'backend: or printed, where that is set' gate 0 /front/stand-in:x 1 "$alone/spaced.pcl"
say 'backend: as it is' sends "$alone/spaced.pcl"
say 'backend: which is told' tells \
    'NOTICE: preflight: printed all the same: pclcheck cannot judge this job at byte 0 on page 1, 6.35 mm from the left and 15.87 mm from the top, ESC (s1P, '
say 'backend: a job that is wrong is held then, too' gate 3 /front/stand-in:x 1 "$alone/wrong.pcl"
say 'backend: and one that a printer refuses' gate 3 /all/stand-in:x 1 "$job"
say 'backend: logged: it is printed' gate 0 /front/log/stand-in:x 1 "$alone/spaced.pcl"
say 'backend: logged: has its line' is_logged front '"at":0,.*"kind":"unchecked",.*"FAIL".*'
say 'backend: logged: is not copied' no_copy front
unset PCLCHECK_UNCHECKED

# 35 KB whose macros would carry out 25 million items.
say 'backend: macros with too many items' gate 3 /front/stand-in:x 1 "$work/items.pcl"
say 'backend: are told' tells '(ERROR items)'
say 'backend: are held with print, too' gate 3 /front/print/stand-in:x 1 "$work/items.pcl"
say 'backend: and not sent' sends_nothing
say 'backend: logged: they are printed' gate 0 /front/log/stand-in:x 1 "$work/items.pcl"
say 'backend: logged: as they are' sends "$work/items.pcl"
say 'backend: logged: and copied' cmp "$alone/log/front/7.pcl" "$work/items.pcl"

# Its own troubles: with hold, or no word, the job is held. With print it is sent unchecked, unless
# the job may be the reason.
printf '#!/bin/sh\nkill -9 $$\n' >"$work/bin/killed"
printf '#!/bin/sh\necho "-: this job has no verdict (ERROR memory)"\nexit 3\n' >"$work/bin/error"
printf '#!/bin/sh\nulimit -v 2500\nexec "%s" "$@"\n' "$work/bin/pclcheck" >"$work/bin/small"
chmod 755 "$work/bin/killed" "$work/bin/error" "$work/bin/small"
for PROGRAM in "$work/bin/gone" /bin/true /bin/false "$work/bin/killed" "$work/bin/error" \
    "$work/bin/small"; do
    trouble="backend: ${PROGRAM##*/} for a program"
    say "$trouble: held" gate 3 /shop/stand-in:x 1 "$job"
    say "$trouble: told" tells 'ERROR: preflight: no verdict on this job: status '
    say "$trouble: not sent" sends_nothing
    say "$trouble: held by its word" input 3 /shop/hold/stand-in:x "$job"
    case $PROGRAM in
    *killed | *error | *small)
        say "$trouble: held with print, too" gate 3 /shop/print/stand-in:x 1 "$job"
        say "$trouble: not sent" sends_nothing
        say "$trouble: held from standard input" input 3 /shop/print/stand-in:x "$job"
        say "$trouble: not sent" sends_nothing
        ;;
    *)
        say "$trouble: printed by its word" gate 0 /shop/print/stand-in:x 1 "$job"
        say "$trouble: as it is" sends "$job"
        say "$trouble: printed from standard input" input 0 /shop/print/stand-in:x "$job"
        say "$trouble: as it is" sends "$job"
        ;;
    esac
    rm -f "$alone/log/shop/7.pcl"
    say "$trouble: logged, printed" gate 0 /shop/log/stand-in:x 1 "$job"
    say "$trouble: as it is" sends "$job"
    say "$trouble: has its line" is_logged shop '"job":"7",.*"verdict":"ERROR"'
    say "$trouble: is copied" cmp "$alone/log/shop/7.pcl" "$job"
done
PROGRAM=
say 'backend: a profile with a fault: held' gate 3 /broken/stand-in:x 1 "$job"
say 'backend: a profile with a fault: told' tells 'faulty.profile: line 4: this gives again'
say 'backend: a profile with a fault: printed' gate 0 /broken/print/stand-in:x 1 "$job"
say 'backend: a profile with a fault: a bad job is printed, too' \
    gate 0 /broken/print/stand-in:x 1 "$examples/unset_size.pcl"
say 'backend: no such fleet: held' gate 3 /gone/stand-in:x 1 "$job"
TEMPORARY=$work/gone
say 'backend: no folder for files: held' gate 3 /shop/stand-in:x 1 "$job"
say 'backend: no folder for files: printed' gate 0 /shop/print/stand-in:x 1 "$job"
say 'backend: no folder for files: printed from standard input' \
    input 0 /shop/print/stand-in:x "$job"
say 'backend: as it is' sends "$job"
TEMPORARY=
for word in /shop/ /shop/print/ /shop/log/; do
    say "backend: a spool file that cannot be read: held ($word)" \
        gate 3 "${word}stand-in:x" 2 "$work/gone"
    say "backend: nothing is sent" sends_nothing
    say "backend: a folder for a spool file: held ($word)" gate 3 "${word}stand-in:x" 1 "$work"
    say "backend: standard input that cannot be read: held ($word)" \
        input 3 "${word}stand-in:x" "$work"
    say "backend: no such true backend: held ($word)" gate 3 "${word}nowhere:x" 1 "$job"
done
for path in '' / /shop /shop/ /shop/print /shop/print/ /shop/log/ //stand-in:x /../stand-in:x /shop/../x:y; do
    say "backend: the URI pclgate:$path: held" gate 3 "$path" 1 "$job"
done

for word in /shop/ /shop/print/; do
    UNDER='setpriv --reuid lp --regid lp --clear-groups prlimit --nproc=0'
    say "backend: no process can be started: held ($word)" gate 3 "${word}stand-in:x" 1 "$job"
    UNDER='prlimit --fsize=2000'
    say "backend: no room for a job on standard input: held ($word)" \
        input 3 "${word}stand-in:x" "$examples/invoice.pcl"
done
UNDER=
for copies in '' 0 two 2x -1 10000 99999999999999999999; do
    say "backend: '$copies' copies: held" gate 3 /shop/stand-in:x "$copies" "$job"
done

# TERM while it checks: the check ends, too, and the job stays.
printf '#!/bin/sh\necho $$ >"%s"\nexec sleep 60\n' "$alone/checking" >"$work/bin/slow"
chmod 755 "$work/bin/slow"
PROGRAM=$work/bin/slow
start /shop/print/stand-in:x 1 "$job" &
stopped=$!
started="$started $stopped"
say 'backend: a slow check begins' soon [ -s "$alone/checking" ]
end "$stopped"
say 'backend: TERM while it checks: the job is held' is_equal "$status" 3
say 'backend: the check has ended' soon is_gone "$(cat "$alone/checking" || echo 0)"
say 'backend: no file is left' [ -z "$(ls "$alone/tmp")" ]

# TERM while the true backend runs: it gets it.
printf '#!/bin/sh\ntrap "exit 5" TERM\necho $$ >"%s"\nwhile :; do sleep 0.1; done\n' \
    "$alone/sending" >"$alone/backend/long"
chmod 755 "$alone/backend/long"
PROGRAM=
start /shop/long:x 1 "$job" &
stopped=$!
started="$started $stopped"
say 'backend: a long true backend begins' soon [ -s "$alone/sending" ]
end "$stopped"
say 'backend: it gets the signal, and its status counts' is_equal "$status" 5
