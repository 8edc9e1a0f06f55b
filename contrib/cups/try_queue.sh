# shellcheck shell=sh disable=SC2154,SC2034
# Part of contrib/cups/try.sh: the backend behind a private cupsd, before a stand-in for a printer.

# Slow while there is a file that says so.
cat >"$work/bin/at_times_slow" <<END
#!/bin/sh
if [ -e "$cups/slow" ]; then
    echo \$\$ >"$cups/seen/checking"
    exec sleep 60
fi
exec "$work/bin/pclcheck" "\$@"
END
chmod 755 "$work/bin/at_times_slow"
make_cups "$cups" "SetEnv PCLCHECK $work/bin/at_times_slow" "SetEnv PCLCHECK_FLEETS $cups/fleets"
mkdir -m 777 "$cups/seen"
install -m 755 "$gate" "$cups/bin/backend/pclgate"

say 'queue: a printer listens' start_printer "$cups/printer"
say 'queue: a private cupsd listens' start_cups
for queue in front shop all broken; do
    lpadmin -p "$queue" -E -m raw -v "pclgate:/$queue/$printer" 2>"$work/lpadmin"
done
lpadmin -p unchecked -E -m raw -v "pclgate:/broken/print/$printer" 2>"$work/lpadmin"
devices() { lpinfo -v | grep '^direct pclgate'; }
say 'queue: CUPS lists the backend' devices

resume() { lp -i "$name" -H resume || :; }
is_held() { lpstat -l -o | grep -A 9 "^$name " | grep -q 'job-hold-until-specified'; }
holds() {                       # holds SENTENCE: the job is held, and why is shown and logged
    soon is_held || { state; return 1; }
    state >"$cups/state"
    has "Status: preflight: $1" "$cups/state" && has "E [" "$log" &&
        grep -F "[Job $number] preflight: $1" "$log" | grep -q '^E '
}
count=0
prints() {                      # prints FILE: the job is done, and the printer got these bytes
    count=$((count + 1))
    soon is_done && soon [ -e "$cups/printer/$count" ] && cmp "$cups/printer/$count" "$1"
}
prints_nothing() { [ ! -e "$cups/printer/$((count + 1))" ]; }
logs() { grep -F "[Job $number] preflight: $1" "$log"; }

print_job -d front "$job"
say 'queue: a job that passes is printed' prints "$job"
say 'queue: and logged' logs 'each printer prints this job (pages=1 marks=16)'
refusal='export-desk refuses this job at byte 134 on page 1, ESC &l2A: the printer does not have this size'
print_job -d all "$job"
say 'queue: a job that fails is held' holds "$refusal"
print_job -d all -o raw "$job"
say 'queue: with -o raw, too' holds "$refusal"
resume
checked_again() { [ "$(grep -c "\[Job $number\] preflight: $refusal" "$log")" = 2 ]; }
say 'queue: resumed, it is checked again' soon checked_again
say 'queue: and held again' holds "$refusal"
say 'queue: nothing of it is printed' prints_nothing
lpmove "$name" front || :
resume
name=front-$number
say 'queue: moved to another queue, it is printed' prints "$job"

print_job -d front "$cups/once.pcl"
say 'queue: a job that passes once is printed' prints "$cups/once.pcl"
print_job -d front -n 2 "$cups/once.pcl"
say 'queue: two copies of it are held' holds 'front-desk refuses this job at byte 44 on page 1, 6.35 mm from the left and 269.87 mm from the top, ESC *c0P'
print_job -d front -n 3 "$job"
say 'queue: three copies of another are printed as one stream' prints "$alone/three"
print_job -d front "$job" "$examples/letter.pcl"
cat "$job" "$examples/letter.pcl" >"$cups/two"
say 'queue: two files in a job, by standard input, are printed' prints "$cups/two"
cat "$cups/once.pcl" "$cups/once.pcl" >"$cups/twice.pcl"
print_job -d front "$cups/once.pcl" "$cups/once.pcl"
say 'queue: two files that fail together are held' holds 'front-desk refuses this job at byte 44 on page 1, 6.35 mm from the left and 269.87 mm from the top, '
lp -d front -s <"$job" || :
name=front-$((number + 1))
say 'queue: a job that lp reads from standard input is printed' prints "$job"

print_job -d broken "$job"
say 'queue: a profile with a fault: the job is held' \
    holds "no verdict on this job: status 2: $cups/fleets/faulty.profile: line 4: this gives again"
print_job -d unchecked "$job"
say 'queue: with print it is printed' prints "$job"
say 'queue: and that is logged' logs 'no verdict on this job: status 2: '

for queue in front unchecked; do
    print_job -d "$queue" -H hold "$job"
    chmod 0 "$cups/spool/"d*"$number-001" || :
    resume
    say "queue: a spool file that cannot be read: the job is held ($queue)" \
        holds 'no verdict on this job: the job could not be read whole'
done

# A true backend that root alone may run, as those for usb and lpd.
install -m 744 /usr/lib/cups/backend/socket "$cups/bin/backend/rooted"
lpadmin -p rooted -E -m raw -v "pclgate:/front/rooted${printer#socket}" 2>"$work/lpadmin"
print_job -d rooted "$job"
say 'queue: a true backend for root: the job is held' \
    holds "the true backend $cups/bin/backend/rooted cannot be run by lp"
chmod 744 "$cups/bin/backend/pclgate"
resume
say 'queue: with the mode 744 of the backend it is printed' prints "$job"
chmod 755 "$cups/bin/backend/pclgate"

: >"$cups/slow"
print_job -d front "$job"
say 'queue: a slow check begins' soon [ -s "$cups/seen/checking" ]
checking=$(cat "$cups/seen/checking" || echo 0)
cancel "$name" || :
is_cancelled() { state completed | grep -q 'job-canceled-by-user'; }
say 'queue: the job is cancelled' soon is_cancelled
say 'queue: and its check has ended' soon is_gone "$checking"
rm -f "$cups/seen/checking"
print_job -d front "$job"
say 'queue: another slow check begins' soon [ -s "$cups/seen/checking" ]
checking=$(cat "$cups/seen/checking" || echo 0)
end "$cupsd"
say 'queue: with the end of cupsd it ends' soon is_gone "$checking"
rm "$cups/slow"
say 'queue: cupsd starts again' start_cups
say 'queue: the job is checked and printed' prints "$job"
say 'queue: no file of the backend is left' [ -z "$(find "$cups/tmp" -name 'pclgate.*')" ]
