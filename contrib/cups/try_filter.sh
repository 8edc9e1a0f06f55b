# shellcheck shell=sh disable=SC2154
# Part of contrib/cups/try.sh: the filter behind the private cupsd, before the stand-in for a printer.

say 'filter: it is built' build_caller pclfilter "$here/cups/pclfilter.c"
install -m 755 "$work/bin/pclfilter" "$cups/bin/filter/pclfilter"
for fleet in front all broken; do
    cp "$cups/fleets/$fleet.fleet" "$cups/fleets/filtered-$fleet.fleet"
    lpadmin -p "filtered-$fleet" -E -v "$printer" -P "$here/cups/pclfilter.ppd" 2>"$work/lpadmin"
done
lpadmin -p filtered-gone -E -v "$printer" -P "$here/cups/pclfilter.ppd" 2>"$work/lpadmin"

is_stopped() { grep -qF "[Job $number] Job stopped due to filter errors" "$log"; }
stops() {                       # stops SENTENCE: the job stays, stopped, and why is shown and logged
    soon is_stopped || { state; return 1; }
    state >"$cups/state"
    has "Status: preflight: $1" "$cups/state" && logs "$1"
}

print_job -d filtered-front "$job"
say 'filter: a job that passes is printed' prints "$job"
say 'filter: and logged' logs 'each printer prints this job (pages=1 marks=16)'
print_job -d filtered-all "$job"
say 'filter: a job that fails is stopped' stops "$refusal"
say 'filter: and nothing of it is printed' prints_nothing
print_job -d filtered-all -o raw "$job"
say 'filter: with -o raw, too' stops "$refusal"
say 'filter: and nothing of it is printed' prints_nothing
print_job -d filtered-front -n 3 "$job"
say 'filter: three copies are printed as one stream' prints "$alone/three"
print_job -d filtered-front -n 2 "$cups/once.pcl"
say 'filter: two copies of a job that passes once are stopped' \
    stops 'front-desk refuses this job at byte 44 on page 1, 6.35 mm from the left and 269.87 mm from the top, ESC *c0P'
say 'filter: and nothing of them is printed' prints_nothing
print_job -d filtered-broken "$job"
say 'filter: a profile with a fault: the job is stopped' \
    stops "$cups/fleets/faulty.profile: line 4: this gives again what an earlier line gave"
say 'filter: and nothing of it is printed' prints_nothing
print_job -d filtered-gone "$job"
say 'filter: no such fleet: the job is stopped' \
    stops "$cups/fleets/filtered-gone.fleet: No such file or directory"
say 'filter: and nothing of it is printed' prints_nothing
cp "$cups/fleets/front.fleet" "$cups/fleets/filtered-gone.fleet"
lp -i "$name" -H restart || :
say 'filter: tried again with a fleet, it is printed' prints "$job"

# A filter before this one writes into a pipe, whose job is kept in a file without a name.
by_pipe() {                     # by_pipe QUEUE
    # shellcheck disable=SC2002  # a pipe, and no file, is what is tried
    cat "$job" | PRINTER=$1 PCLCHECK_FLEETS=$cups/fleets "$work/bin/pclfilter" 1 user title 1 '' \
        >"$cups/piped" 2>"$cups/told"
}
hands_on() { by_pipe filtered-front && cmp "$cups/piped" "$job"; }
stops_pipe() {
    if by_pipe filtered-all; then return 1; fi
    [ ! -s "$cups/piped" ] && has "$refusal" "$cups/told"
}
say 'filter: a job that comes by a pipe is handed on' hands_on
say 'filter: or stopped' stops_pipe

# shellcheck source=/dev/null
. "$here/cups/try_filter_attacks.sh"
