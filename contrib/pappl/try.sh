# shellcheck shell=sh disable=SC2154
# Part of contrib/try.sh: the printer application, asked by ipptool, and by lp from behind a cupsd.

applied=$work/pappl
mkdir "$applied" "$applied/fleets" "$applied/spool"
job=$examples/a4_letter.pcl
cp "$examples"/*.profile "$applied/fleets"
echo front_desk.profile >"$applied/fleets/front.fleet"
printf 'front_desk.profile\nexport_desk.profile\n' >"$applied/fleets/all.fleet"
sed 3p "$examples/front_desk.profile" >"$applied/fleets/faulty.profile"
echo faulty.profile >"$applied/fleets/broken.fleet"
for test in print_job get_jobs; do cp "$here/pappl/$test.test" "$applied"; done

# shellcheck disable=SC2046  # the words of pkg-config
say 'application: it is built' build_caller pclprinter "$here/pappl/pclprinter.c" \
    $(pkg-config --cflags --libs pappl)
say 'application: a printer listens' start_printer "$applied/printer"
served=$(free_port)
start_application() {           # start_application [OPTION..]
    PCLCHECK_FLEETS=$applied/fleets "$work/bin/pclprinter" -p "$served" -s "$applied/spool" \
        -l "$applied/log" "$@" "front=$printer" "all=$printer" "broken=$printer" "gone=$printer" &
    application=$!
    started="$started $application"
    soon is_open "$served"
}
say 'application: it listens' start_application

submit() {                      # submit QUEUE FILE [COPIES]
    ipptool -q -d "copies=${3:-1}" -f "$2" "ipp://localhost:$served/ipp/print/$1" \
        "$applied/print_job.test"
}
jobs_of() { ipptool -tv "ipp://localhost:$served/ipp/print/$1" "$applied/get_jobs.test"; }
has_ended() {                   # has_ended QUEUE STATE: the last job of the queue
    jobs_of "$1" >"$applied/jobs"
    grep -m 1 'job-state (enum)' "$applied/jobs" | grep -q " = $2$"
}
count=0
prints() {                      # prints QUEUE FILE: its last job is done, and the printer got this
    count=$((count + 1))
    soon has_ended "$1" completed && soon [ -e "$applied/printer/$count" ] &&
        cmp "$applied/printer/$count" "$2"
}
aborts() {                      # aborts QUEUE SENTENCE: its last job is aborted, and no byte is sent
    count=$((count + 1))
    soon has_ended "$1" aborted && soon [ -e "$applied/printer/$count" ] &&
        [ ! -s "$applied/printer/$count" ] &&
        has "job-state-message (textWithoutLanguage) = preflight: $2" "$applied/jobs" &&
        has document-unprintable-error "$applied/jobs" && has "preflight: $2" "$applied/log"
}

submit front "$examples/letter.pcl"
say 'application: a job that passes is printed' prints front "$examples/letter.pcl"
submit all "$examples/letter.pcl"
say 'application: a job that fails is aborted, and says why' \
    aborts all 'export-desk refuses this job at byte 2 on page 1, ESC &l2A: the printer does not have'
cat "$examples/letter.pcl" "$examples/letter.pcl" >"$applied/twice"
submit front "$examples/letter.pcl" 2
say 'application: two copies are printed as one stream' prints front "$applied/twice"
printf '\033*p+1500Y\033*c300a1500b0P' >"$applied/once.pcl"
submit front "$applied/once.pcl" 2
say 'application: two copies of a job that passes once are aborted' \
    aborts front 'front-desk refuses this job at byte 44 on page 1'
submit broken "$job"
say 'application: a profile with a fault: the job is aborted' \
    aborts broken "$applied/fleets/faulty.profile: line 4: this gives again"
submit gone "$job"
say 'application: no such fleet: the job is aborted' \
    aborts gone "$applied/fleets/gone.fleet: No such file or directory"

# Attacks: a job in another language, macros without an end, and a fleet that drops printers.
printf '%%!PS' >"$applied/language.pcl"
submit front "$applied/language.pcl"
say 'attack: a job in another language is aborted' \
    aborts front 'this job is PostScript, PDF or PCL XL, or turns to one of them'
{
    cat "$work/items.pcl"
    yes "$(printf '\033&f2Y\033&f2X')" | head -n 2000 | tr -d '\n'
} >"$applied/endless.pcl"
submit front "$applied/endless.pcl"
say 'attack: macros without an end are aborted' \
    aborts front 'no verdict on this job: its macros carry out too many items'
printf 'front_desk.profile\n\0\nexport_desk.profile\n' >"$applied/fleets/gone.fleet"
submit gone "$examples/letter.pcl"
say 'attack: a fleet with a zero byte: the job is aborted' \
    aborts gone "$applied/fleets/gone.fleet: a zero byte"

# A page that a browser asks for is none, and ends nothing.
asks_for_pages() {
    for page in '' addprinter front front/config config; do
        python3 -c 'if True:
            import sys, urllib.error, urllib.request
            try:
                urllib.request.urlopen(sys.argv[1], timeout=10)
            except urllib.error.HTTPError:
                pass' "http://localhost:$served/$page" || return
    done
    is_open "$served"
}
say 'attack: pages for browsers are asked for' asks_for_pages

make_cups "$applied/cups" "SetEnv PCLCHECK $work/bin/pclcheck" \
    "SetEnv PCLCHECK_FLEETS $applied/fleets"
install -m 755 "$here/cups/pclgate" "$cups/bin/backend/pclgate"
say 'application: a cupsd before it listens' start_cups
for queue in front all; do
    lpadmin -p "$queue" -E -m raw -v "ipp://localhost:$served/ipp/print/$queue" 2>"$work/lpadmin"
done
print_job -d front "$examples/letter.pcl"
say 'application: a job of lp that passes is printed' prints front "$examples/letter.pcl"
say 'application: and CUPS knows' soon is_done
print_job -d all "$examples/letter.pcl"
say 'application: a job of lp that fails is aborted' \
    aborts all 'export-desk refuses this job at byte 2 on page 1'
lpadmin -p gated -E -m raw -v "pclgate:/front/ipp://localhost:$served/ipp/print/front" \
    2>"$work/lpadmin"
print_job -d gated "$examples/letter.pcl"
say 'application: behind the backend for CUPS a job is printed, too' \
    prints front "$examples/letter.pcl"
unset CUPS_SERVER
end "$application"
say 'application: it ends when it is told to' is_equal "$status" 0
say 'attack: with --any-language it listens again' start_application --any-language
submit front "$applied/language.pcl"
say 'attack: and a job in another language is checked as PCL' prints front "$applied/language.pcl"
end "$application"
