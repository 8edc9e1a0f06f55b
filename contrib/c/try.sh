# shellcheck shell=sh disable=SC2154,SC2034
# Part of contrib/try.sh: the example in C, and by the sanitizers of the compiler what it and the
# filter do with damaged jobs and fleets.

tried=$work/c
mkdir "$tried" "$tried/safe"
cp "$examples/front_desk.profile" "$tried"
job=$examples/letter.pcl
say 'c: the example is built' build_caller check "$here/c/check.c"
check() {                       # check STATUS JOB: what it tells is in told
    status=0
    "$work/bin/check" "$2" "$tried/front_desk.profile" >"$tried/told" 2>&1 || status=$?
    cat "$tried/told"
    is_equal "$status" "$1"
}
check_pipe() {
    # shellcheck disable=SC2002  # a pipe, and no file, is what is tried
    cat "$job" | check 0 /dev/stdin
}
say 'c: a job that passes' check 0 "$job"
say 'c: is told' has "$job: each printer prints this job (pages=2 marks=414)" "$tried/told"
say 'c: a job by a pipe' check_pipe
printf '\033&f1S' >"$tried/wrong.pcl"
say 'c: a job that fails' check 1 "$tried/wrong.pcl"
say 'c: no job' check 2 "$tried/gone.pcl"

# Files whose length is not known before they are read, or that cannot be read.
reads_on() {
    check 1 /proc/self/status || check 2 /proc/self/status || return
    has /proc/self/status "$tried/told"
}
say 'attack: a file that seems to have no byte' reads_on
say 'attack: a job that cannot be read' check 2 "$tried"
say 'attack: which is told' has 'it could not be read' "$tried/told"
awkward=$tried/$(printf 'a\033[31mb\302\233c')
cp "$job" "$awkward"
say 'attack: a name that a terminal would obey' check 0 "$awkward"
say 'attack: is shown without' has 'a?[31mb??c: each printer prints this job' "$tried/told"

# A check that goes on for long ends when its job is cancelled.
echo front_desk.profile >"$tried/front.fleet"
say 'c: a caller that cancels is built' build_caller try_cancel "$here/c/try_cancel.c"
say 'attack: a cancel is seen within a check' env "PCLCHECK_FLEETS=$tried" timeout 20 \
    "$work/bin/try_cancel" front "$job"

# JOBS and FLEETS say how many are damaged.
build_safe() {                  # build_safe NAME SOURCE [WORDS..]
    CFLAGS='-g -fsanitize=address,undefined -fno-sanitize-recover=undefined'
    build_caller "$@" || return
    CFLAGS=
    mv "$caller" "$tried/safe"
}
say 'c: the example is built with sanitizers' build_safe check "$here/c/check.c"
say 'c: and the filter' build_safe pclfilter "$here/cups/pclfilter.c"
# Sessions of one fleet in four threads, under a lock of the caller, as pclcheck(3) asks for.
threads() {                     # threads [COMMAND..]
    "$@" "$work/bin/try_threads" "$tried/front_desk.profile" "$job" "$tried/wrong.pcl" \
        >"$tried/told" && has '52 passed' "$tried/told"
}
CFLAGS='-g -fsanitize=thread'
say 'c: four threads with one fleet are built' \
    build_caller try_threads "$here/c/try_threads.c" -pthread
CFLAGS=
say 'c: and run by the sanitizer of threads' threads
say 'c: damaged jobs and fleets' python3 "$here/c/try_damaged.py" "$tried" "$examples" \
    "$work/bin/pclcheck" "${JOBS:-200}" "${FLEETS:-50}" "$tried/safe"
