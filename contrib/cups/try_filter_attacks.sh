# shellcheck shell=sh disable=SC2154,SC2034
# Part of contrib/cups/try.sh: attacks on the filter, first by itself and then in a queue.

filter() {                      # filter QUEUE COPIES FILE: what it hands on is in piped
    PRINTER=$1 PCLCHECK_FLEETS=$cups/fleets TMPDIR=$alone/tmp timeout 60 \
        "$work/bin/pclfilter" 1 user title "$2" '' "$3" >"$cups/piped" 2>"$cups/told"
}
stops_file() {                  # stops_file SENTENCE QUEUE FILE: nothing is handed on
    if filter "$2" 1 "$3"; then return 1; fi
    cat "$cups/told"
    [ ! -s "$cups/piped" ] && [ -z "$(ls "$alone/tmp")" ] && has "ERROR: preflight: $1" "$cups/told"
}

# What drops printers from a fleet, and what the program refuses.
fleet=$cups/fleets/filtered-odd.fleet
printf 'front_desk.profile\n\0\nexport_desk.profile\n' >"$fleet"
say 'attack: a zero byte in a fleet' stops_file "$fleet: a zero byte" filtered-odd "$job"
printf 'front_desk.profile\0' >"$fleet"
say 'attack: a zero byte at its end' stops_file "$fleet: a zero byte" filtered-odd "$job"
{
    echo front_desk.profile
    yes '# a comment' | head -c 65536
} >"$fleet"
say 'attack: a fleet that is too long' \
    stops_file "$fleet: more than 65536 bytes" filtered-odd "$job"
head -c 65536 "$fleet" >"$fleet.part"
mv "$fleet.part" "$fleet"
say 'attack: the longest that there is' filter filtered-odd 1 "$job"
printf 'front_desk.profile\n# \355\240\200\n' >"$fleet"
say 'attack: a fleet that is no UTF-8' stops_file "$fleet: not UTF-8 text" filtered-odd "$job"
printf 'front_desk.profile\n# \360\237\226\250 \303\244\n' >"$fleet"
say 'attack: one that is' filter filtered-odd 1 "$job"
printf '# nothing\n' >"$fleet"
say 'attack: a fleet without a printer' \
    stops_file 'the fleet names no printer' filtered-odd "$job"
ln -s /dev/zero "$cups/fleets/zero.fleet"
without_end() (                 # it may not take the memory of the machine
    # shellcheck disable=SC3045  # the shells that try this have it
    ulimit -v 1000000
    stops_file "$cups/fleets/zero.fleet: more than 65536 bytes" zero "$job"
)
say 'attack: a fleet without an end' without_end
say 'attack: a queue that names another folder' \
    stops_file 'the name of the queue names no fleet' ../fleets/filtered-front "$job"

# Macros without an end: 60 KB that would carry out 50,000 million items.
{
    cat "$work/items.pcl"
    yes "$(printf '\033&f2Y\033&f2X')" | head -n 2000 | tr -d '\n'
} >"$cups/endless.pcl"
say 'attack: macros without an end' \
    stops_file 'no verdict on this job: its macros carry out too many items' \
    filtered-front "$cups/endless.pcl"

# The file is another one from byte 200,000 on as soon as it was checked: nobody reads meanwhile
# what is handed on, and a pipe takes no more than 64 KiB.
{
    cat "$job"
    head -c 600000 /dev/zero | tr '\0' '\r'
} >"$cups/long.pcl"
cp "$cups/long.pcl" "$cups/swapped.pcl"
mkfifo "$cups/slow_pipe"
swap() {
    PRINTER=filtered-front PCLCHECK_FLEETS=$cups/fleets TMPDIR=$alone/tmp \
        "$work/bin/pclfilter" 1 user title 1 '' "$cups/swapped.pcl" \
        >"$cups/slow_pipe" 2>"$cups/told" &
    filtering=$!
    exec 3<"$cups/slow_pipe"
    soon grep -q '^NOTICE' "$cups/told" || return
    printf '\033&f1S' | dd of="$cups/swapped.pcl" bs=1 seek=200000 conv=notrunc 2>/dev/null
    cat <&3 >"$cups/piped"
    exec 3<&-
    wait "$filtering"
    cmp "$cups/piped" "$cups/long.pcl"
}
say 'attack: a file that is swapped when it was checked' swap

printf '%%!PS' >"$cups/language.pcl"
language='this job is PostScript, PDF or PCL XL, or turns to one of them'
say 'attack: another language' stops_file "$language" filtered-front "$cups/language.pcl"
PCLCHECK_ANY_LANGUAGE=print
export PCLCHECK_ANY_LANGUAGE
say 'attack: where it is let through' filter filtered-front 1 "$cups/language.pcl"
unset PCLCHECK_ANY_LANGUAGE
refuses_start() {               # refuses_start FORMAT
    # shellcheck disable=SC2059  # it is a format
    printf "$1" >"$cups/language.pcl"
    stops_file "$language" filtered-front "$cups/language.pcl"
}
takes_start() {                 # takes_start FORMAT
    # shellcheck disable=SC2059  # it is a format
    printf "$1" >"$cups/language.pcl"
    filter filtered-front 1 "$cups/language.pcl" && cmp "$cups/piped" "$cups/language.pcl"
}
at=0
for start in '%%PDF-1.7' ') HP-PCL XL;2;0' '( HP-PCL XL' "' HP-PCL XL" '\r\n %%!' 'A\033E%%!' \
    'A\033%%-1\033%%-12345X%%!' "A$leave%%!" "A$leave@PJL COMMENT x\n%%PDF-" \
    "$leave$leave\n) HP-PCL XL" "$leave@PJL COMMENT \033%%-12345X%%!" \
    "$leave@PJL COMMENT \033E x\n%%!" "$leave@PJL COMMENT ${leave}x\033y\n%%PDF-" \
    "$leave@PJL\r\n@PJL ENTER LANGUAGE=PCL\r\n%%!"; do
    at=$((at + 1))
    say "attack: another language ($at)" refuses_start "$start"
done
at=0
for start in 'A%%!' '%%' '%%PDX' ') HP' "A$leave" "$leave@PJL COMMENT %%!\n" "$leave@PJL\nA%%!"; do
    at=$((at + 1))
    say "attack: no other language ($at)" takes_start "$start"
done
printf 'x\n%%!\033%%-12345X@PJL COMMENT ' >"$cups/language.pcl"
in_second_copy() {
    if filter filtered-front 2 "$cups/language.pcl"; then return 1; fi
    [ ! -s "$cups/piped" ] && has "ERROR: preflight: $language" "$cups/told"
}
say 'attack: another language in a second copy' in_second_copy

# Files of a job that pass one by one, and together do not.
print_job -d filtered-front "$cups/once.pcl" "$cups/once.pcl"
say 'attack: of two files in a job the first' prints "$cups/once.pcl"
say 'attack: and the second are streams of their own' prints "$cups/once.pcl"
grep -v cupsSingleFile "$here/cups/pclfilter.ppd" >"$cups/several.ppd"
cp "$cups/fleets/front.fleet" "$cups/fleets/filtered-several.fleet"
lpadmin -p filtered-several -E -v "$printer" -P "$cups/several.ppd" 2>"$work/lpadmin"
print_job -d filtered-several "$cups/once.pcl" "$cups/once.pcl"
say 'attack: where they would be one stream, the job is stopped' \
    stops 'the PPD of the queue does not say *cupsSingleFile: True'
say 'attack: and nothing of it is printed' prints_nothing
