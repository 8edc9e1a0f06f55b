# shellcheck shell=sh disable=SC2154
# Part of contrib/try.sh: a hot folder with awkward names, half a job, and two runs at once.

hot=$work/hot
export PCLCHECK="$work/bin/pclcheck"
line_end='
'
watch() {
    exec python3 "$here/hotfolder/hotfolder.py" --allow-root --quiet 1 --every 0.2 "$@"
}
once() {                        # once STATUS [OPTION..]: a run with --once ends so
    due=$1
    shift
    status=0
    (watch --once "$hot" "$examples/shop.fleet" "$@") || status=$?
    is_equal "$status" "$due"
}
is_moved() {                    # is_moved FOLDER NAME SENTENCE: the job and its text are there
    [ -f "$hot/$1/$2" ] && [ ! -e "$hot/$2" ] && grep -qF -- "$3" "$hot/$1/$2.txt"
}

mkdir "$hot"
set -- 'a b.pcl' "it's \"so\".pcl" "two${line_end}lines.pcl" '-f.pcl' '-' 'a*?.pcl' \
    "$(printf 'caf\351')"
for name; do
    cp "$examples/invoice.pcl" "$hot/$name"
    cp "$examples/unset_size.pcl" "$hot/bad$name"
done
cp "$examples/invoice.pcl" "$hot/upload.part"
: >"$hot/empty.pcl"
ln -s /etc/hostname "$hot/link.pcl"
mkfifo "$hot/pipe.pcl"
head -c 700 "$examples/invoice.pcl" >"$hot/half.pcl"
(exec 9>>"$hot/half.pcl" && exec sleep 30) &        # half a job: its writer stands still
writer=$!
started="$started $writer"
say 'hot folder: a round with jobs that are refused ends with 1' once 1
for name; do
    shown=$(printf %s "$name" | tr '\n\351' '|?')
    say "hot folder: '$shown' is in passed, with its sentence" \
        is_moved passed "$name" ': each printer prints this job (pages=1 marks=268)'
    say "hot folder: 'bad$shown' is in refused, with its sentence" \
        is_moved refused "bad$name" ': back-office refuses this job at byte 2 on page 1, ESC *p75X: '
done
say 'hot folder: half a job is left while a process writes it' [ -f "$hot/half.pcl" ]
say 'hot folder: an upload, an empty file, a link and a pipe are left' \
    [ -f "$hot/upload.part" -a -f "$hot/empty.pcl" -a -L "$hot/link.pcl" -a -p "$hot/pipe.pcl" ]

tail -c +701 "$examples/invoice.pcl" >>"$hot/half.pcl"
end "$writer"
say 'hot folder: the next round has nothing to refuse' once 0
say 'hot folder: whole, it is in passed, as it was written' \
    cmp "$hot/passed/half.pcl" "$examples/invoice.pcl"
cp "$examples/unset_size.pcl" "$hot/half.pcl"
echo earlier >"$hot/passed/kept.pcl"
cp "$examples/invoice.pcl" "$hot/kept.pcl"
say 'hot folder: a name that was there before' once 1
say 'hot folder: gets a number' is_moved passed kept.2.pcl 'kept.pcl: each printer prints this job'
say 'hot folder: the earlier job stays' has earlier "$hot/passed/kept.pcl"
cp "$work/items.pcl" "$hot/items.pcl"
say 'hot folder: macros with too many items end a round with 1' once 1
say 'hot folder: they are in refused' is_moved refused items.pcl '(ERROR items)'
printf '\033(s1P' >"$hot/spaced.pcl"
cp "$hot/spaced.pcl" "$work/spaced.pcl"
say 'hot folder: a job that pclcheck cannot judge ends a round with 1' once 1
say 'hot folder: it is in refused' \
    is_moved refused spaced.pcl 'pclcheck cannot judge this job at byte 0 on page 1, 6.35 mm from the left and 15.87 mm from the top, ESC (s1P, '
cp "$work/spaced.pcl" "$hot/spaced.pcl"
say 'hot folder: with --unchecked pass it does not' once 0 --unchecked pass
say 'hot folder: and is in passed' is_moved passed spaced.pcl 'pclcheck cannot judge this job'
long=$(printf '%0253d' 0)
cp "$examples/invoice.pcl" "$hot/$long"
say 'hot folder: a name that is too long for a text beside it' once 3
say 'hot folder: stays' [ -f "$hot/$long" -a ! -e "$hot/passed/$long" ]
rm "$hot/$long"

(
    PCLCHECK=$work/bin/gone
    cp "$examples/invoice.pcl" "$hot/later.pcl"
    once 3
) >"$work/trouble" 2>&1 || :
say 'hot folder: without the program a job stays, and is told' \
    has "later.pcl stays, without a verdict: $work/bin/gone: No such file" "$work/trouble"
say 'hot folder: it is where it was' [ -f "$hot/later.pcl" ]
rm "$hot/later.pcl"

watch "$hot" "$examples/shop.fleet" >"$work/first" 2>&1 &
first=$!
started="$started $first"
say 'hot folder: a watch begins' soon pgrep -f -- "hotfolder.py .*$hot"
sleep 0.5
watch "$hot" "$examples/shop.fleet" >"$work/second" 2>&1 &
second=$!
started="$started $second"
say 'hot folder: a second one waits' soon has 'another run has' "$work/second"
say 'hot folder: a run for cron beside them ends at once' once 4
for number in 1 2 3 4 5 6 7 8; do cp "$examples/letter.pcl" "$hot/letter $number"; done
all_there() { [ "$(find "$hot/passed" -name 'letter ?' | wc -l)" = 8 ]; }
say 'hot folder: the watch moves eight jobs' soon all_there
say 'hot folder: each once' is_equal "$(grep -c letter "$work/first")" 8
end "$first"
cp "$examples/letter.pcl" "$hot/last"
say 'hot folder: TERM ends it with 0' is_equal "$status" 0
say 'hot folder: the second goes on where the first ended' soon is_moved passed last 'prints'
end "$second"
say 'hot folder: TERM ends it with 0' is_equal "$status" 0

# shellcheck source=/dev/null
. "$here/hotfolder/try_attacks.sh"
