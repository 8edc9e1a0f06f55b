# shellcheck shell=sh disable=SC2154,SC2034
# Part of contrib/hotfolder/try.sh: attacks on a hot folder of the user daemon by the user nobody,
# and accidents. Each is a way in which a job came to `passed` unchecked, a user wrote where he may
# not, or the folder stopped.

attack=$work/attack
in=$attack/in
out=$attack/out
good=$attack/good.pcl
bad=$attack/bad.pcl
mkdir "$attack" "$attack/fleet"
cp "$examples"/*.profile "$examples/shop.fleet" "$attack/fleet"
echo front_desk.profile >"$attack/fleet/front.fleet"
fleet=$attack/fleet/shop.fleet
cp "$examples/invoice.pcl" "$good"
cp "$examples/unset_size.pcl" "$bad"
chmod -R a+rX "$attack"
install -m 755 "$here/hotfolder/hotfolder.py" "$work/bin/hotfolder.py"
exec_as() {                     # exec_as USER COMMAND..: in place of the shell
    user=$1
    shift
    exec timeout 60 setpriv --reuid="$user" --regid="$(id -g "$user")" --clear-groups "$@"
}
runner() { (exec_as daemon "$@"); }
other() { (exec_as nobody "$@"); }
fresh() {                       # a folder where everyone may write, and one for the results
    rm -rf "$in" "$out"
    install -d -o daemon -m 777 "$in"
    install -d -o daemon -m 755 "$out"
}
run() {                         # run [OPTION..]: a run with --once, its exit status in $status
    status=0
    runner /usr/bin/python3 "$work/bin/hotfolder.py" "$in" "$fleet" \
        --once --quiet 0.3 "$@" >"$attack/ran" 2>&1 || status=$?
}
run_out() { run --results "$out" "$@"; }
ends() {                        # ends STATUS SENTENCE: how the last run ended, and what it printed
    cat "$attack/ran"
    is_equal "$status" "$1" && grep -qF -- "$2" "$attack/ran"
}
put() { other cp "$1" "$in/$2"; }
has_only_good() {               # has_only_good NUMBER: jobs in passed, each as it was checked
    for job in "$out"/passed/*; do
        case $job in *.txt | *'/*') continue ;; esac
        cmp "$job" "$good" || return 1
    done
    is_equal "$(find "$out/passed" -type f ! -name '*.txt' | wc -l)" "$1"
}
is_clean() {                    # nothing but the lock is left of a run
    is_equal "$(ls -A "$out/.hotfolder")" lock && is_equal "$(find "$in" -name '.hf-*')" ''
}
stand_in() {                    # stand_in [COMMAND..]: pclcheck, and a command after each check
    cat >"$work/bin/stand-in" <<EOF
#!/bin/sh
"$work/bin/pclcheck" "\$@"
status=\$?
$*
exit \$status
EOF
    chmod 755 "$work/bin/stand-in"
    PCLCHECK=$work/bin/stand-in
}

# ---- the bytes that are checked are those that are handed on

cat >"$attack/swap.py" <<'END_OF_PYTHON'
import os, sys, time
text, new, job = sys.argv[1:]
end = time.monotonic() + 10
while time.monotonic() < end and not os.path.exists(text):
    pass
os.rename(new, job)
END_OF_PYTHON
fresh
for number in 1 2 3 4 5; do
    put "$good" "$number.pcl"
    put "$bad" ".$number"
    exec_as nobody /usr/bin/python3 -B "$attack/swap.py" "$out/passed/$number.pcl.txt" "$in/.$number" \
        "$in/$number.pcl" &
    swapper=$!
    started="$started $swapper"
    run_out
    wait "$swapper" || :
done
say 'attack: a job that is swapped as soon as its text appears' has_only_good 5
run_out
say 'attack: what came in its place is refused' is_equal "$(find "$out/refused" -type f | wc -l)" 10

cat >"$attack/append.py" <<'END_OF_PYTHON'
import os, sys, time
first, more, job, passed = sys.argv[1:]
with open(job, "wb", buffering=0) as file:
    file.write(open(first, "rb").read())
    end = time.monotonic() + 10
    while time.monotonic() < end and not os.path.exists(passed):
        time.sleep(0.01)
    file.write(open(more, "rb").read())
END_OF_PYTHON
fresh
exec_as nobody /usr/bin/python3 -B "$attack/append.py" "$good" "$bad" "$in/late.pcl" \
    "$out/passed/late.pcl" &
appender=$!
started="$started $appender"
soon test -s "$in/late.pcl" || :
run_out
wait "$appender" || :
say 'attack: an upload that goes on after its job passed' has_only_good 1

fresh
put "$good" 'swapped.pcl'
stand_in "cp '$bad' '$in/.new'; mv '$in/.new' '$in/swapped.pcl'"
run_out
say 'attack: a job that is swapped while it is checked' is_equal "$status" 0
say 'attack: is not in passed' has_only_good 0
put "$good" 'grows.pcl'
chmod 666 "$in/grows.pcl"
rm "$in/swapped.pcl"
stand_in "cat '$bad' >>'$in/grows.pcl'"
run_out
say 'attack: nor is one that grows meanwhile' has_only_good 0
say 'attack: it stays' test -s "$in/grows.pcl"

fresh
put "$good" 'once.pcl'
stand_in "kill -s INT \$\$"
run_out
say 'attack: a program that is ended after it said PASS' \
    ends 3 'once.pcl stays, without a verdict: signal 2 ended pclcheck'
say 'attack: passes nothing' has_only_good 0

fresh
chown root "$in"
chmod 1777 "$in"
put "$good" fixed.pcl
other install -m 600 "$good" "$in/closed.pcl"
PCLCHECK=$work/bin/pclcheck
run_out
say 'attack: a job that cannot be taken away' \
    ends 3 'fixed.pcl stays, without a verdict: it cannot be taken out of the folder: '
say 'attack: would pass again and again' has_only_good 0
say 'attack: a job that cannot be read' ends 3 'closed.pcl stays, without a verdict: Permission'
say 'attack: neither leaves anything' is_clean

fresh
put "$good" first.pcl
other ln "$in/first.pcl" "$in/second.pcl"
run_out
say 'attack: a file with two names' \
    ends 3 'second.pcl stays, without a verdict: it has a second name'
rm "$in/first.pcl"
run_out
say 'attack: passes when it has one' has_only_good 1

fresh
for number in 1 2 3 4 5 6 7 8; do put "$good" "$number.pcl"; done
install -d -o daemon -m 755 "$attack/second"
exec_as daemon /usr/bin/python3 "$work/bin/hotfolder.py" "$in" "$fleet" --once --quiet 0.3 \
    --results "$attack/second" >"$attack/ran second" 2>&1 &
second=$!
started="$started $second"
run_out
wait "$second" || :
is_once() { is_equal "$(find "$out/passed" "$attack/second/passed" -name '?.pcl' | wc -l)" 8; }
say 'attack: two runs with results of their own take each job once' is_once

# ---- other languages

refuses_language() {            # refuses_language FORMAT: what printf writes by it
    fresh
    # shellcheck disable=SC2059  # it is a format
    printf "$1" >"$in/language.pcl"
    run_out
    ends 1 'refused language.pcl' && has_only_good 0 && has 'language.pcl: this job is PostScript,' \
        "$out/refused/language.pcl.txt"
}
takes_language() {              # takes_language FORMAT [OPTION..]: it is checked as PCL
    fresh
    # shellcheck disable=SC2059  # it is a format
    printf "$1" >"$in/language.pcl"
    shift
    run_out "$@"
    ends 0 'passed language.pcl'
}
leave='\033%%-12345X'
fleet=$attack/fleet/front.fleet
at=0
for start in '%%!PS' '%%PDF-1.7' ') HP-PCL XL;2;0' "' HP-PCL XL" '\r\n %%!' 'A\033E%%!' \
    "$leave@PJL COMMENT x\n%%PDF-" "$leave@PJL\r\n@PJL ENTER LANGUAGE=PCL\r\n%%!" \
    "$leave@PJL COMMENT \033E x\n%%!"; do
    at=$((at + 1))
    say "attack: another language ($at)" refuses_language "$start"
done
at=0
for start in 'A%%!' '%%PDX' "$leave@PJL COMMENT %%!\n" "$leave@PJL\nA%%!"; do
    at=$((at + 1))
    say "attack: no other language ($at)" takes_language "$start"
done
say 'attack: with --any-language' takes_language '%%!PS' --any-language
fleet=$attack/fleet/shop.fleet

# ---- folders and lock

fresh
run
say 'attack: results where others may write' ends 3 "$in can be written to by other users"
install -d -o daemon -m 755 "$attack/victim"
fresh
other ln -s "$attack/victim" "$in/passed"
other ln -s "$attack/victim/made" "$in/.hotfolder.lock"
other ln -s "$attack/victim" "$in/.hotfolder"
put "$good" link.pcl
run
say 'attack: links there' is_equal "$(ls -A "$attack/victim")" ''
ln -s "$attack/victim" "$out/passed"
run_out
say 'attack: a link for a folder of the results' ends 3 "$out/passed is no folder"
rm "$out/passed"
install -d -o nobody "$out/passed"
run_out
say 'attack: a folder of another user' ends 3 "$out/passed belongs to another user"
rmdir "$out/passed"
install -d -o daemon -m 775 "$out/passed"
run_out
say 'attack: a folder of a group' ends 3 "$out/passed can be written to by other users"
say 'attack: nothing went there' is_equal "$(ls -A "$attack/victim")" ''
fresh
install -d -m 777 "$attack/open"
install -d -o daemon -m 755 "$attack/open/out"
run --results "$attack/open/out"
say 'attack: results that others can exchange' ends 3 "$attack/open can be written to by other"
ln -s "$out" "$attack/link"
run --results "$attack/link"
say 'attack: a link on the way' ends 3 'leads through a symbolic link; name '

fresh
run_out
cat >"$attack/hold.py" <<'END_OF_PYTHON'
import fcntl, os, sys, time
for path in sys.argv[1:]:
    try:
        fcntl.flock(os.open(path, os.O_RDONLY), fcntl.LOCK_EX)
    except OSError:
        pass
time.sleep(30)
END_OF_PYTHON
exec_as nobody /usr/bin/python3 -B "$attack/hold.py" "$in/.hotfolder.lock" \
    "$out/.hotfolder/lock" "$in" "$out" &
holder=$!
started="$started $holder"
sleep 0.5
put "$good" held.pcl
run_out
say 'attack: a lock that another user took' ends 0 'passed held.pcl'
end "$holder"

status=0
PCLCHECK=$work/bin/pclcheck /usr/bin/python3 "$work/bin/hotfolder.py" "$in" \
    "$fleet" --results "$out" --once >"$attack/ran" 2>&1 || status=$?
say 'attack: root is refused' ends 2 'root need not run this'

# ---- what takes long, or much room

fresh
put "$good" slow.pcl
stand_in 'sleep 321'
run_out --timeout 1
say 'attack: a check that takes too long' ends 1 'refused slow.pcl'
say 'attack: has its sentence' \
    has 'slow.pcl: the check of this job takes more than 1 seconds' "$out/refused/slow.pcl.txt"
is_ended() { ! pgrep -fx -- 'sleep 321'; }
say 'attack: is ended' soon is_ended
PCLCHECK=$work/bin/pclcheck

fresh
other truncate -s 1T "$in/huge.pcl"
other truncate -s 20M "$in/sparse.pcl"
run_out
say 'attack: a huge sparse file' \
    ends 3 'huge.pcl stays, without a verdict: it has more than 1073741824 bytes'
is_sparse() { [ "$(find "$out" -name sparse.pcl -exec du -k {} + | cut -f 1)" -lt 1000 ]; }
say 'attack: a smaller one stays sparse' is_sparse

# Blanks without an end, where a line of the job language may go on: they are not copied.
fresh
printf '\033%%-12345X@PJL \033E' >"$in/a_blank.pcl"
truncate -s 400M "$in/a_blank.pcl"
put "$good" good.pcl
status=0
# shellcheck disable=SC3045  # the shells that try this have it
(ulimit -v 650000 && run_out && exit "$status") || status=$?
say 'attack: a job that would take the memory' ends "$status" 'passed good.pcl'

fresh
put "$good" full.pcl
status=0
(ulimit -f 1 && run_out && exit "$status") || status=$?
say 'attack: no room for a copy' ends 3 'full.pcl stays, without a verdict: it cannot be copied'
say 'attack: leaves nothing in passed' has_only_good 0
say 'attack: nor elsewhere' is_clean
run_out
say 'attack: and is handled when there is room' has_only_good 1

fresh
run_out
seq 2 1500 | while read -r number; do echo "$out/passed/same.$number.pcl"; done | xargs touch
cp "$good" "$out/passed/same.pcl"
put "$good" same.pcl
run_out
say 'attack: a name that was sent 1,500 times' ends 0 'passed same.1501.pcl'
cat >"$attack/tries.py" <<'END_OF_PYTHON'
import os, sys
sys.path.insert(0, sys.argv[1])
import hotfolder
tries = []
is_there = hotfolder.is_there
hotfolder.is_there = lambda folder, name: tries.append(name) or is_there(folder, name)
hotfolder.free_name(hotfolder.open_folder(sys.argv[2]), "same.pcl", ".txt")
sys.exit(len(tries) > 100)
END_OF_PYTHON
say 'attack: takes few tries' /usr/bin/python3 -B "$attack/tries.py" "$work/bin" "$out/passed"

# ---- a folder that goes and comes

fresh
exec_as daemon /usr/bin/python3 "$work/bin/hotfolder.py" "$in" "$fleet" --results "$out" \
    --quiet 0.3 --every 0.1 >"$attack/watched" 2>&1 &
watch=$!
started="$started $watch"
soon test -d "$out/passed" || :
mv "$in" "$attack/away"
say 'attack: a folder that is gone' soon has "$in: No such file or directory" "$attack/watched"
mv "$attack/away" "$in"
put "$good" back.pcl
say 'attack: goes on when it comes back' soon has 'passed back.pcl' "$attack/watched"
end "$watch"
say 'attack: TERM ends it' is_equal "$status" 0

# ---- killed, and no output

fresh
put "$good" killed.pcl
# shellcheck disable=SC2016  # of the program that is made
stand_in 'kill -9 "$PPID"'
run_out
say 'attack: a run that is killed' is_equal "$status" 137
say 'attack: leaves its job' test -f "$in/killed.pcl"
PCLCHECK=$work/bin/pclcheck
mv "$in/killed.pcl" "$in/.hf-killed.pcl"        # as if it was killed a moment later
put "$bad" killed.pcl
run_out
say 'attack: the next run takes both' ends 1 'passed killed.2.pcl'
say 'attack: and leaves nothing' is_clean
say 'attack: but the good job in passed' has_only_good 1

prints() {                      # prints COMMAND [ENVIRONMENT..]: a run whose output goes nowhere
    fresh
    put "$good" "$(printf '\342\202\254.pcl')"
    where=$1
    shift
    status=0
    runner env "$@" sh -c "exec $where" sh /usr/bin/python3 "$work/bin/hotfolder.py" "$in" \
        "$fleet" --results "$out" --once --quiet 0.3 2>"$attack/ran" || status=$?
    cat "$attack/ran"
    has_only_good 1 && ! grep -q stays "$attack/ran"
}
say 'attack: output on a full disk' prints '"$@" >/dev/full'
say 'attack: is told' ends 3 'is in passed, but standard output cannot be written to: No space'
say 'attack: no output' prints '"$@" >&-'
say 'attack: is no trouble' is_equal "$status" 0
say 'attack: no streams at all' prints '"$@" <&- >&- 2>&-'
say 'attack: a name that Latin-1 does not have' prints '"$@"' PYTHONIOENCODING=latin-1
say 'attack: is no trouble' is_equal "$status" 0
crash='import sys; sys.path.insert(0, sys.argv[1]); import hotfolder
hotfolder.run = lambda: 1 // 0
sys.exit(hotfolder.main())'
status=0
/usr/bin/python3 -B -c "$crash" "$work/bin" >"$attack/ran" 2>&1 || status=$?
say 'attack: a crash is not a refused job' ends 3 ZeroDivisionError
unset PCLCHECK
