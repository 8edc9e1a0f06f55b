# shellcheck shell=sh disable=SC2154,SC2034
# Part of contrib/cups/try.sh: attacks on the backend, by the author of a job and by another user.
# Each is a way in which a job came to the printer unchecked, or a user wrote where he may not.

# A job that fails, with so many copies that the shell cannot count them.
say 'attack: copies that cannot be counted' \
    gate 3 /all/print/stand-in:x 99999999999999999999 "$job"
say 'attack: nothing is sent' sends_nothing

# The author names another format, which an IPP backend would name to the printer.
CONTENT_TYPE=application/postscript FINAL_CONTENT_TYPE=application/postscript
export CONTENT_TYPE FINAL_CONTENT_TYPE
say 'attack: a job that says it is PostScript' \
    gate 0 /shop/stand-in:x 1 "$examples/delivery_note.pcl"
say 'attack: is handed on as PCL' \
    is_equal "$(tr '\n' ' ' <"$alone/format")" 'application/vnd.hp-PCL  '
unset CONTENT_TYPE FINAL_CONTENT_TYPE

# Macros that come to no end are the author's choice: no reason to print.
say 'attack: macros without an end, with print' gate 3 /front/print/stand-in:x 1 "$work/items.pcl"
say 'attack: nothing is sent' sends_nothing

# Programs in the place of others: `cat`, by which the shell that writes the job for the check ends
# early, as one does that cannot start a process, and `awk`, which runs out of memory.
mkdir "$alone/few" "$alone/no_awk"
cat >"$alone/few/cat" <<END
#!/bin/sh
printf . >>"$alone/uses"
[ "\$(wc -c <"$alone/uses")" -eq 3 ] || exec /bin/cat "\$@"
kill -9 "\$PPID"
END
printf '#!/bin/sh\nexit 1\n' >"$alone/no_awk/awk"
chmod 755 "$alone/few/cat" "$alone/no_awk/awk"
with() (                        # with FOLDER COMMAND..: whose programs come before others
    PATH=$alone/$1:$PATH
    export PATH
    shift
    rm -f "$alone/uses"
    "$@"
)
for way in hold print log; do
    say "attack: a job that is not written whole, with $way" \
        with few gate 3 "/all/$way/stand-in:x" 1 "$job"
    say 'attack: is told' tells 'no verdict on this job: the job could not be read whole'
    say 'attack: nothing is sent' sends_nothing
done
for way in hold print; do
    say "attack: no search for other languages, with $way" \
        with no_awk gate 3 "/front/$way/stand-in:x" 1 "$job"
    say 'attack: is told' tells 'other languages could not be looked for'
    say 'attack: nothing is sent' sends_nothing
done

# A job that fails, and leaves no room for the words of the check.
cat >"$work/bin/in_64k" <<END
#!/bin/sh
mount -t tmpfs -o size=64k tmpfs "$alone/tmp" && exec "\$@"
END
chmod 755 "$work/bin/in_64k"
if unshare -m "$work/bin/in_64k" true; then
    { cat "$job" && head -c 65536 /dev/zero; } | head -c 65536 >"$alone/fills.pcl"
    UNDER="unshare -m $work/bin/in_64k"
    for way in hold print; do
        say "attack: a job that takes all room, with $way" \
            gate 3 "/all/$way/stand-in:x" 1 "$alone/fills.pcl"
        say 'attack: is told' tells 'there is no room for what the check tells'
        say 'attack: nothing is sent' sends_nothing
    done
    UNDER=
else
    echo 'attack: a job that takes all room is not tried: nothing can be mounted'
fi

# The file is another one as soon as it was checked.
cat >"$work/bin/swaps" <<END
#!/bin/sh
"$work/bin/pclcheck" "\$@"
status=\$?
cat "$alone/wrong.pcl" >"$alone/swapped.pcl"
exit \$status
END
chmod 755 "$work/bin/swaps"
cp "$job" "$alone/swapped.pcl"
PROGRAM=$work/bin/swaps
say 'attack: a file that is swapped when it was checked' \
    gate 0 /shop/stand-in:x 2 "$alone/swapped.pcl"
PROGRAM=
cat "$job" "$job" >"$alone/twice"
say 'attack: what was checked is sent' sends "$alone/twice"

# Jobs that pass as text, which a printer may take for another language.
refuses_language() {            # refuses_language FORMAT: what printf writes by it
    # shellcheck disable=SC2059  # it is a format
    printf "$1" >"$alone/language.pcl"
    gate 3 /front/stand-in:x 1 "$alone/language.pcl" && sends_nothing &&
        tells 'ERROR: preflight: this job is PostScript, PDF or PCL XL, or turns to one of them'
}
takes_language() {              # takes_language FORMAT: it is checked as PCL
    # shellcheck disable=SC2059  # it is a format
    printf "$1" >"$alone/language.pcl"
    gate 0 /front/stand-in:x 1 "$alone/language.pcl" && sends "$alone/language.pcl"
}
leave='\033%%-12345X'
at=0
for start in '%%!PS' '%%PDF-1.7' ') HP-PCL XL;2;0' '( HP-PCL XL' "' HP-PCL XL" '\r\n %%!' \
    'A\033E%%!' "A$leave%%!" "A$leave@PJL COMMENT x\n%%PDF-" "$leave$leave\n) HP-PCL XL" \
    "$leave@PJL\r\n@PJL ENTER LANGUAGE=PCL\r\n%%!" "$leave@PJL COMMENT \001%%!\n%%!" \
    "$leave@PJL COMMENT \033E x\n%%!" "$leave@PJL COMMENT ${leave}x\033y\n%%PDF-"; do
    at=$((at + 1))
    say "attack: another language ($at)" refuses_language "$start"
done
say 'attack: behind a line of the job language without an end' \
    refuses_language "$leave@PJL COMMENT $(printf '%066000d' 0)\n%%!"
at=0
for start in 'A%%!' '%%' '%%PDX' ') HP' "A$leave" "$leave@PJL COMMENT %%!\n" "$leave@PJL\nA%%!"; do
    at=$((at + 1))
    say "attack: no other language ($at)" takes_language "$start"
done
# Two copies are one stream: here the first ends in a line, which the second goes on with.
printf 'x\n%%!\033%%-12345X@PJL COMMENT ' >"$alone/language.pcl"
say 'attack: another language in a second copy' \
    gate 3 /front/stand-in:x 2 "$alone/language.pcl"
say 'attack: is seen' tells 'this job is PostScript, PDF or PCL XL, or turns to one of them'
PCLCHECK_ANY_LANGUAGE=print
export PCLCHECK_ANY_LANGUAGE
say 'attack: where other languages are let through' takes_language '%%!PS'
unset PCLCHECK_ANY_LANGUAGE
printf '%%!PS' >"$alone/language.pcl"
say 'attack: logged: another language' gate 0 /front/log/stand-in:x 1 "$alone/language.pcl"
say 'attack: logged: is sent' sends "$alone/language.pcl"
say 'attack: logged: has its line' is_logged front '"job":"7","kind":"language","verdict":"FAIL"'
say 'attack: logged: is copied' cmp "$alone/log/front/7.pcl" "$alone/language.pcl"

# The backend runs as root, and the folder of its log is of another user, who lays links there.
theirs=$alone/theirs
mkdir "$theirs" "$theirs/all"
echo precious >"$alone/precious"
cp "$alone/precious" "$alone/also_precious"
ln -s "$alone/precious" "$theirs/all.jsonl"
ln "$alone/precious" "$theirs/front.jsonl"
ln -s "$alone/also_precious" "$theirs/all/7.pcl"
chown -R -h lp:lp "$theirs"
is_precious() { cmp "$alone/precious" "$alone/also_precious" && has precious "$alone/precious"; }
PCLCHECK_LOG=$theirs
say 'attack: links in the folder of the log' gate 0 /all/log/stand-in:x 1 "$job"
say 'attack: the job is sent' sends "$job"
say 'attack: nothing is written through them' is_precious
say 'attack: which is told' tells "ERROR: preflight: $theirs cannot be written"
# Links that were laid before the folder became that of root.
chown root:root "$theirs"
say 'attack: links from before' gate 0 /all/log/stand-in:x 1 "$job"
say 'attack: nothing is written through them' is_precious
chown root:root "$theirs/all"
say 'attack: a second name of a file' gate 0 /front/log/stand-in:x 1 "$alone/spaced.pcl"
say 'attack: nothing is written through it' is_precious
say 'attack: and in a folder below' gate 0 /all/log/stand-in:x 1 "$job"
say 'attack: nothing is written through them' is_precious
say 'attack: the job is copied in place of the link' cmp "$theirs/all/7.pcl" "$job"
chmod 777 "$theirs"
say 'attack: a folder in which others may write' gate 0 /shop/log/stand-in:x 1 "$job"
say 'attack: has no line' [ ! -e "$theirs/shop.jsonl" ]
ln -s "$theirs" "$alone/link"
chmod 700 "$theirs"
PCLCHECK_LOG=$alone/link
say 'attack: a link for a folder' gate 0 /shop/log/stand-in:x 1 "$job"
say 'attack: has no line' [ ! -e "$theirs/shop.jsonl" ]

# What is copied is counted with the copy that is made.
PCLCHECK_LOG=$alone/log
PCLCHECK_LOG_MOST=1
export PCLCHECK_LOG_MOST
rm -r "$alone/log/all"
{
    cat "$job"
    head -c 700000 /dev/zero | tr '\0' ' '
} >"$alone/large.pcl"
say 'attack: a job that fills the folder of the log' \
    gate 0 /all/log/stand-in:x 3 "$alone/large.pcl"
is_empty() { [ -z "$(ls -A "$1")" ] || { ls -lA "$1"; return 1; }; }
say 'attack: is not copied' is_empty "$alone/log/all"
say 'attack: which is told' tells 'all takes no more jobs'
say 'attack: one for which there is room' gate 0 /all/log/stand-in:x 1 "$alone/large.pcl"
say 'attack: is copied' cmp "$alone/log/all/7.pcl" "$alone/large.pcl"
is_private() { is_equal "$(stat -c %a "$1")" "$2"; }
say 'attack: which nobody else may read' is_private "$alone/log/all/7.pcl" 600
unset PCLCHECK_LOG_MOST
rm -r "$alone/log/all"
