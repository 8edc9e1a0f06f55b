#!/bin/sh
# Makes jobs with programs of Debian, and tells whether pclcheck says of each what docs/HOSTS.md has.
#
#   contrib/hosts/try.sh [PROGRAM]        PROGRAM is pclcheck; crates/pclcheck/out/pclcheck without it
#
# Not part of the gate. Needs of Debian 12, without what they recommend, the packages
#
#   barcode cups-core-drivers cups-filters cups-ppdc efax ghostscript gnuplot-nox graphicsmagick
#   groff hp2xx imagemagick netpbm plotutils
#
# A row whose program is missing is skipped, and so is one whose program makes no job. Takes less
# than a minute; all files are in a folder that is removed. The last line is
# 'N as said, M otherwise, K skipped', and the exit status is 0 where M is 0.
set -eu
here=$(cd "$(dirname "$0")" && pwd)
program=${1:-$here/../../crates/pclcheck/out/pclcheck}
case $program in */*) program=$(cd "$(dirname "$program")" && pwd)/$(basename "$program") ;; esac
work=$(mktemp -d /tmp/pclcheck-hosts.XXXXXX)
trap 'rm -rf "$work"' EXIT
trap 'exit 2' HUP INT TERM
cd "$work"
LC_ALL=C.UTF-8
export LC_ALL
PATH=$PATH:/usr/lib/cups/filter
as_said=0
otherwise=0
skipped=0

# The printer: letter and A4, and a panel that nobody uses.
"$program" profile new hp-laserjet-4250 >laser.profile

# row DUE NAME COMMAND..: DUE is PASS, or number and name of what the job written by COMMAND fails by.
row() {
    due=$1
    name=$2
    shift 2
    if ! command -v "$1" >made 2>&1; then
        skipped=$((skipped + 1))
        echo "skipped: $name: $1 is missing"
        return
    fi
    if ! "$@" >job 2>errors || [ ! -s job ]; then
        skipped=$((skipped + 1))
        echo "skipped: $name: made no job: $(tail -n 1 errors)"
        return
    fi
    told=$("$program" check --format words -p laser.profile job 2>&1) || :
    case $told in
    *' prints this job ('*) came=PASS ;;
    *) came=$(printf '%s' "$told" | sed 's/.* (\(.*\))$/\1/') ;;
    esac
    if [ "$came" = "$due" ]; then
        as_said=$((as_said + 1))
        echo "as said: $name: $told"
    else
        otherwise=$((otherwise + 1))
        echo "OTHERWISE: $name: due $due: $told"
    fi
}

# What they are made from: a page of PostScript, a picture, a plot, texts.
cat >page.ps <<'EOF'
%!PS-Adobe-3.0
/Courier findfont 12 scalefont setfont 72 700 moveto (INVOICE 4711) show
72 640 468 2 rectfill showpage
EOF
{ echo 'P1 400 60'; for bit in 0 1 0 1; do yes "$bit" | head -n 6000; done; } >picture.pbm
echo 'IN;SP1;PU400,400;PD4400,400,4400,3400,400,3400,400,400;PU;SP0;' >plot.hpgl
seq -f 'line %g of a listing' 40 >text.txt
printf 'ITEM\tPIECES\n' >tabs.txt
printf '.TH FORM 1\n.SH NAME\nform \\- a form\n' >manual.1
printf '.sp 1i\n.ps 12\nINVOICE 4711\n.br\nTOTAL 259.90\n' >page.tr
printf '.sp 1i\n.ps 12\n.TS\nallbox;\nl l.\nA\tB\n.TE\n' >boxed.tr

ghostscript() { gs -q -dSAFER -dBATCH -dNOPAUSE "-sDEVICE=$1" -sOutputFile=- page.ps; }
cups_driver() {                 # cups_driver PPD: what the filter of CUPS makes of a page
    ppdc -d ppd /usr/share/cups/drv/sample.drv >&2
    gs -q -dSAFER -dBATCH -dNOPAUSE -sDEVICE=cups -r300 -sPAPERSIZE=letter -dcupsColorSpace=3 \
        -dcupsBitsPerColor=1 -sOutputFile=page.ras page.ps >&2
    PPD=ppd/$1 rastertohp 1 user title 1 '' page.ras
}
overstruck() { GROFF_NO_SGR=1 nroff -c -man manual.1; }
drawn() { gnuplot -e "set terminal $1; plot sin(x)"; }
graphed() { printf '0 0\n1 1\n2 0\n' | graph -T pcl; }

for device in laserjet ljetplus; do
    row '25 RasterNotStarted' "ghostscript, $device" ghostscript $device
done
row '10 BadValue' 'ghostscript, ljet2p' ghostscript ljet2p
row '10 BadValue' 'ghostscript, fs600' ghostscript fs600
row '3 NotInProfile(&lU)' 'ghostscript, ljet3' ghostscript ljet3
row '3 NotInProfile(&lU)' 'ghostscript, ljet4' ghostscript ljet4
row '5 Pjl' 'ghostscript, pxlmono' ghostscript pxlmono
row PASS 'ghostscript, lp2563' ghostscript lp2563
row '3 NotInProfile(&lP)' 'the laserjet driver of CUPS' cups_driver laserjet.ppd
row PASS 'text, by texttotext of CUPS' texttotext 1 user title 1 '' text.txt
row PASS 'pbmtolj' pbmtolj picture.pbm
row '10 BadValue' 'pbmtolj -packbits' pbmtolj -packbits picture.pbm
row '10 BadValue' 'pbmtolj -delta' pbmtolj -delta picture.pbm
row '10 BadValue' 'ImageMagick' /usr/bin/convert picture.pbm pcl:-
row PASS 'ImageMagick, -compress None' /usr/bin/convert picture.pbm -compress None pcl:-
row '10 BadValue' 'GraphicsMagick' gm convert picture.pbm pcl:-
row PASS 'GraphicsMagick, -compress None' gm convert picture.pbm -compress None pcl:-
row '10 BadValue' 'groff in Times' groff -Tlj4 page.tr
row PASS 'groff in Courier, 12 points' groff -Tlj4 -fC page.tr
row PASS 'the same in landscape' groff -Tlj4 -fC -P-l page.tr
row PASS 'the same on both sides' groff -Tlj4 -fC -P-d2 page.tr
row '3 NotInProfile(SC)' 'groff, a table in boxes' groff -t -Tlj4 -fC boxed.tr
row '3 NotInProfile(x08)' 'a manual page, struck over' overstruck
row '3 NotInProfile(x09)' 'a text with tabs, by pr' pr tabs.txt
row '15 OffPage' 'a text that ends its lines by LF' cat text.txt
row PASS 'gnuplot, hpljii' drawn hpljii
row PASS 'gnuplot, hpdj' drawn hpdj
row '3 NotInProfile(%B)' 'gnuplot, pcl5' drawn pcl5
row PASS 'hp2xx' hp2xx -q -m pcl -d 100 -f - plot.hpgl
row '17 NotPrintable' 'hp2xx -i' hp2xx -q -m pcl -i -d 100 -f - plot.hpgl
row '3 NotInProfile(BP)' 'graph -T pcl of plotutils' graphed
row PASS 'a plot that is sent as it is, which prints as text' cat plot.hpgl
row PASS 'barcode -n' barcode -P -n -b 12345678
row '10 BadValue' 'barcode with its letters' barcode -P -b 12345678
row '10 BadValue' 'efix' efix -o pcl text.txt

echo "$as_said as said, $otherwise otherwise, $skipped skipped"
[ $otherwise -eq 0 ]
