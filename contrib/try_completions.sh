#!/bin/sh
# Tries the completions in bash, zsh and fish: types lines and a tab, and looks at what comes.
#
#     contrib/try_completions.sh [PROGRAM]
#
# PROGRAM is the built program, if not crates/pclcheck/out/pclcheck. Needs bash, and from Debian
# zsh, whose terminals bash is tried in, too, and fish; it takes half a minute. Prints what is not
# as it has to be, and at last 'N passed, M failed'. The exit status is 0 where M is 0, else 1, and
# 2 where something is missing. All is done in a temporary folder, which is removed.
set -eu

missing()
{
    echo "try_completions: $1" >&2
    exit 2
}

program=$(realpath "${1:-$(dirname "$0")/../crates/pclcheck/out/pclcheck}")
cd "$(dirname "$0")/.."
[ -x "$program" ] || missing "there is no program $program"
for shell in bash zsh fish; do
    command -v "$shell" > /dev/null || missing "there is no $shell"
done
root=$PWD
folder=$(mktemp -d)
trap 'rm -rf "$folder"' EXIT
trap 'exit 1' HUP INT TERM
mkdir "$folder/bin" "$folder/home"
ln -s "$program" "$folder/bin/pclcheck"
cp -r examples "$folder/examples"
mkdir "$folder/examples/kept"
PATH=$folder/bin:$PATH
HOME=$folder/home
export PATH HOME root

# What is typed, and behind the bar the word that takes the place of the last one; the first of
# several. Behind an empty word nothing may come.
cat > "$folder/rows" <<'END'
pclcheck pr|profile
pclcheck chec|check
pclcheck profile fr|from-pjl
pclcheck help pro|profile
pclcheck help profile sho|show
pclcheck profile help she|sheet
pclcheck --ver|--version
pclcheck check --exi|--exit-zero
pclcheck list --h|--help
pclcheck check --format w|words
pclcheck check --format=js|--format=json
pclcheck check --unchecked pa|pass
pclcheck check -p @|@A
pclcheck check -p fro|front_desk.profile
pclcheck check --fleet sho|shop.fleet
pclcheck check --files0-from sho|shop.fleet
pclcheck check let|letter.pcl
pclcheck check letter.pcl @|@A
pclcheck check letter.pcl fro|front_desk.profile
pclcheck check letter.pcl @B @|@A
pclcheck check -f shop.fleet let|letter.pcl
pclcheck check -f shop.fleet letter.pcl @|
pclcheck check --fleet shop.fleet letter.pcl @|
pclcheck check --printer=@A letter.pcl @|
pclcheck compare --any|--any-order
pclcheck compare --format w|words
pclcheck compare let|letter.pcl
pclcheck compare letter.pcl labels.pcl @|@A
pclcheck compare --within 0.1mm --picture out.svg let|letter.pcl
pclcheck compare --within 0.1mm letter.pcl labels.pcl @|@A
pclcheck compare --golden ke|kept/
pclcheck compare --golden kept -p fro|front_desk.profile
pclcheck compare --golden kept -p @A invoice.pcl labels.pcl let|letter.pcl
pclcheck compare --golden kept -p @A invoice.pcl labels.pcl @|
pclcheck pages letter.pcl @|@A
pclcheck plain let|letter.pcl
pclcheck pin --panel ori|orientation=
pclcheck pin --panel size=26,v|size=26,vmi=
pclcheck pin letter.pcl dis|dispatch.profile
pclcheck explain Uns|Unset
pclcheck profile list let|
pclcheck profile new hp-laserjet-425|hp-laserjet-4250
pclcheck profile new --panel fr|free
pclcheck profile new --fixed cop|copies
pclcheck profile new --size execu|executive
pclcheck profile new hp-laserjet-4 --size jis|
pclcheck profile new kyocera-fs-1020d --size a4,exe|a4,executive
pclcheck profile lint @A fro|front_desk.profile
pclcheck profile show @|@A
pclcheck profile sheet dis|dispatch.profile
pclcheck profile from-pjl let|letter.pcl
END

# Types each line in a terminal of bash or zsh: what the line then is goes to a file, a line each.
# Behind a value of a list zsh puts a comma, which a blank takes away again.
cat > "$folder/type.zsh" <<'END'
zmodload zsh/zpty
shell=$1 rows=$2 out=$3
drain() { local some; while zpty -rt shell some 2>/dev/null; do :; done }
typeset -A begin=(
    zsh 'zsh -f -i' bash 'bash --norc -i'
)
typeset -A set=(
    zsh 'PS1=; unsetopt beep; setopt menu_complete; fpath=($root/completions/zsh $fpath)
autoload -U compinit; compinit -u -D
show() { print -r -- "${BUFFER%,}" >> $out; BUFFER=; }; zle -N show; bindkey "^X^X" show'
    bash 'PS1=; . "$root/completions/bash/pclcheck"; bind "TAB: menu-complete"
show() { printf "%s\n" "$READLINE_LINE" >> "$out"; READLINE_LINE=; }; bind -x "\"\C-x\C-x\": show"'
)
export out
zpty shell $begin[$shell]
zpty -w shell "$set[$shell]; : > $out"
for try in {1..200}; do drain; [[ -e $out ]] && break; sleep 0.05; done
integer lines=0
while read -r row; do
    zpty -wn shell "${row%|*}"$'\t'
    # The tab is answered once the terminal has been silent for a while.
    for try in {1..4}; do sleep 0.1; drain; done
    zpty -wn shell $'\C-x\C-x'
    lines+=1
    for try in {1..100}; do
        drain
        (( $(wc -l < $out) >= lines )) && break
        sleep 0.05
    done
done < $rows
zpty -d shell
END

# Asks fish for what it would offer, and puts the first behind what is typed.
cat > "$folder/ask.fish" <<'END'
source "$root/completions/fish/pclcheck.fish"
while read -l row
    set -l typed (string replace -r '\|.*' '' -- $row)
    set -l word (complete -C "$typed" | string replace -r '\t.*' '')[1]
    test -n "$word"
    and string replace -r '\S*$' -- (string escape --style=regex -- $word | string unescape) $typed
    or echo $typed
end
END

# The line that a row has to become.
due_of()
{
    typed=${1%|*}
    word=${1##*|}
    if [ -n "$word" ]; then echo "${typed% *} $word"; else echo "$typed"; fi
}

passed=0
failed=0
for shell in bash zsh fish; do
    case $shell in
        fish) (cd "$folder/examples" && fish --no-config "$folder/ask.fish") < "$folder/rows" \
            > "$folder/$shell" ;;
        *) (cd "$folder/examples" && zsh -f "$folder/type.zsh" "$shell" "$folder/rows" \
            "$folder/$shell") ;;
    esac
    exec 3< "$folder/$shell"
    while read -r row; do
        due=$(due_of "$row")
        came=
        read -r came <&3 || came='(nothing came)'
        if [ "$came" = "$due" ]; then
            passed=$((passed + 1))
        else
            failed=$((failed + 1))
            echo "FAILED: $shell: ${row%|*}: came $came, due $due"
        fi
    done < "$folder/rows"
    exec 3<&-
done
echo "$passed passed, $failed failed"
[ "$failed" -eq 0 ]
