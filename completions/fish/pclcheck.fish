# Completes the words of pclcheck in fish. crosscheck/manual.py compares this with the program.

# The words of the command line up to the cursor that are commands, with a space between.
function __pclcheck_command
    set -l words (commandline -opc)
    set -e words[1]
    set -l found
    set -l is_value
    for word in $words
        if test -n "$is_value"
            set is_value
            continue
        end
        switch "$found $word"
            case ' check' ' survey' ' compare' ' list' ' pages' ' picture' ' pdf' ' notes' ' plain' \
                ' pin' ' explain' ' profile' ' help' 'profile list' 'profile new' 'profile lint' \
                'profile show' 'profile sheet' 'profile from-pjl' 'profile help' 'help profile'
                set found (string trim -- "$found $word")
            case ' --format'
                set is_value yes
            case ' -*'
            case '*'
                break
        end
    end
    echo $found
end

function __pclcheck_at
    set -l command (__pclcheck_command)
    test "$command" = "$argv[1]"
end

function __pclcheck_samples
    printf '@A\n@B\n@C\n@D\n'
end

function __pclcheck_profiles
    __pclcheck_samples
    __fish_complete_path (commandline -ct)
end

# In a check whose printers are named by options each word is a job, and no sample.
function __pclcheck_at_profile
    __pclcheck_at check
    and not string match -qr -- '^(-p|-f|--printer|--fleet)' (commandline -opc)
    and test (count (commandline -opc)) -gt 2
end

# In a comparison with a folder of jobs each word is a job, and no sample.
function __pclcheck_at_compared
    __pclcheck_at compare
    and not string match -q -- '--golden*' (commandline -opc)
end

function __pclcheck_models
    pclcheck profile list 2>/dev/null | string replace -r '^([^:]*): (.*); papers:.*' '$1\t$2'
end

# What the word under the cursor has up to its last comma, without the name of its option.
function __pclcheck_before
    commandline -ct | string replace -r '[^,]*$' '' | string replace -r '^--\w+=' '' \
        | string collect --allow-empty
end

# The papers of the model that stands on the line, or those of all.
function __pclcheck_papers
    set -l rows (pclcheck profile list 2>/dev/null)
    for word in (commandline -opc)
        set -l own (string match -- "$word: *" $rows)
        and set rows $own
    end
    set rows (string replace -r '.*; papers: ' '' -- $rows | string split ' ' | sort -u)
    string join \n -- (__pclcheck_before)$rows
end

function __pclcheck_fields
    string join \n -- (__pclcheck_before){size,orientation,vmi,font,copies,sides,tray,lineterm}=
end

function __pclcheck_findings
    pclcheck explain 2>/dev/null | string replace -rf '^(\d+) (.*)' '$2\t$1'
end

complete -c pclcheck -n '__pclcheck_at ""' -f
complete -c pclcheck -n '__pclcheck_at ""' -l format -x -a 'line words json html' \
    -d 'As --format of check, and for what stands in the way of each command'
complete -c pclcheck -n '__pclcheck_at ""' -s V -l version -d 'Print version'
complete -c pclcheck -n 'not string match -q "*help*" (__pclcheck_command)' -s h -l help \
    -d 'Print help'

for place in '' help
    complete -c pclcheck -n "__pclcheck_at '$place'" -f
    complete -c pclcheck -n "__pclcheck_at '$place'" -a check \
        -d 'Checks jobs for a fleet of printers, and writes a line for each: PASS or FAIL'
    complete -c pclcheck -n "__pclcheck_at '$place'" -a survey \
        -d 'Tells all that is refused of jobs, each kind of command once, and gives no verdict'
    complete -c pclcheck -n "__pclcheck_at '$place'" -a compare \
        -d 'Tells whether two jobs print the same, or how they differ'
    complete -c pclcheck -n "__pclcheck_at '$place'" -a list \
        -d 'Lists the items of a job: each command, control code and byte of text'
    complete -c pclcheck -n "__pclcheck_at '$place'" -a pages \
        -d 'Writes what a job marks on its pages, from the first panel setting of a printer'
    complete -c pclcheck -n "__pclcheck_at '$place'" -a picture \
        -d 'Draws a page of a job, from one panel setting of a printer'
    complete -c pclcheck -n "__pclcheck_at '$place'" -a pdf \
        -d 'Writes the pages of a job as a PDF document, from one panel setting of a printer'
    complete -c pclcheck -n "__pclcheck_at '$place'" -a notes \
        -d 'Tells what a job leaves to a printer, though it passes'
    complete -c pclcheck -n "__pclcheck_at '$place'" -a plain \
        -d 'Writes a job again, with each item in its canonical spelling'
    complete -c pclcheck -n "__pclcheck_at '$place'" -a pin \
        -d 'Writes a job again, pinned to one panel setting of a printer'
    complete -c pclcheck -n "__pclcheck_at '$place'" -a explain \
        -d 'Tells when a fault, finding or note comes, and what to change in the job or the profile'
    complete -c pclcheck -n "__pclcheck_at '$place'" -a profile \
        -d 'Makes, checks and shows profiles of printers'
    complete -c pclcheck -n "__pclcheck_at '$place'" -a help \
        -d 'Print this message or the help of the given subcommand(s)'
end

for place in profile 'profile help' 'help profile'
    complete -c pclcheck -n "__pclcheck_at '$place'" -f
    complete -c pclcheck -n "__pclcheck_at '$place'" -a list \
        -d 'Lists the models of which there are profiles, and their papers'
    complete -c pclcheck -n "__pclcheck_at '$place'" -a new \
        -d 'Writes the text of a profile of a model'
    complete -c pclcheck -n "__pclcheck_at '$place'" -a lint \
        -d 'Tells all that is wrong with profiles, and gives hints'
    complete -c pclcheck -n "__pclcheck_at '$place'" -a show -d 'Shows a profile to people'
    complete -c pclcheck -n "__pclcheck_at '$place'" -a sheet \
        -d 'Writes a job to print, by which a printer is compared with its profile'
    complete -c pclcheck -n "__pclcheck_at '$place'" -a from-pjl \
        -d "Writes the text of a profile after a printer's own answer"
    complete -c pclcheck -n "__pclcheck_at '$place'" -a help \
        -d 'Print this message or the help of the given subcommand(s)'
end

complete -c pclcheck -n '__pclcheck_at check' -s p -l printer -x -a '(__pclcheck_profiles)' \
    -d 'A printer; with it every word is a job. May come often'
complete -c pclcheck -n '__pclcheck_at check' -s f -l fleet -r \
    -d 'A text with a profile a line; as -p, and behind those of -p'
complete -c pclcheck -n '__pclcheck_at check' -l files0-from -r \
    -d 'The paths of the jobs, each ended by a zero byte; - is standard input'
complete -c pclcheck -n '__pclcheck_at check' -l allow-empty \
    -d 'A list of paths that has none is no error'
complete -c pclcheck -n '__pclcheck_at check' -l most-items -x \
    -d 'Gives a job up whose macros carry out more than so many items'
complete -c pclcheck -n '__pclcheck_at check' -l each \
    -d 'A line for each printer, with its own verdict'
complete -c pclcheck -n '__pclcheck_at check' -l notes \
    -d 'Tells below each PASS what the job leaves to the printer; reads it twice'
complete -c pclcheck -n '__pclcheck_at check' -l format -x -a 'line words json html' \
    -d 'What is told of a job: a line, a sentence, an object of JSON, or a row of a page of HTML'
complete -c pclcheck -n '__pclcheck_at check' -l explain \
    -d "Tells of each FAIL and note what 'pclcheck explain' tells of its number"
complete -c pclcheck -n '__pclcheck_at check' -l exit-zero -d 'Ends with 0 where a job fails, too'
complete -c pclcheck -n '__pclcheck_at check' -l unchecked -x -a 'fail pass' \
    -d 'How a job counts that pclcheck cannot judge'
complete -c pclcheck -n '__pclcheck_at check' -l pdf -r \
    -d 'Writes the pages of each job as a PDF document into a folder that is there'
complete -c pclcheck -n __pclcheck_at_profile -a '(__pclcheck_samples)' -d sample

complete -c pclcheck -n '__pclcheck_at survey' -l format -x -a 'line words json' \
    -d 'Lines for people, or with json objects; line and words are the same'

complete -c pclcheck -n __pclcheck_at_compared -a '(__pclcheck_samples)' -d sample
complete -c pclcheck -n '__pclcheck_at compare' -s p -l printer -x -a '(__pclcheck_profiles)' \
    -d 'A printer, behind those of PROFILE. May come often'
complete -c pclcheck -n '__pclcheck_at compare' -s f -l fleet -r \
    -d 'A text with a profile a line; as -p, and behind those of -p'
complete -c pclcheck -n '__pclcheck_at compare' -l any-order \
    -d 'The marks of a page may be made in any order'
complete -c pclcheck -n '__pclcheck_at compare' -l within -x \
    -d 'Each edge of a mark may lie off by so much, as 0.1mm or 0.004in'
complete -c pclcheck -n '__pclcheck_at compare' -l all \
    -d 'Tells all differences of the first printer that has one'
complete -c pclcheck -n '__pclcheck_at compare' -l most -x \
    -d 'Tells so many of them at most; without it 1000'
complete -c pclcheck -n '__pclcheck_at compare' -l golden -x -a '(__fish_complete_directories)' \
    -d 'Compares each word with the file of its name in DIR; printers come by -p and -f'
complete -c pclcheck -n '__pclcheck_at compare' -l picture -r \
    -d 'Draws the first page that differs into OUT, with --all each of them'
complete -c pclcheck -n '__pclcheck_at compare' -l format -x -a 'line words json' \
    -d 'A line, a sentence or an object of JSON'

complete -c pclcheck -n '__pclcheck_at pages' -a '(__pclcheck_samples)' -d sample

complete -c pclcheck -n '__pclcheck_at picture' -l page -x \
    -d 'The page to draw, from 1; without it the first'
complete -c pclcheck -n '__pclcheck_at picture' -l all -d 'Draws each page, in one document'
complete -c pclcheck -n '__pclcheck_at picture' -l boxes -d 'Draws the box of each character, too'
complete -c pclcheck -n '__pclcheck_at picture' -l panel -x -a '(__pclcheck_fields)' \
    -d 'Draws from these values of the panel; each field that is not named has its first value'
complete -c pclcheck -n '__pclcheck_at picture' -a '(__pclcheck_samples)' -d sample

complete -c pclcheck -n '__pclcheck_at pdf' -l page -x \
    -d 'The page to write, from 1; without it all'
complete -c pclcheck -n '__pclcheck_at pdf' -l proof \
    -d 'Draws the logical page, the printable area, and at the foot of each page its number and the verdict'
complete -c pclcheck -n '__pclcheck_at pdf' -l panel -x -a '(__pclcheck_fields)' \
    -d 'Writes from these values of the panel; each field that is not named has its first value'
complete -c pclcheck -n '__pclcheck_at pdf' -a '(__pclcheck_samples)' -d sample

complete -c pclcheck -n '__pclcheck_at notes' -a '(__pclcheck_samples)' -d sample

complete -c pclcheck -n '__pclcheck_at pin' -l panel -x -a '(__pclcheck_fields)' \
    -d 'Pins to these values of the panel; each field that is not named has its first value'
complete -c pclcheck -n '__pclcheck_at pin' -a '(__pclcheck_samples)' -d sample

complete -c pclcheck -n '__pclcheck_at explain' -f -a '(__pclcheck_findings)'

complete -c pclcheck -n '__pclcheck_at "profile list"' -f

complete -c pclcheck -n '__pclcheck_at "profile new"' -f -a '(__pclcheck_models)'
complete -c pclcheck -n '__pclcheck_at "profile new"' -l size -x -a '(__pclcheck_papers)' \
    -d 'The papers that are in the printer; without it letter and a4'
complete -c pclcheck -n '__pclcheck_at "profile new"' -l panel -x -a 'fixed free' \
    -d 'Whether people change what the panel has'
complete -c pclcheck -n '__pclcheck_at "profile new"' -l fixed -x -a 'size orientation vmi font copies sides tray' \
    -d 'Fields that nobody changes at a panel that is free'

for place in 'profile lint' 'profile show' 'profile sheet' 'profile from-pjl'
    complete -c pclcheck -n "__pclcheck_at '$place'" -a '(__pclcheck_samples)' -d sample
end
