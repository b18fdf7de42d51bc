# What is answered without building, from the texts that the program has too: help, the version, explain, and invalid arguments.
# Read by the script pilzdamo at the root.
# shellcheck shell=bash disable=SC2154

# Prints files, or standard input.
print() {
    cat -- "$@" 2>/dev/null || {
        say "standard output can't be written"
        exit 2
    }
}

# The program's commands: each has a page of help.
words() {
    local page
    for page in "$texts"/help/*.txt; do
        page=${page##*/}
        printf '%s\n' "${page%.txt}"
    done
}

is_word() { [[ $1 && $1 != */* && -f $texts/help/$1.txt ]]; }

no_word() { # WORD
    local all
    all=$(words)
    misused "there is no command '$(shown "$1")'; the commands are ${all//$'\n'/, }, and here build and install"
}

# The help of a command, or the whole page.
help() { # [WORD]
    case ${1-} in
    build | install) help_here "$1" ;;
    *)
        if ((!$#)); then
            print "$texts/help.txt"
            return
        fi
        is_word "$1" || no_word "$1"
        print "$texts/help/$1.txt"
        ;;
    esac
}

version() { sed -n 's/^version = "\(.*\)"$/pilzdamo \1/p' "$root/rust/Cargo.toml" | print; }

# What a refusal's number means, to be read or as an object.
explain() { # N [--json]
    local all=("$texts"/explain/*.txt) number page
    if [[ $1 =~ ^[+]?0*([1-9][0-9]*)$ ]]; then
        number=${BASH_REMATCH[1]}
        page=$texts/explain/$number.txt
    fi
    [[ -f ${page-} ]] || misused "explain: the refusals have the numbers 1 to ${#all[@]}, not '$(shown "$1")'"
    if [[ ${2-} ]]; then object "$number" "$page" | print; else print "$page"; fi
}

# A page of explain as an object: its first line is the meaning, each later part begins with its key, and indented lines continue it.
object() { # NUMBER PAGE
    local line key object="{\"number\": $1"
    while IFS= read -r line; do
        line=${line//\\/\\\\}
        line=${line//\"/\\\"}
        case $line in
        Refused*) object+=", \"meaning\": \"$line" ;;
        '  '*) object+=" ${line#  }" ;;
        *': '*)
            key=${line%%: *}
            key=${key#the }
            object+="\", \"${key// /_}\": \"${line#*: }"
            ;;
        esac
    done <"$2"
    printf '%s"}\n' "$object"
}

# The options of the command: how messages call each, and what value it needs, if any. And the options given, with their values, and in order.
declare -A called=() wants=() given=()
typed=()

# Reads the options that a command's help describes: "  -o OUT, --output OUT".
read_options() { # WORD
    local line parts part name option value
    while IFS= read -r line; do
        [[ $line == '  -'* ]] || continue
        line=${line#  }
        IFS=, read -r -a parts <<<"${line%%  *}"
        read -r name _ <<<"${parts[0]}"
        for part in "${parts[@]}"; do
            read -r option value <<<"$part"
            called[$option]=$name
            wants[$option]=$value
        done
    done <"$texts/help/$1.txt"
}

has() { [[ ${given[$1]+there} ]]; } # OPTION

# Keeps an option, with its value, which may be the next argument.
keep_option() { # WORD OPTION TYPED [NEXT]
    local name=${called[$2]} value=
    if [[ -z ${wants[$2]} ]]; then
        [[ $3 != *=* ]] || misused "$1: $2 takes no value, as in '$(shown "$3")'"
    else
        case $3 in
        "$2")
            local due='the name of a file'
            if [[ ${wants[$2]} == TIME ]]; then due='a day and a time'; fi
            (($# > 3)) || misused "$1: $2 needs $due"
            value=$4
            ;;
        --*) value=${3#*=} ;;
        *) value=${3#"$2"} ;;
        esac
        ! has "$name" || misused "$1: $name is given twice"
    fi
    given[$name]=$value
    typed+=("$name")
}

# Separates the operands of a command from its options, and keeps both. Ends at an option that the command's help doesn't describe, and
# at --help, which is answered.
sort_operands() { # WORD OPERAND...
    local word=$1 next option
    operands=()
    read_options "$word"
    shift
    while (($#)); do
        next=$1
        shift
        option=
        case $next in
        --)
            operands+=("$@")
            return
            ;;
        -h | --help)
            help "$word"
            exit
            ;;
        --*) option=${next%%=*} ;;
        -o?*) option=-o ;;
        -?*) option=$next ;;
        esac
        if [[ $option && ${called[$option]-} ]]; then
            keep_option "$word" "$option" "$next" "${@:1:1}"
            if [[ $next == "$option" && ${wants[$option]} ]]; then shift; fi
        elif [[ -z $option || $word == explain || $word == reason ]]; then
            operands+=("$next")
        else
            misused "$word has no option '$(shown "$next")'"
        fi
    done
}

# The names of a command's operands, by the first line of its help.
operand_names() { # WORD
    local line
    read -r _ _ line <"$texts/help/$1.txt"
    if has -i; then line='FILE [CHOICES]'; fi
    read -r -a names <<<"${line%%\[-*}"
}

# Ends if more than one of the files that are read is standard input.
one_standard_input() { # WORD
    local names at name value all=() inputs=0
    operand_names "$1"
    for at in "${!operands[@]}"; do
        name=${names[at]-}
        if [[ -z $name && ${names[*]: -1} == *... ]]; then name=${names[*]: -1}; fi
        name=${name//[\[\].]/}
        case $name in
        FILE | A | B | NOTICE | TEXT | CHOICES | SEATS) add_input "$name" "${operands[at]}" ;;
        esac
    done
    for name in "${typed[@]}"; do
        value=${given[$name]}
        case $1$name in
        pack--*) ;;
        *--hours | *--seats | *--names)
            name=${name#--}
            add_input "${name^^}" "$value"
            ;;
        esac
    done
    ((inputs > 1)) || return 0
    misused "$1: only $(one_of "${all[@]}") can be standard input"
}

# "one FILE", or "one of FILE, NAMES and SEATS".
one_of() { # NAME...
    local last=${*: -1} others=("${@:1:$#-1}") which
    printf -v which '%s, ' "${others[@]}"
    if ((${#others[@]})); then which="one of ${which%, } and $last"; else which="one $last"; fi
    printf '%s' "$which"
}

# Counts a file that is read, and keeps its name if that isn't the one before.
add_input() { # NAME FILE
    if [[ ${all[*]: -1} != "$1" ]]; then all+=("$1"); fi
    if [[ $2 == - ]]; then inputs=$((inputs + 1)); fi
}

# Ends if options don't go together.
fit_options() { # WORD
    local other printed=()
    case $1 in
    pack)
        if [[ ${given[-o]--} == - ]]; then printed=(FILE); fi
        for other in names seats hours; do
            if [[ ${given[--$other]-} == - ]]; then printed+=("${other^^}"); fi
        done
        ((${#printed[@]} < 2)) || misused "pack: only $(one_of "${printed[@]}") can be standard output"
        ;;
    place)
        ! has --json || [[ ${given[-o]--} != - ]] ||
            misused "place: --json needs -o OUT: the placed file goes there, and the object to standard output"
        ;;
    run)
        for other in --trace --json; do
            ! has -i || ! has "$other" || misused "run: -i and $other don't go together"
        done
        ! has --trace || ! has --json || misused "run: --trace and --json don't go together"
        ;;
    show)
        ! has --svg || ! has --json || misused "show: --svg and --json don't go together"
        ! has -o || has --svg || has --json || misused "show: -o goes with --svg or --json"
        ;;
    esac
}

# Ends if a command has too few operands or too many, by the first line of its help.
count_operands() { # WORD
    local names least=0 name
    operand_names "$1"
    for name in "${names[@]}"; do
        if [[ $name != \[* ]]; then least=$((least + 1)); fi
    done
    ((${#operands[@]} >= least)) || misused "$1: ${names[${#operands[@]}]%...} is missing"
    [[ ${names[*]: -1} == *... ]] || ((${#operands[@]} <= ${#names[@]})) ||
        misused "$1: '$(shown "${operands[${#names[@]}]}")' is too many"
}

# Whether an argument is a number from LEAST to 65535.
is_number() { # WORD LEAST
    [[ $1 =~ ^0*([0-9]{1,5})$ ]] && ((10#${BASH_REMATCH[1]} >= $2 && 10#${BASH_REMATCH[1]} <= 65535))
}

# Whether an argument is a date that has a number.
is_date() { # WORD
    [[ $1 =~ ^([0-9]{4})-([0-9]{2})-([0-9]{2})$ ]] || return
    local year=$((10#${BASH_REMATCH[1]})) month=$((10#${BASH_REMATCH[2]})) day=$((10#${BASH_REMATCH[3]})) days=31
    case $month in
    4 | 6 | 9 | 11) days=30 ;;
    2) days=$((28 + (year % 4 == 0 && (year % 100 != 0 || year % 400 == 0)))) ;;
    esac
    ((1 <= month && month <= 12 && 1 <= day && day <= days)) && [[ ! $1 < 2000-01-01 && ! $1 > 2179-06-06 ]]
}

# Ends if DATE or DAY is no day.
fit_day() { # WORD NAME
    local day=${operands[0]} due="a date from 2000-01-01 to 2179-06-06, or a number of days from 0 to 65535"
    is_number "$day" 0 || is_date "$day" || misused "$1: $2 is $due, not '$(shown "$day")'"
}

# Ends if --hours has no --at, or TIME is invalid.
fit_hours() { # WORD
    # White space may be any that the program knows, so all but letters and digits passes for it.
    local LC_ALL=C space='[^a-z0-9:]' time
    time="^$space*(mon|tue|wed|thu|fri|sat|sun)$space+([01]?[0-9]|2[0-3]):[0-5][0-9]$space*\$"
    ! has --hours || has --at || misused "$1: --hours goes with --at TIME"
    ! has --at || [[ ${given[--at],,} =~ $time ]] ||
        misused "$1: --at needs a day and a time such as \"Mon 07:30\", not '$(shown "${given[--at]}")'"
}

# Ends if the operands don't fit the options, or are invalid.
fit_operands() { # WORD
    case $1 in
    run)
        local file
        for file in "${operands[@]}" "${given[--names]-}" "${given[--seats]-}"; do
            ! has -i || [[ $file != - ]] || misused "run: with -i standard input is what is typed, and no file can be it"
        done
        ;;
    check)
        ! has --names || ((${#operands[@]} < 2)) || misused "check: --names goes with one FILE"
        fit_hours check
        ;;
    place | measure) fit_hours "$1" ;;
    sheet) ((${#operands[@]} <= 1000)) || misused "sheet: a sheet has at most 1000 files, not ${#operands[@]}" ;;
    notice) fit_day notice DATE ;;
    in-force) fit_day in-force DAY ;;
    dispatch)
        ((${#operands[@]} < 2)) || is_number "${operands[1]}" 1 ||
            misused "dispatch: ROUNDS is a number from 1 to 65535, not '$(shown "${operands[1]}")'"
        ;;
    esac
}

# Ends with an answer if the texts have one.
answer_unbuilt() { # WORD...
    if ((!$#)); then
        help >&2
        exit 2
    fi
    case $1 in
    -h | --help)
        help
        exit
        ;;
    -V | --version)
        version
        exit
        ;;
    esac
    is_word "$1" || no_word "$1"
    [[ $1 == help ]] || way="pilzdamo help $1 says how to use it"
    sort_operands "$@"
    one_standard_input "$1"
    fit_options "$1"
    count_operands "$1"
    fit_operands "$1"
    case $1 in
    help) help "${operands[@]}" ;;
    explain)
        explain "${operands[@]}" "${given[--json]+--json}"
        ;;
    *) return 0 ;;
    esac
    exit
}
