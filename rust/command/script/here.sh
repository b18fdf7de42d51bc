# The commands that only a checkout has: build and install. Read by the script pilzdamo at the root.
# shellcheck shell=bash disable=SC2154

# The help of the commands that only this script has.
help_here() { # WORD
    case $1 in
    build) print <<'TEXT' ;;
./pilzdamo build

Proves the engine and builds the program, if a source has changed since the last
build, and does nothing else. Every other command builds too, if it must.
Exit status: 0 all is built, 3 something could not be built.
TEXT
    install) print <<'TEXT' ;;
./pilzdamo install [DIR]

Builds if it must, and copies the program into DIR, or into .local/bin of your
home. If DIR is called bin, its man page goes into ../share/man/man1 and the
pages GUIDE.md, CLI.md, FORMAT.md and JSON.md into ../share/doc/pilzdamo; else
into DIR and its folder doc. It prints the paths, and whether DIR is on the PATH.
The installed program needs neither this checkout nor a toolchain.
  ./pilzdamo install             into ~/.local/bin
  ./pilzdamo install /opt/bin    into /opt/bin
Exit status: 0 all is installed, 2 DIR can't be written, 3 something could not
be built.
TEXT
    esac
}

# Copies a file to a place: whole, or not at all.
put() { # FROM FOLDER NAME MODE
    local part=$2/.$3.$$
    mkdir -p -- "$2" && [[ ! -d $2/$3 ]] && cp -- "$1" "$part" && chmod "$4" "$part" && mv -f -- "$part" "$2/$3" && return
    rm -f -- "$part"
    misused "install: $(shown "$2/$3") can't be written"
}

# Puts the program, its man page and the pages that its help names where they are found, and says where that is.
install_into() { # DIR
    local folder=$1 pages documents page shown
    # By its whole name, which no CDPATH leads elsewhere; its last letter may be a line's end.
    if [[ $folder != /* ]]; then folder=$PWD/$folder; fi
    mkdir -p -- "$folder" || misused "install: $(shown "$1") can't be made"
    folder=$(cd -- "$folder" && pwd && printf .)
    folder=${folder%$'\n.'}
    [[ ! $folder -ef $root ]] || misused "install: $(shown "$1") is the checkout, and pilzdamo there is the script that builds"
    pages=$folder
    documents=$folder/doc
    if [[ ${folder##*/} == bin ]]; then
        pages=${folder%/*}/share/man/man1
        documents=${folder%/*}/share/doc/pilzdamo
    fi
    put "$program" "$folder" pilzdamo 755
    put "$root/docs/pilzdamo.1" "$pages" pilzdamo.1 644
    for page in GUIDE CLI FORMAT JSON; do
        put "$root/docs/$page.md" "$documents" "$page.md" 644
    done
    shown=$(shown "$folder")
    {
        printf 'the program is %s\nits man page is %s\n' "$shown/pilzdamo" "$(shown "$pages/pilzdamo.1")"
        printf 'its documents are in %s\n' "$(shown "$documents")"
        case :$PATH: in
        *:"$folder":*) printf '%s is on the PATH\n' "$shown" ;;
        *) printf '%s is not on the PATH: put it there, or call the program by its whole name\n' "$shown" ;;
        esac
    } | print
}

# The commands that only this script has.
carry_out_here() { # WORD [DIR]
    local word=$1 most=0
    operands=()
    shift
    while (($#)); do
        case $1 in
        --)
            shift
            operands+=("$@")
            break
            ;;
        -h | --help)
            help_here "$word"
            exit
            ;;
        -*) misused "$word has no option '$(shown "$1")'" ;;
        *) operands+=("$1") ;;
        esac
        shift
    done
    if [[ $word == install ]]; then most=1; fi
    ((${#operands[@]} <= most)) || misused "$word: '$(shown "${operands[most]}")' is too many"
    if ((${#operands[@]})) && [[ -z ${operands[0]} ]]; then misused "install: DIR is empty: ''"; fi
    if [[ $word == install && -z ${operands[0]-} && -z ${HOME-} ]]; then misused "install: DIR is missing, and HOME isn't set"; fi
    is_built || build || exit 3
    if [[ $word == install ]]; then install_into "${operands[0]:-${HOME-}/.local/bin}"; fi
    exit
}
