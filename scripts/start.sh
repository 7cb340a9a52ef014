# What the scripts at the top share: they find a program, build it where none of this text is there,
# and run it.
#
# A script says `top`, the folder of the repository, `name`, the crate of its program, and `takes`,
# how long a proof takes from nothing. Then it calls `start` with its words.
#
# Beside a program stands its stamp: a sum of the text that it was built of, and one of itself. A
# program that was proved has a stamp of another name than one that wasn't. Where the text is another
# one by now, or the program, it isn't run.
#
# Where there is no program to run, the status is 125, with which the programs themselves never end.

proved=$top/crates/$name/out/$name
unproved=$top/out/$name
# A tree that `scripts/install` or `scripts/release` made has a program and no source.
packed=$top/program/$name

say() {
    echo "$name: $*" >&2
}

fail() {
    say "$@"
    exit 125
}

# Ends without a program where a command is not found.
need() {
    command -v "$1" >/dev/null || fail "the command $1 is not found; README.md says what is needed"
}

is_packed() {
    [ -x "$packed" ]
}

# The crates of the repository below a crate, by crates.txt, each behind those below it.
crates_below() {
    awk -v crate="$1" '
        function visit(name,    words, count, i) {
            count = split(needs[name], words, " ")
            for (i = 1; i <= count; i++)
                if (words[i] in needs && !(words[i] in seen)) {
                    seen[words[i]]
                    visit(words[i])
                    print words[i]
                }
        }
        { sub(/#.*/, "") }
        split($0, line, ":") > 1 { split(line[1], name, " "); needs[name[1]] = line[2] }
        END { visit(crate) }' "$top/crates.txt"
}

# A sum of all text that the program is made of.
text_sum() (
    cd "$top/crates" || exit
    find ../crates.txt $(crates_below "$name") "$name" -name out -prune -o \
        -type f \( -name crates.txt -o -name '*.rt' -o -name '*.antt' \) -exec cksum {} + |
        LC_ALL=C sort | cksum
)

# Whether a program, with its stamp, is there and of the text that stands here now.
is_of_text() {
    [ -x "$1" ] && [ "$(cat "$2" 2>/dev/null)" = "$(text_sum) $(cksum <"$1")" ]
}

is_proved() {
    if is_packed; then
        [ -e "$packed.proved" ]
    else
        is_of_text "$proved" "$proved.proved"
    fi
}

is_built() {
    is_of_text "$unproved" "$unproved.unproved"
}

# Has a script build a program of the text as it stands now.
build() {
    script=$1 program=$2 stamp=$3
    rm -f "$program" "$stamp"
    text=$(text_sum)
    python3 "$top/scripts/$script" "$name" "$program" || exit 125
    echo "$text $(cksum <"$program")" >"$stamp"
    is_of_text "$program" "$stamp" || {
        rm -f "$program" "$stamp"
        fail "the text changed meanwhile; start again"
    }
}

# Builds by two functions: the first one says whether there is a program, and the second one makes
# it. One call at a time does so, and the others wait, and then find what it has made.
build_once() {
    ! is_packed || fail "there is no source here to build another program from"
    need rt
    need python3
    mkdir -p "$top/out" || exit 125
    (
        python3 "$top/scripts/lock.py" 9 "$name" || exit 125
        "$1" || "$2"
    ) 9>"$top/out/$name.$1.lock" || exit
}

prove() {
    say "proving and building the program; that takes $takes from nothing, and less after a change"
    build prove.py "$proved" "$proved.proved"
}

build_unproved() {
    say "building the program without a proof, once; that takes a minute or two"
    build unproved.py "$unproved" "$unproved.unproved"
}

# Finds the program to run, and says where nothing is proved of it. With a word that isn't empty it
# is the one without a proof.
find_program() {
    if is_packed; then
        program=$packed
        [ -z "$1" ] || [ ! -e "$packed.proved" ] || fail "there is no program without a proof here"
    elif [ -z "$1" ] && is_proved; then
        program=$proved
    else
        is_built || build_once is_built build_unproved
        program=$unproved
    fi
    [ -e "$program.unproved" ] || return 0
    way="./$name --prove proves it, in $takes"
    ! is_packed || way='it was built without a proof'
    say "not proved: $way"
    # With its checks it needs several times the stack on deep texts.
    ulimit -s unlimited 2>/dev/null || ulimit -s "$(ulimit -H -s)" 2>/dev/null || :
}

# The version of the text, its commit where git tells it, whether it is proved, and the kit's line.
version() {
    if is_packed; then
        cat "$top/program/version"
        return
    fi
    commit=$(git -C "$top" describe --always --dirty --exclude '*' 2>/dev/null)
    kit=$(rt version 2>/dev/null | head -n 1)
    proof="not proved; ${kit:-no kit}"
    is_proved && proof="proved with ${kit:-a kit that is not here}"
    echo "lurette $(cat "$top/VERSION")${commit:+ ($commit)}, $proof"
}

# Answers the words that need no program. Without words the text of help goes to standard error.
answer_at_once() {
    case ${1-} in
        '')
            cat "$top/scripts/$name.help" >&2
            exit 2
            ;;
        -h | --help) cat "$top/scripts/$name.help" ;;
        --version) version ;;
        --is-proved) is_proved ;;
        *) return 0 ;;
    esac
    exit
}

# Runs a script over traces, where the first word names one. Only `shorten` takes the program, and
# not where it is to say which words it has. The others need none.
start_script() {
    script=${1-}
    case $name:$script in
        lurette:reached | lurette:parts | lurette:shorten) shift ;;
        *) return 0 ;;
    esac
    need python3
    case $script:${1-} in
        shorten: | shorten:-h | shorten:--help) set -- --program none "$@" ;;
        shorten:*)
            find_program "$is_unproved"
            set -- --program "$program" "$@"
            ;;
    esac
    exec python3 "$top/scripts/$script.py" "$@"
}

# Runs the program on the words given, behind those of the script's own.
start() {
    explains='' is_unproved='' was_proved=''
    [ -t 2 ] && command -v python3 >/dev/null && explains=yes
    while :; do
        case ${1-} in
            --explain) explains=yes ;;
            --unproved) is_unproved=yes ;;
            --prove)
                is_proved || build_once is_proved prove
                was_proved=yes
                ;;
            *) break ;;
        esac
        shift
    done
    # What a line means is known of this program alone.
    [ "$name" = lurette ] || explains=''
    [ -z "$was_proved" ] || [ $# -gt 0 ] || exit 0
    answer_at_once "$@"
    start_script "$@"
    find_program "$is_unproved"
    if [ "$1" = --which ]; then
        echo "$program"
        exit
    fi
    [ -z "$explains" ] || need python3
    [ -z "$explains" ] || exec python3 "$top/scripts/explain.py" "$program" "$@"
    exec "$program" "$@"
}
