# Help and bad usage of the scripts in tools/ and hosts/, which read this file. A script's help is the comment at its head.

# The comment at the head of the script.
head_comment() {
    sed -n -e 1d -e '/^#/!q' -e 's/^# \{0,1\}//p' "$0"
}

# bad_usage TEXT: one line on the standard error, and status 2.
bad_usage() {
    echo "$0: $1; $0 --help tells the usage" >&2
    exit 2
}

# option_or_help KNOWN WORD: a word that asks for help gets it; an option that is not among KNOWN, which blanks part, is bad usage.
option_or_help() {
    case $2 in
    -h | --help)
        head_comment
        exit 0
        ;;
    -*) case " $1 " in *" $2 "*) ;; *) bad_usage "unknown option $2" ;; esac ;;
    esac
}

# options KNOWN WORDS: the same of each word.
options() {
    known=$1
    shift
    for word in "$@"; do
        option_or_help "$known" "$word"
    done
}

# no_words WORDS: help, or nothing at all.
no_words() {
    options "" "$@"
    [ $# -eq 0 ] || bad_usage "it takes no words"
}

# number TEXT: whether it is one that a program of 64 bits reads.
number() {
    case $1 in '' | *[!0-9]*) return 1 ;; esac
    [ ${#1} -le 19 ]
}

# count_and_seed WORDS: help, or N and SEED, two numbers.
count_and_seed() {
    options "" "$@"
    [ $# -eq 2 ] && number "$1" && number "$2" || bad_usage "it takes two numbers, N and SEED"
}

# need TOOLS: each is on the path, or the script ends with status 2.
need() {
    for tool in "$@"; do
        command -v "$tool" >/dev/null || { echo "$0: it needs $tool, which is not on the path" >&2; exit 2; }
    done
}
