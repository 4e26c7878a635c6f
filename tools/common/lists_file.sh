# shellcheck shell=sh disable=SC2034,SC2154
# tools/common/lists_file.sh: the file of Unicode's lists that lovemudarn reads with. It is sourced after programs.sh; `lists` is the file's name.
#
#   take_lists              a copy of the file: `room`/lists
#   judge_lists             ends, and says why, where the answer of a program is that the lists are refused
#   name_version            leaves in `lists_version` the Unicode version of the lists, as 15.0.0
#   name_lists              the same, and in `lists_sum` the SHA-256 of the file
#   first_line              ends, and says why, where the copy names no version: for what asks no program
#
# Whatever is wrong with the lists, the status is 2: nothing can be read with them.
own_lists=$root/data/unicode-15.0.0.lists
lists_limit=524288
anew='tools/unicode-lists FOLDER >FILE (see data/README.md)'

# say_lists MEANS ADVICE: the last lines of a message on the file, and the end
say_lists() {
    printf '  What it means: %s\n  What to do: %s.\n' "$1" "$2" >&2
    exit 2
}

take_lists() {
    take "$lists" lists $lists_limit && return
    advice='name a file of Unicode lists, or leave --lists out: the tool has lists of its own'
    [ "$lists" != "$own_lists" ] || advice='put it back, for it is part of this repository; or name another file of lists with --lists'
    say_lists 'the file of lists tells which characters past ASCII are in names, and nothing is read without it.' "$advice"
}

# judge_lists: no key and no list of tokens begins so. A NUL byte that the shell left out of what it read is one of the eight bytes.
judge_lists() {
    judged=yes
    case $first in "lists$tab"[0-9]"$tab") ;; *) return ;; esac
    IFS=$tab read -r word number beside second <"$room/answer"
    called "$lists"
    case $number in
    1) too_long ;;
    9) bad_line "$beside" ;;
    3) bad_pair "$beside" "$second" ;;
    esac
    die "$name: the programs in $root/crates do not read its copy: $word $number $beside $second"
}

too_long() {
    size=
    [ ! -f "$lists" ] || size=$(wc -c <"$lists" | tr -d ' ')
    printf '%s: refusal 1: the file of lists is larger than 524,288 bytes%s\n' "$name" "${size:+: it has $size}" >&2
    say_lists 'this tool takes no larger file of lists.' \
        'look whether it is a file of Unicode lists. If it is, join pairs that adjoin: tools/unicode-lists, without --unmerged, writes as few as there can be'
}

# show_line NUMBER: a line of the copy, counted from 1, as it can be shown; it is left in `room`/line
show_line() {
    { tail -n "+$1" "$room/lists" | head -n 1; } 2>/dev/null >"$room/line" || full
    shown='(nothing)'
    if [ "$(tr -d '\n' <"$room/line" | wc -c)" -gt 0 ]; then
        tr -d '\n' <"$room/line" | looked -v number=0 -v place=0 -v utf8="$utf8" >"$room/facts" || die 'awk or od failed'
        { read -r rest; IFS= read -r shown; } <"$room/facts"
    fi
    printf '    %s\n' "$shown" >&2
}

# bad_line NUMBER: refusal 9, with the number of the line, counted from 0
bad_line() {
    line=$(($1 + 1))
    printf '%s:%s: refusal 9: a line of the file of lists is out of form\n' "$name" "$line" >&2
    printf '  at line %s (counted from 1; the number beside the refusal, counted from 0, is %s):\n' "$line" "$1" >&2
    show_line "$line"
    means='a line is start, continue or emoji and two numbers, with one tab before each: the first and the last character of a run, in hexadecimal with small letters, at most six digits, no leading zeros. The lines of start come first, then those of continue, then those of emoji.'
    [ "$1" -gt 0 ] || means='the first line is unicode and the three numbers of a Unicode version, with one tab before each, from 0 to 65535 without leading zeros.'
    advice="write the line so; or make the file anew: $anew"
    if [ ! -s "$room/line" ]; then
        means="the file is empty, and $means"
    elif [ "$(wc -l <"$room/line")" -eq 0 ]; then
        means='every line ends with LF, and this one, the last, does not. The file may have been cut off.'
        advice="fetch the file again from where it came from; or make it anew: $anew"
    elif [ "$(tail -c 2 "$room/line" | od -An -tx1 | tr -d ' ')" = 0d0a ]; then
        means='every line ends with LF alone, and this one ends with CR LF.'
        advice="take the CRs away (tr -d '\\r' <OLD >NEW); or make the file anew: $anew"
    fi
    say_lists "$means" "$advice"
}

# bad_pair LIST PAIR: refusal 3, with the list, 0 to 2, and the index of the pair in it
bad_pair() {
    case $1 in 0) list='start' ;; 1) list='continue' ;; *) list='emoji' ;; esac
    line=$(LC_ALL=C awk -v list="$list" -v pair="$2" '$1 == list && seen++ == pair { print NR; exit }' "$room/lists")
    short="a pair of the list $list breaks a rule"
    [ "$2" -ne 8192 ] || short="the list $list has more than 8,192 pairs"
    printf '%s:%s: refusal 3: %s\n' "$name" "$line" "$short" >&2
    printf '  at line %s, which has the pair %s of the list %s (lines are counted from 1, pairs from 0):\n' "$line" "$2" "$list" >&2
    show_line "$line"
    if [ "$2" -eq 8192 ]; then
        say_lists 'a list has at most 8,192 pairs.' 'join pairs that adjoin: tools/unicode-lists, without --unmerged, writes as few as there can be'
    fi
    say_lists 'of the two numbers the first is at least 80, not above the second, and above all numbers of the pair before it; the second is at most 10ffff; and no pair covers a surrogate (d800 to dfff), 85, 200e, 200f, 2028 or 2029, all in hexadecimal.' \
        "look at the pair and at the one before it, or make the file anew: $anew"
}

# first_line: the programs judge every line; this is the rule for the first one alone
first_line() {
    called "$lists"
    [ "$(wc -c <"$room/lists")" -le $lists_limit ] || too_long
    head -n 1 "$room/lists" >"$room/line" || full
    if [ "$(wc -l <"$room/line")" -ne 1 ] || ! LC_ALL=C grep -Eqx "unicode($tab(0|[1-9][0-9]{0,4})){3}" "$room/line"; then bad_line 0; fi
    IFS=$tab read -r word major minor update <"$room/line"
    if [ "$major" -gt 65535 ] || [ "$minor" -gt 65535 ] || [ "$update" -gt 65535 ]; then bad_line 0; fi
}

name_version() {
    IFS=$tab read -r word major minor update <"$room/lists"
    lists_version=$major.$minor.$update
}

name_lists() {
    name_version
    command -v sha256sum >/dev/null 2>&1 || die 'the command sha256sum is not on the path, and without it the lists cannot be named'
    lists_sum=$(sha256sum <"$room/lists") || die 'sha256sum failed'
    lists_sum=${lists_sum%% *}
    [ ${#lists_sum} -eq 64 ] || die 'sha256sum gives no sum'
}
