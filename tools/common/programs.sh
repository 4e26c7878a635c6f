# shellcheck shell=sh disable=SC2016,SC2154
# tools/common/programs.sh: the proved programs, for the tools that run them on files: lovemudarn, printed, well-formed. It is sourced, and the script that
# does so has set `tool`, what it is called in messages, and `root`, the folder of the repository. tools/run and .ci/run use parts of it.
#
#   make_room               makes a temporary folder, `room`, and says what happens at the end and at signals
#   ready PROGRAM..         proves and builds the programs if that was not done since the sources last changed
#   program NAME            a program, run
#   mark_built MARK PROGRAM..   marks the programs as those of the sources at the time of a file
#   take FILE               a copy of a file: `room`/text
#   run NAME [FILE]         what a program writes for the copy, or for another file: `room`/answer
#   in_copy                 the place in the copy of one in the replaced text, of which the key is
#   doubtful PROGRAM        whether the copy, which has a key, may have another one as rustc reads it; the program writes its tokens, by the same lists
#   tell_doubt              says so
#   warn                    says where the copy, whose tokens are the answer, may have others as rustc reads it
#   put [FILE]              a file, or standard input, on standard output
#
# What tell_doubt and warn say of a name past ASCII the script has set: `lacks`, what its lists lack, and `remedy`, what to do.
unset CDPATH
state=$root/target/lovemudarn
tab=$(printf '\t')
cr=$(printf '\r')
blanks=$(printf ' \t\r\013\014')
# a byte order mark, and the blanks past ASCII: U+0085, U+200E, U+200F, U+2028, U+2029
far_blanks=$(printf '\357\273\277 \302\205 \342\200\216 \342\200\217 \342\200\250 \342\200\251')
limit=65536
first_run='about 4 to 10 minutes'
me='' lock=$state/lock building='' part='' asked=''
case ${LC_ALL:-${LC_CTYPE:-${LANG:-}}} in *[Uu][Tt][Ff]-8* | *[Uu][Tt][Ff]8*) utf8=1 ;; *) utf8=0 ;; esac

# what goes wrong with the tool, and with reading a file
die() {
    printf '%s: %s\n' "$tool" "$1" >&2
    exit 2
}
unread() {
    printf '%s: cannot be read: %s\n' "$name" "$1" >&2
    return 3
}
full() { die "no room for temporary files in ${TMPDIR:-/tmp}"; }

make_room() {
    room=$(mktemp -d 2>/dev/null) || die "no temporary folder can be made in ${TMPDIR:-/tmp}"
    trap leave EXIT
    trap 'exit 130' INT
    trap 'exit 143' TERM
    trap 'exit 129' HUP
}

# leave: what was begun is ended, and what is temporary removed
leave() {
    trap '' INT TERM HUP
    [ -z "$building" ] || echo "$tool: the build is ended before it is done. What was proved is kept, and the next run goes on from there." >&2
    [ -z "$me" ] || let_go
    [ -z "$part" ] || rm -f -- "$part"
    rm -rf "$room"
}

# put [FILE]: a file, or standard input, on standard output. A reader that goes away is no fault, and nothing is said: the status is 141, as that of a
# command which is ended by SIGPIPE. Where the caller has SIGPIPE ignored, cat says "Broken pipe" instead.
put() {
    complaint=
    { complaint=$(LC_ALL=C cat "$@" 2>&1 >&3 3>&-); } 3>&1
    case $?:$complaint in
    0:*) return ;;
    141:* | 269:* | *'Broken pipe'*) exit 141 ;;
    esac
    die "the output could not be written whole${complaint:+: ${complaint##*: }}"
}

# Reads bytes as od writes them, in decimal. With `names` it writes them as one line that can be shown. Else it writes, for a refusal and its place:
# line, column in characters and in bytes, what stands there, the hashes of a raw string, whether more Unicode lists may see a name there, and the first `many`
# bytes at the place in hexadecimal, all on one line; then the line of the place as it can be shown, cut where it is long; then the mark below it.
# Which bytes are UTF-8 is not judged here: `drawn` decides nothing but what is shown for them.
look='
function drawn(at,    size, i) {             # the bytes from here on that are shown as one character, or 0; its code point is left in c
    c = b[at]
    if (c < 128) return 1
    if (c < 194 || c > 244) return 0
    size = c < 224 ? 2 : c < 240 ? 3 : 4
    if (at + size > n) return 0
    c -= size == 2 ? 192 : size == 3 ? 224 : 240
    for (i = 1; i < size; i++) {
        if (b[at + i] < 128 || b[at + i] > 191) return 0
        c = c * 64 + b[at + i] - 128
    }
    if (size == 3 && c < 2048 || size == 4 && c < 65536 || c > 55295 && c < 57344 || c > 1114111) return 0
    return size
}
function width(c) {                          # how wide a character past ASCII is for sure where it is shown as it is; 0: it is not
    if (names) return c > 159 && c != 173 && (c < 8203 || c > 8207) && (c < 8232 || c > 8238) && (c < 8288 || c > 8303) && c != 65279
    if (!utf8) return 0
    if (c > 160 && c < 768 && c != 173 || c > 879 && c < 1155 || c > 1161 && c < 1328) return 1       # Latin, Greek, Cyrillic
    if (c > 12352 && c < 12439 || c > 12447 && c < 12544 || c > 19967 && c < 40960 || c > 44031 && c < 55204) return 2       # kana, Han, Hangul
    return 0
}
function cell(at, raw_byte,    size, i) {    # what is shown for the character at a byte: text, wide; its bytes are the result
    size = raw_byte ? 0 : drawn(at)
    wide = 0
    if (!size) text = sprintf("<%02X>", b[at])
    else if (c == 9) text = "<tab>"
    else if (c < 32 || c == 127) text = sprintf("<%02X>", c)
    else if (c < 128) text = sprintf("%c", c)
    else if (wide = width(c)) for (text = ""; i < size; i++) text = text sprintf("%c", b[at + i])
    else text = sprintf("<U+%04X>", c)
    if (!wide) wide = length(text)
    return size ? size : 1
}
function raw(at) {                           # a broken raw string, from after its letters on
    while (b[at + hashes] == 35) hashes++
    return b[at + hashes] != 34 ? "raw-unquoted" : hashes > 255 ? "raw-hashes" : "raw"
}
function broken(first, second) {             # what a broken token is: its first bytes tell
    if (first == 47) return "comment"
    if (first == 34) return "string"
    if (first == 39) return "character"
    if (first == 114) return raw(place + 1)
    if (second == 114) return raw(place + 2)
    return second == 39 ? "byte" : first == 98 ? "byte-string" : "c-string"
}
{ for (i = 1; i <= NF; i++) b[n++] = $i + 0 }
END {
    n += 0
    if (names) {
        for (i = 0; i < n; i += size) {
            size = cell(i, 0)
            printf "%s", text
        }
        exit
    }
    if (place >= n) exit 3                   # bytes that could not be read
    line = 1
    start = 0
    for (i = 0; i < place; i++) if (b[i] == 10) { line++; start = i + 1 }
    column = 1
    for (i = start; i < place; i++) if (b[i] < 128 || b[i] > 191) column++
    for (end = place; end < n && b[end] != 10; end++) ;
    if (end < n && end > place && b[end - 1] == 13) end--
    hashes = 0
    what = number == 6 ? broken(b[place] + 0, b[place + 1] + 0) : "other"
    foreign = b[place] == 39 && b[place + 1] > 127 || b[place] == 114 && b[place + 1] == 35 && b[place + 2] > 127
    printf "%d %d %d %s %d %d", line, column, place - start + 1, what, hashes, foreign
    for (i = place; i < place + many && i < n; i++) printf " %02X", b[i]
    printf "\n"
    # the line in cells, the place in the cell `here`
    count = 0
    here = -1
    for (i = start; i < end; i += size) {
        if (i == place) here = count
        size = cell(i, number == 2 && i == place)
        shown[count] = text
        space[count++] = wide
    }
    if (here < 0) { here = count; shown[count] = ""; space[count++] = 1 }
    # cells from the left and then from the right of the place, as far as there is room
    room = 40
    for (from = here; from > 0 && space[from - 1] <= room; from--) room -= space[from - 1]
    room += 40
    for (to = here; to < count && (to == here || space[to] <= room); to++) room -= space[to]
    text = from > 0 ? "... " : ""
    gap = length(text)
    for (i = from; i < to; i++) {
        text = text shown[i]
        if (i < here) gap += space[i]
    }
    print text (to < count ? " ..." : "")
    printf "%" (gap ? gap : "") "s", ""
    for (i = 0; i < space[here]; i++) printf "^"
    printf "\n"
}'
looked() { od -An -v -tu1 | LC_ALL=C awk "$@" "$look"; }

# called FILE: leaves in `name` what a file is called in a message. Most names need no look at their bytes.
called() {
    case $1 in
    -) name='standard input' ;;
    *[!abcdefghijklmnopqrstuvwxyzABCDEFGHIJKLMNOPQRSTUVWXYZ0123456789_./+=,:@%-]*) name=$(printf '%s' "$1" | looked -v names=1) ;;
    *) name=$1 ;;
    esac
}

# take FILE [COPY LIMIT]: copies the file to `room`/COPY (text), or as much of it as tells that it is too long, so that all that follows sees the same bytes. A
# write that fails is the tool's fault, so that cat makes it, and a read that fails is the file's.
take() {
    called "$1"
    most=$((${3:-$limit} + 1))
    if [ "$1" != - ]; then
        if [ -d "$1" ]; then unread 'it is a directory'; return; fi
        if [ -L "$1" ] && [ ! -e "$1" ]; then unread 'it is a link to a file that is not there'; return; fi
        if [ ! -e "$1" ]; then unread 'there is no such file'; return; fi
        if [ ! -r "$1" ]; then unread 'you have no permission to read it'; return; fi
    fi
    true >"$room/ended" || full
    {
        if [ "$1" = - ]; then head -c $most; else head -c $most <"$1"; fi
        echo $? >"$room/ended"
    } 2>"$room/complaint" | cat >"$room/${2:-text}" || full
    ended=
    read -r ended <"$room/ended"
    [ -n "$ended" ] || full
    [ "$ended" -eq 0 ] || unread "$(tail -n 1 "$room/complaint")"
}

# file_of PROGRAM: leaves in `its_file` where rt puts a program that it built
file_of() { its_file=$root/crates/$1/out/$1; }

# is_built PROGRAM..: whether each program is that of the sources. A stamp has the time before the build began. The time at which a file was last changed in
# any way (-cnewer) cannot be set by hand, so that sources which are unpacked with their old times are noticed too. What rt keeps in
# the folders out/ is no source, and a crate's own folder changes with them.
is_built() {
    for program; do
        file_of "$program"
        [ -x "$its_file" ] && [ -f "$state/built-$program" ] || return 1
        shift
        set -- "$@" -o -cnewer "$state/built-$program"
    done
    shift
    changed=$(cd "$root" && find crates.txt crates -path 'crates/*/out' -prune -o -type d -path 'crates/*' ! -path 'crates/*/*' -o \( "$@" \) -print 2>/dev/null) && [ -z "$changed" ]
}

# mark_built MARK PROGRAM..: the programs that are there were built after the time of the file MARK, all of them from the sources of that time
mark_built() {
    mark=$1
    shift
    mkdir -p "$state" || return
    for program; do
        file_of "$program"
        [ -x "$its_file" ] && true >"$state/built-$program" && touch -r "$mark" "$state/built-$program" || return
    done
}

# ready PROGRAM..: they are asked about once in a run
ready() {
    [ "${are_ready:-}" != "$*" ] || return 0
    is_built "$@" || build "$@"
    are_ready=$*
}

# program NAME [ARG..]: runs a program. With `by` set to exec it takes the place of this shell.
program() {
    file_of "$1"
    shift
    ${by:-} "$its_file" "$@"
}

# run PROGRAM [FILE]: what the program writes for the copy, or for another file; a program that reads with lists is handed the copy of their file, and after it the word in `asked`, if there is one. It writes
# into a pipe and cat writes the answer, so that a write that fails is told apart from a program that does. The first eight bytes are left in `first`.
run() {
    true >"$room/ended" || full
    case $1 in *_with) with=$room/lists ;; *) with= ;; esac
    {
        program "$1" ${with:+"$with"} ${asked:+"$asked"} <"${2:-$room/text}" 2>"$room/complaint"
        echo $? >"$room/ended"
    } | cat >"$room/answer" || full
    ended=
    read -r ended <"$room/ended"
    if [ "${ended:-2}" -ne 0 ]; then
        tail -n 20 "$room/complaint" >&2
        die "$name: the program $1 failed with status ${ended:-unknown}"
    fi
    { first=$(head -c 8 "$room/answer"); } 2>/dev/null || full
}

# is_refused: whether the answer is a refusal, which is one line, and begins as no key and no list of tokens does. A NUL byte that a shell leaves out of
# what it reads makes no difference: it takes one of the eight bytes.
is_refused() { [ "$first" = "refused$tab" ]; }

# Reads the lists, or nothing where there are none, the lines of a text's tokens by these lists, and the bytes, with a line `=` between them. Writes the first place at
# which rustc may read other tokens or, with `keys`, another key, and why.
# - What rustc takes away before it reads, whatever the lists, gives another key: a shebang in which a token begins that ends in a later line (only #! before [ is none:
#   000, strip_shebang; a comment that might be a doc comment is taken for no trivia), and frontmatter.
# - Names: lists that hold more, as those of a newer rustc, give the same tokens up to a character that they alone hold. This is one past ASCII that is a token Unknown;
#   or that begins a literal in single quotes with more than this character in it, and no name (which may be a lifetime); or that stands after r# (which may be a raw name).
#   Another key they give only after the quote, and where an Unknown is in a run of characters of names that ends right before a quote or a #; but not where the last one
#   of the run is past ASCII and " or # follows, which is then read alike. After r# the text is refused as broken. Where a number begins in the run and goes on past it, by
#   a point or the sign of an exponent, so does the run: in X1e-r"a" the r is the suffix of a number, and after a name the prefix of a string.
# - A byte order mark at the beginning is in no name: rustc drops it.
# Tokens that are not those of the bytes, as where one of the two could not be read, are a failure, and no answer.
doubts='
BEGIN { pairs = count = n = from = to = 0 }
function in_name(c) { return c > 127 || c > 47 && c < 58 || c > 64 && c < 91 || c > 96 && c < 123 || c == 95 }
function size_of(c) { return c < 224 ? 2 : c < 240 ? 3 : 4 }
function said(at, why) { print at, why; exit }
function attribute(t, at) {                  # whether [ follows #!, trivia between them or not
    for (; kind[t] == "Whitespace" || kind[t] ~ /Comment$/ && b[at + 2] != 33 && b[at + 2] != 42 && b[at + 2] != 47; t++) at += size[t]
    return kind[t] == "OpenBracket"
}
function top(    t, at, end) {
    t = at = 0
    if (marked) at += size[t++]
    if (b[at] == 35 && b[at + 1] == 33 && !attribute(t + 2, at + 2)) {
        for (end = at; end < n && b[end] != 10; end++) ;
        for (; t < count && at + size[t] <= end; t++) at += size[t]
        if (t < count && at < end && kind[t] != "Whitespace") said(at, "shebang")
    }
    for (; kind[t] == "Whitespace"; t++) at += size[t]
    if (kind[t] == "Minus" && kind[t + 1] == "Minus" && kind[t + 2] == "Minus") said(at, "frontmatter")
}
function number(digits,    i, sum) {         # hexadecimal
    for (i = sum = 0; i++ < length(digits);) sum = 16 * sum + index("123456789abcdef", substr(digits, i, 1))
    return sum
}
function is_start(at,    c, size, i) {       # whether the lists let the character past ASCII at a byte begin a name
    c = b[at]
    size = size_of(c)
    c -= size == 2 ? 192 : size == 3 ? 224 : 240
    for (i = 1; i < size; i++) c = 64 * c + b[at + i] - 128
    for (i = 0; i < pairs && high[i] < c; i++) ;
    return i < pairs && low[i] <= c
}
function judge() {                           # the run of characters of names that goes on at `to`, and has an Unknown at `from`
    while (to < n && in_name(b[to])) to++
    if (b[to] == 39 || b[to - 1] < 128 && (b[to] == 34 || b[to] == 35)) said(from, "name")
}
function past_ascii(keys,    t, at) {
    for (t = at = 0; t < count; at += size[t++]) {
        if (kind[t] == "Literal") {
            if (b[at] == 39 && b[at + 1] > 127 && b[at + 1 + size_of(b[at + 1])] != 39 && !is_start(at + 1)) said(at + 1, "name")
            if (!keys && b[at] == 114 && b[at + 1] == 35 && b[at + 2] > 127) said(at + 2, "name")
            if (at < to && at + size[t] > to && b[at] > 47 && b[at] < 58) {
                while (b[to] == 46 || (b[to] == 43 || b[to] == 45) && (b[to - 1] == 69 || b[to - 1] == 101)) {
                    to++
                    judge()
                }
            }
        }
        if (kind[t] != "Unknown" || size[t] == 1 || at == 0 && marked) continue
        if (!keys) said(at, "name")
        if (at < to) continue
        from = to = at
        judge()
    }
}
$1 == "=" { part++; next }
!part && $1 == "start" { low[pairs] = number($2); high[pairs++] = number($3) }
part == 1 { kind[count] = $1; size[count++] = $2 }
part == 2 { for (i = 1; i <= NF; i++) b[n++] = $i + 0 }
END {
    for (t = at = 0; t < count; t++) at += size[t]
    if (at != n) exit 3
    marked = b[0] == 239 && b[1] == 187 && b[2] == 191       # a byte order mark
    if (keys) top()
    past_ascii(keys)
}'

# past_ascii: whether the copy has a character past ASCII; without one no list is asked
past_ascii() {
    LC_ALL=C tr -d '\000-\177' <"$room/text" >"$room/past" || full
    [ -s "$room/past" ]
}
# odd_top: whether the copy may begin with a shebang or with frontmatter. What begins with a byte order mark or a blank past ASCII may, whatever follows.
odd_top() {
    top=
    while [ -z "$top" ] && IFS= read -r top || [ -n "$top" ]; do
        top=${top#"${top%%[!"$blanks"]*}"}
        case $top in '#!'* | ---*) return 0 ;; '') continue ;; esac
        for mark in $far_blanks; do
            case $top in "$mark"*) return 0 ;; esac
        done
        return 1
    done <"$room/text"
    return 1
}
# doubt [KEYS]: leaves in `place` and `why` where the copy may be read otherwise by rustc, judged by its tokens in `room`/answer; none is left where none is
doubt() {
    place=$({ [ -z "$with" ] || cat "$with"; echo '='; cat "$room/answer"; echo '='; od -An -v -tu1 "$room/text"; } | LC_ALL=C awk -v keys="${1:-0}" "$doubts") || die 'awk or od failed'
    why=${place#* }
    place=${place% *}
}

# A key is of the replaced text, in which each CR LF is LF. What else is said of the copy, its bytes, its line and its columns, is said of the copy as it is.

# in_copy: `place`, one in the replaced text, becomes the same place in the copy; what it was is left in `counted`
in_copy() {
    counted=$place
    place=$(od -An -v -tu1 "$room/text" | LC_ALL=C awk -v place="$place" '
        { for (i = 1; i <= NF; i++) b[n++] = $i + 0 }
        END {
            for (at = kept = 0; at < n; at++) if (b[at] != 13 || b[at + 1] != 10) if (kept++ == place) break
            if (at >= n) exit 3
            print at
        }') || die 'awk or od failed'
}

# doubtful PROGRAM: whether the copy, whose key is the answer, may have another one as rustc reads it; the answer stays. That is a matter of the replaced text's tokens, and
# so it takes the copy's place as long as it is looked at. With a byte behind it the last line has no end, and a CR there stays.
doubtful() {
    past_ascii || odd_top || return 1
    mv "$room/answer" "$room/key" || full
    has_cr=
    if LC_ALL=C grep -q "$cr\$" "$room/text"; then
        has_cr=yes
        mv "$room/text" "$room/copy" || full
        { cat "$room/copy" && printf .; } | LC_ALL=C sed "s/$cr\$//" >"$room/replaced" || full
        head -c $(($(wc -c <"$room/replaced") - 1)) "$room/replaced" >"$room/text" || full
    fi
    run "$1"
    doubt 1
    [ -z "$has_cr" ] || mv "$room/copy" "$room/text" || full
    mv "$room/key" "$room/answer" || full
    [ -n "$place" ] || return 1
    [ -z "$has_cr" ] || in_copy
}

# show_place WHAT: the first lines of a message on a place of the copy
show_place() {
    looked -v number=0 -v place="$place" -v utf8="$utf8" <"$room/text" >"$room/facts" || die 'awk or od failed'
    { read -r line column rest; IFS= read -r shown; IFS= read -r mark; } <"$room/facts"
    printf '%s:%s:%s: %s\n' "$name" "$line" "$column" "$1"
    printf '  at byte %s (counted from 0), line %s, column %s (counted in characters from 1):\n' "$place" "$line" "$column"
    printf '    %s\n    %s\n' "$shown" "$mark"
}

# tell_doubt: that the copy is not keyed, and why
tell_doubt() {
    {
        case $why in
        shebang)
            show_place 'not keyed: a first line that this tool may read wrongly'
            echo '  What it means: the file begins with #!, and rustc takes such a line away before it reads the rest. This tool reads it as source, and what begins here'
            echo '    in the first line ends in a later one: it would hide from the key what rustc reads.'
            echo '  What to do: change the first line; or use the C, Rust or Rattle interface, and strip_shebang first (docs/GUIDE.md).'
            return
            ;;
        frontmatter)
            show_place 'not keyed: a beginning that this tool may read wrongly'
            echo '  What it means: --- at the top begins frontmatter, which rustc takes away where it is switched on. This tool reads it as source, and something in it may'
            echo '    hide from the key what rustc reads.'
            echo '  What to do: take it out; or use the C, Rust or Rattle interface: the first token with frontmatter on ends where it ends, and the rest has a key (docs/GUIDE.md).'
            return
            ;;
        esac
        show_place 'not keyed: a name past ASCII that this tool may read wrongly'
        echo "  What it means: $lacks Then a lifetime or a label begins with it, or a name"
        echo '    with it ends before a quote or a #: the text parts into other tokens, and its key may be another one.'
        echo "  What to do: $remedy Then the file may be keyed."
    } >&2
}

# warn: where the tokens of the copy, which are in `room`/answer, may be others as rustc reads it
warn() {
    past_ascii || return 0
    doubt
    [ -n "$place" ] || return 0
    {
        show_place 'warning: rustc may read other tokens'
        echo "  What it means: $lacks Then the text parts into other tokens."
        echo "  What to do: if these tokens matter, $remedy"
    } >&2
}

# --- building: one run builds, others wait for it, and what was started is ended with the run that started it

# started PID: when a process was started, in the machine's own count; nothing where there is none, or where it has ended and is not yet taken note of
started() {
    stat=$(cat "/proc/$1/stat" 2>/dev/null) || return 1
    # shellcheck disable=SC2086
    set -- ${stat##*)}
    case $1 in Z | X) return 1 ;; esac
    echo "${20}"
}

# name_me: leaves in `me` a name that no other run has, since a number of a process is used again, but not with the same start; and in `builds` what the builds of
# this repository are told by: its path, which a container or another mount may have for another one, with its inode, and where it is run
name_me() {
    host=$(tr -cd 'A-Za-z0-9.' </proc/sys/kernel/hostname)
    boot=$(tr -cd '0-9a-f' </proc/sys/kernel/random/boot_id)
    space=$(readlink /proc/self/ns/pid | tr -cd '0-9')
    start=$(started $$)
    inode=$(ls -di "$root/.")
    case -$host-$boot-$space-$start- in *--*) die 'the programs that do the work have to be built, and for that /proc has to be there' ;; esac
    me=$$-$start-$space-$boot-$host
    builds="<$root><${inode%%[!0-9]*}-$space-$boot-$host>"
}

# gone NAME: whether the run of this name is known to have ended. One on another machine, or in another container, is not known to have.
gone() {
    IFS=- read -r pid start its_space its_boot its_host <<END
$1
END
    [ "$its_host" = "$host" ] || return 1
    [ "$its_boot" = "$boot" ] || return 0
    [ "$its_space" = "$space" ] || return 1
    [ "$(started "$pid")" != "$start" ]
}

# end_builds MARK: ends each process whose environment has the mark of a build, and is done when none is left. The mark is handed down to all that rt starts, and
# a number that was used again has not got it. What asks has not got it either.
end_builds() {
    for round in 1 2 3 4 5 6 7 8 9 10; do
        found=$(LOVEMUDARN_BUILD='' grep -lF -- "LOVEMUDARN_BUILD=$1" /proc/[0-9]*/environ 2>/dev/null)
        [ -n "$found" ] || return 0
        for process in $found; do
            process=${process#/proc/}
            kill -KILL "${process%/environ}" 2>/dev/null
        done
        [ "$round" -lt 5 ] || pause
    done
    return 1
}

# a pause in which a signal is heard at once
pause() {
    sleep 1 >/dev/null 2>&1 &
    wait $!
}

# grab: takes the lock, or fails. The lock is a folder that always has one entry: `free`, or the name of its owner. Who takes it renames this entry to their own name,
# which only one can do, since then the old name is gone; and no name comes twice. So a lock whose owner is gone goes over to one other run, at most.
grab() {
    if [ ! -d "$lock" ]; then
        # it is made elsewhere with its entry, and put in its place whole; where another run was faster, mv fails or puts it inside
        mkdir "$lock-$me" && true >"$lock-$me/free" && mv "$lock-$me" "$lock" 2>/dev/null
        rm -rf "$lock-$me" "$lock/lock-$me"
        [ -d "$lock" ] || die "$state cannot be written"
    fi
    owner=
    for entry in "$lock"/*; do
        case ${entry##*/} in
        free) ;;
        held-* | ending-*)
            owner=${entry##*/}
            owner=${owner#*-}
            gone "$owner" || continue
            ;;
        *) continue ;;
        esac
        mv "$entry" "$lock/held-$me" 2>/dev/null || continue
        # from now on no other build may run here: what a run that is gone has left is ended
        end_builds "$builds" || die 'a build that an earlier run has left cannot be ended'
        return 0
    done
    # a lock without an entry is none, and this removes no other
    rmdir "$lock" 2>/dev/null
    return 1
}

# let_go: ends the build of this run, if there is one, and frees the lock. A build that is just about to begin sees first that it is not wanted any more.
let_go() {
    mv "$lock/held-$me" "$lock/ending-$me" 2>/dev/null
    end_builds "$builds<$me>"
    mv "$lock/ending-$me" "$lock/free" 2>/dev/null
}

# watch: ends the build, and removes what is temporary, where this run is gone and could not do it. It ends by itself soon after the lock is let go.
watch() {
    while [ -e "$lock/held-$me" ]; do
        if gone "$me"; then
            let_go
            rm -rf "$room"
        else
            sleep 1
        fi
    done
}

# How long each part took, in seconds, with an older toolchain (Arm, two cores; the parts of the machine on x86-64, doubled): what is left is judged by it. A part that is not named counts as 20.
weights=' refusal 7 basics 1 puts 4 text 31 ranges 20 eaters 1 reports 5 classes 21 token 5 cursor 26 kinds 34 canon 9 comment 26 words 32 quoted 17 numerals 19 '
weights=$weights'token_line 11 literals 18 frontmatter 26 prefixed 15 advance 36 lexer 22 lines 42 key 20 print_tokens 59 print_key 59 tokens_with 59 key_with 59 well_formed 16 '
weights=$weights'fields 14 lists_file 22 lists_in 30 printing 30 loading 12 places 1 line_ends 9 marks 9 machine 12 goes 6 comment_turns 10 word_turns 22 quote_turns 24 number_turns 22 turns 38 engine 30 '
weigh() {
    weight=20
    case $weights in *" $1 "*)
        weight=${weights#*" $1 "}
        weight=${weight%% *}
        ;;
    esac
}

# parts PROGRAM..: the parts that the programs are made of, as crates.txt has them, in the order in which rt builds them: each after those that it uses
parts() {
    awk -v wanted="$*" '
        function visit(name,    list, i, m) {
            if (!(name in uses) || name in seen) return
            seen[name] = 1
            m = split(uses[name], list, " ")
            for (i = 1; i <= m; i++) visit(list[i])
            print name
        }
        { sub(/#.*/, ""); i = index($0, ":"); if (i) { split(substr($0, 1, i - 1), word, " "); uses[word[1]] = substr($0, i + 1) } }
        END { m = split(wanted, list, " "); for (i = 1; i <= m; i++) visit(list[i]) }' "$root/crates.txt"
}

# follow PROGRAM..: reads what rt says, keeps it, and says how far it is: by the time that the parts so far took, once a tenth is done. rt says nothing of a part
# that it finds built; the parts come in turn, so that all before the one that it speaks of are done.
follow() {
    total=0 all=0 order=' '
    for name in $(parts "$@"); do
        weigh "$name"
        total=$((total + 1)) all=$((all + weight)) order="$order$name "
    done
    count=0 proved=0 spoken=
    began=$(date +%s)
    while IFS= read -r said; do
        printf '%s\n' "$said" >&3
        case $said in
        'crate '*': modules loaded='*)
            spoken=${said#crate }
            spoken=${spoken%%:*}
            continue
            ;;
        'logic=proved '*) ;;
        *) continue ;;
        esac
        case $order in *" $spoken "*) ;; *) continue ;; esac
        # those before it were there
        while [ "${order%% *}" != "$spoken" ]; do
            order=${order#* }
            name=${order%% *}
            [ -n "$name" ] || break
            weigh "$name"
            count=$((count + 1))
            if [ "$name" = "$spoken" ]; then proved=$((proved + weight)); else all=$((all - weight)); fi
        done
        left=
        if [ "$count" -lt "$total" ] && [ $((proved * 10)) -ge "$all" ]; then
            seconds=$((($(date +%s) - began) * (all - proved) / proved))
            if [ "$seconds" -lt 50 ]; then left=', less than a minute left'
            elif [ "$seconds" -lt 90 ]; then left=', about a minute left'
            else left=", about $(((seconds + 30) / 60)) minutes left"; fi
        fi
        echo "$tool: proved $count of $total parts ($spoken)$left" >&2
    done 3>"$room/log"
}

# build PROGRAM..: proves and builds them. A stamp is set only where all of it succeeded.
build() {
    command -v rt >/dev/null 2>&1 || die 'the programs that do the work have to be built, and the command rt of the Rattle toolchain is not on the path'
    mkdir -p "$state" 2>/dev/null
    [ -w "$state" ] || die "the programs that do the work have to be built, and you have no permission to write to $root/target"
    case $root in *'
'*) die 'the programs that do the work cannot be built in a folder with a newline in its name' ;; esac
    name_me
    waits=
    until grab; do
        if [ -z "$waits" ] && [ -n "$owner" ]; then
            waits="process ${owner%%-*} on ${owner##*-}"
            echo "$tool: waiting for another run, which builds the programs ($waits; if it is gone all the same, remove $lock)" >&2
        fi
        pause
        if is_built "$@"; then
            me=
            return
        fi
    done
    is_built "$@" || build_held "$@"
    let_go
    me=
}

# build_held PROGRAM..: the same, where this run has the lock. `rt run` is how rt builds a program, which it then runs, with no input: whether it came to that is
# what its log tells, and not its status, which is the program's.
build_held() {
    missing=
    for program; do
        file_of "$program"
        [ -x "$its_file" ] || missing=$program
        [ -d "$root/crates/$program/src" ] || die "there is no $root/crates/$program"
    done
    if [ -z "$missing" ]; then
        echo "$tool: making sure that the programs are those of the sources; what changed is proved again, once" >&2
    else
        echo "$tool: the first run proves and builds the programs, once. This takes $first_run; later runs take a fraction of a second." >&2
    fi
    true >"$state/began" || die "$state cannot be written"
    rm -f "$room/ended"
    building=yes
    watch >/dev/null 2>&1 </dev/null &
    LOVEMUDARN_BUILD="$builds<$me>" sh -c '
        [ -e "$1" ] || exit
        ended=$2 root=$3 said=$4
        shift 4
        for program; do
            cd "$root/crates/$program" || exit
            { rt run 2>&1 </dev/null; echo "rt run in $PWD ended with status $?"; } | tee "$said"
            grep -q "^rt: running out/$program" "$said" || exit
        done
        echo built >"$ended"' sh "$lock/held-$me" "$room/ended" "$root" "$room/said" "$@" | follow "$@" &
    wait $!
    building=
    ended=
    [ ! -s "$room/ended" ] || read -r ended <"$room/ended"
    if [ "$ended" != built ] || ! mark_built "$state/began" "$@"; then
        grep -v -e '^statements ' -e '^library ' -e '^logic ' "$room/log" | tail -n 20 >&2
        die "the programs could not be built with \`rt run\`, and above is the end of what it said"
    fi
    echo "$tool: the programs are built" >&2
}
