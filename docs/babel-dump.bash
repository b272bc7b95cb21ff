# Completions of babel-dump for bash.

# The files that the line names after its command. The word at the cursor may be empty: something
# has to stand there. xargs takes quotes and backslashes as a shell does.
_babel_dump_files() {
    local word words skip=
    mapfile -t words < <(
        xargs printf '%s\n' <<<"${COMP_LINE:0:COMP_POINT}_${COMP_LINE:COMP_POINT}" 2>/dev/null
    )
    for word in "${words[@]:2}"; do
        if [[ $skip ]]; then
            skip=
        elif [[ $word == --*=* ]]; then
            :
        elif [[ " $_babel_dump_valued " == *" $word "* ]]; then
            skip=yes
        elif [[ $word != -* ]]; then
            printf '%s\n' "${word/#\~\//$HOME/}"
        fi
    done
}

# What sed makes of the senders of a capture: of the first file that the line names, or a later one.
_babel_dump_listed() {
    local file
    file=$(_babel_dump_files | sed -n "$1p")
    [[ -f $file ]] && "${COMP_WORDS[0]}" senders --short --accept-cut --quiet "$file" 2>/dev/null |
        sed -E "$2" | sort -u
}

_babel_dump_senders() {
    _babel_dump_listed "$1" 's/ .*//'
}

# The places, as --interface takes them.
_babel_dump_places() {
    _babel_dump_listed "$1" \
        's|.* interface ([0-9]+)( \([^ ]*\))?( link ([0-9]+))?( vlan ([0-9.]+))? .*|\1/\4:\6|
        s|/:|:|; s|:$||'
}

_babel_dump() {
    local line=${COMP_LINE:0:COMP_POINT} words word option front= found=
    # COMP_WORDS is cut at colons, which addresses have.
    read -ra words <<<"$line"
    [[ $line == *[[:blank:]] ]] && words+=("")
    word=${words[-1]} option=${words[-2]}
    if [[ $word == --*=* ]]; then
        option=${word%%=*} word=${word#*=}
    fi
    case ${#words[@]}:$option in
        2:*) found=$_babel_dump_names ;;
        3:help) found=${_babel_dump_names%% help *} ;;
        *:--from) found=$(_babel_dump_senders 1) ;;
        *:--other-from) found=$(_babel_dump_senders 2) ;;
        *:--interface) found=$(_babel_dump_places 1) ;;
        *:--other-interface) found=$(_babel_dump_places 2) ;;
        *:--ignore)
            [[ $word == *,* ]] && front=${word%,*},
            found="next-hop router-id seqno metric"
            ;;
        *:--color) found="auto always never" ;;
        *:--each | *:--names) ;;
        *)
            [[ " $_babel_dump_valued " == *" $option "* ]] && return
            [[ $word == -* ]] && found=$(_babel_dump_options "${words[1]}")
            ;;
    esac
    if [[ $found || $word == -* ]]; then
        mapfile -t COMPREPLY < <(compgen -P "$front" -W "$found" -- "${word#"$front"}")
    elif [[ $option != --*from && $option != --*interface ]]; then
        compopt -o filenames 2>/dev/null
        mapfile -t COMPREPLY < <(compgen -f -- "$word")
    fi
    # What stands before the last colon or = is no part of the word that bash completes.
    COMPREPLY=("${COMPREPLY[@]#"${word%"${word##*:}"}"}")
}

# Printed by tools/options.py.
_babel_dump_names="show lookup normalise key pairs compare diff senders links extract events \
select help --help --version"

# The options that a word follows.
_babel_dump_valued="--from --other-from --interface --at --other-interface --since --until \
--expiry --ignore --to --src --cost --max-routes --max-octets --other-since --other-until --within \
--match --source --id --body --and --color --names --each"

# The options of a command.
_babel_dump_options() {
    case $1 in
        show) echo --from --interface --since --until --expiry --hold --v4-via-v6 --quiet \
            --accept-cut --accept-missing --max-routes --max-octets --within --match --source --id \
            --summary --origins --json --names --short --help ;;
        lookup) echo --from --interface --since --until --expiry --hold --v4-via-v6 --quiet \
            --accept-cut --accept-missing --max-routes --max-octets --strict --json --names \
            --short --with-prefix --to --src --each --help ;;
        normalise) echo --from --interface --since --until --expiry --hold --v4-via-v6 --quiet \
            --accept-cut --accept-missing --max-routes --max-octets --strict --ignore --routes \
            --body --hex --help ;;
        key) echo --from --interface --since --until --expiry --hold --v4-via-v6 --quiet \
            --accept-cut --accept-missing --max-routes --max-octets --strict --ignore --routes \
            --json --help ;;
        pairs) echo --from --interface --since --until --expiry --hold --v4-via-v6 --quiet \
            --accept-cut --accept-missing --max-routes --max-octets --within --match --source --id \
            --strict --ignore --routes --json --names --short --count --help ;;
        compare) echo --from --other-from --interface --other-interface --since --until --expiry \
            --hold --v4-via-v6 --quiet --accept-cut --accept-missing --max-routes --max-octets \
            --other-since --other-until --strict --ignore --json --names --short --routes --all \
            --count --help ;;
        diff) echo --from --other-from --interface --other-interface --since --until --expiry \
            --hold --v4-via-v6 --quiet --accept-cut --accept-missing --max-routes --max-octets \
            --other-since --other-until --within --match --source --id --strict --ignore --origins \
            --and --stat --color --json --names --short --help ;;
        senders) echo --since --until --strict --accept-cut --quiet --max-octets --json --short \
            --help ;;
        links) echo --interface --since --until --expiry --accept-cut --accept-missing --quiet \
            --max-octets --json --short --help ;;
        extract) echo --from --interface --hex --since --until --strict --accept-cut \
            --accept-missing --quiet --max-octets --help ;;
        events) echo --from --interface --since --until --expiry --ignore --to --src --requests \
            --strict --v4-via-v6 --accept-cut --accept-missing --max-routes --json --quiet \
            --within --match --source --id --names --short --help ;;
        select) echo --at --interface --since --until --expiry --to --src --etx --cost --strict \
            --v4-via-v6 --accept-cut --accept-missing --max-routes --json --quiet --within --match \
            --source --short --help ;;
    esac
}

complete -F _babel_dump babel-dump
