# Completions of babel-dump for fish.

# What sed makes of the senders of a capture: of the first file that the line names, or a later one.
function __babel_dump_listed
    set -l words (commandline -po)
    set -l before (commandline -poc)
    # The word at the cursor may be empty: something has to stand there.
    if test -z (commandline -ct)
        set words $before _ $words[(math (count $before) + 1)..]
    end
    set -l files
    set -l skip
    for word in $words[3..]
        if set -q skip[1]
            set -e skip
        else if __babel_dump_is_valued $word
            set skip yes
        else if not string match -q -- '-*' $word
            set -a files $word
        end
    end
    set -l file $files[$argv[1]]
    test -f "$file"
    and $words[1] senders --short --accept-cut --quiet $file 2>/dev/null | sed -E $argv[2] | sort -u
end

function __babel_dump_senders
    __babel_dump_listed $argv[1] 's/ .*//'
end

# The places, as --interface takes them.
function __babel_dump_places
    __babel_dump_listed $argv[1] \
        's|.* interface ([0-9]+)( \([^ ]*\))?( link ([0-9]+))?( vlan ([0-9.]+))? .*|\1/\4:\6|
        s|/:|:|; s|:$||'
end

# An option of these commands.
function __babel_dump_option -a commands
    complete -c babel-dump -n "__fish_seen_subcommand_from $commands" $argv[2..]
end

# Printed by tools/options.py.
# Whether a word follows an option.
function __babel_dump_is_valued
    contains -- $argv[1] --from --other-from --interface --at --other-interface --since --until \
        --expiry --ignore --to --src --cost --max-routes --max-octets --other-since --other-until \
        --within --match --source --id --body --and --color --names --each
end

complete -c babel-dump -n 'not __fish_seen_subcommand_from show lookup normalise key pairs compare diff senders links extract events select help' -f
complete -c babel-dump -n __fish_use_subcommand -l help -d 'Print help'
complete -c babel-dump -n __fish_use_subcommand -l version -d 'Print the version'
complete -c babel-dump -n __fish_use_subcommand -a show \
    -d 'Print the routes, the number of TLVs, and why TLVs were ignored'
complete -c babel-dump -n __fish_use_subcommand -a lookup \
    -d 'Look up the route for a destination and a source'
complete -c babel-dump -n __fish_use_subcommand -a normalise \
    -d 'Write the canonical octets, equal for inputs that answer alike'
complete -c babel-dump -n __fish_use_subcommand -a key \
    -d 'Print the SHA-256 of the canonical octets of each file'
complete -c babel-dump -n __fish_use_subcommand -a pairs \
    -d 'Print the canonical pairs: the largest blocks that share one answer'
complete -c babel-dump -n __fish_use_subcommand -a compare \
    -d 'Print "same", or the lowest addresses for which two inputs differ'
complete -c babel-dump -n __fish_use_subcommand -a diff \
    -d 'Print the routes that differ in two inputs: - is gone, + is new'
complete -c babel-dump -n __fish_use_subcommand -a senders \
    -d 'List who sent Babel packets in a capture, where, and how much'
complete -c babel-dump -n __fish_use_subcommand -a links \
    -d 'List which neighbours each router in a capture hears, and at which cost'
complete -c babel-dump -n __fish_use_subcommand -a extract \
    -d 'Write the dump of one sender of a capture (pcap, pcapng)'
complete -c babel-dump -n __fish_use_subcommand -a events \
    -d 'Print what changed in a capture, and when'
complete -c babel-dump -n __fish_use_subcommand -a select \
    -d 'Print which routes a router uses, of those that its neighbours announce'
complete -c babel-dump -n __fish_use_subcommand -a help \
    -d 'Print help'
__babel_dump_option help -f -a 'show lookup normalise key pairs compare diff senders links extract events select'

__babel_dump_option 'show lookup normalise key pairs compare diff senders links extract events select' -l help -d 'Print help'
__babel_dump_option 'normalise extract' -l from -x -a '(__babel_dump_senders 1)' \
    -d 'The source address of the packets'
__babel_dump_option 'pairs' -l from -x -a '(__babel_dump_senders 1)' \
    -d 'The source address of the packets'
__babel_dump_option 'show lookup' -l from -x -a '(__babel_dump_senders 1)' \
    -d 'The source address of the packets'
__babel_dump_option 'key' -l from -x -a '(__babel_dump_senders 1)' \
    -d 'The source address of the packets'
__babel_dump_option 'compare diff' -l from -x -a '(__babel_dump_senders 1)' \
    -d 'The address that the packets of FILE were sent from'
__babel_dump_option 'events' -l from -x -a '(__babel_dump_senders 1)' \
    -d 'The source address of the packets'
__babel_dump_option 'compare diff' -l other-from -x -a '(__babel_dump_senders 2)' \
    -d 'The address that the packets of OTHER were sent from'
__babel_dump_option 'show lookup normalise key pairs extract' -l interface -x -a '(__babel_dump_places 1)' \
    -d 'The place in a capture: the interface, as 1, with its link and VLANs if there are any, as 1/3, 1:10 or 1/3:10.20'
__babel_dump_option 'compare diff' -l interface -x -a '(__babel_dump_places 1)' \
    -d 'The place in FILE, if it is a capture: the interface, with its link and VLANs, as senders lists it'
__babel_dump_option 'links events' -l interface -x -a '(__babel_dump_places 1)' \
    -d 'The place in the capture: the interface, with its link and VLANs, as senders lists it'
__babel_dump_option 'select' -l at -x \
    -d 'An address of the router that selects'
__babel_dump_option 'select' -l interface -x -a '(__babel_dump_places 1)' \
    -d 'The place in the capture: the interface, with its link and VLANs, as senders lists it'
__babel_dump_option 'compare diff' -l other-interface -x -a '(__babel_dump_places 2)' \
    -d 'The same for OTHER, if it is a capture'
__babel_dump_option 'extract' -l hex \
    -d 'Write the octets as lower-case hexadecimal digits on one line'
__babel_dump_option 'show lookup normalise key pairs compare diff' -l since -x \
    -d 'Skip what a capture has before TIME: a time with an offset, as 2026-11-25T13:30:22Z, seconds since 1970, as @1764077422.5, or seconds since the first record, as +90'
__babel_dump_option 'senders links extract select' -l since -x \
    -d 'Skip what a capture has before TIME: a time with an offset, as 2026-11-25T13:30:22Z, seconds since 1970, as @1764077422.5, or seconds since the first record, as +90'
__babel_dump_option 'events' -l since -x \
    -d 'Print what changed at TIME or later, having read what came before: a time with an offset, as 2026-11-25T13:30:22Z, seconds since 1970, as @1764077422.5, or seconds since the first record, as +90'
__babel_dump_option 'show lookup normalise key pairs compare diff senders links extract events select' -l until -x \
    -d 'Skip what a capture has after TIME'
__babel_dump_option 'show lookup normalise key pairs compare diff' -l expiry -x \
    -d 'Leave out what was not announced again within FACTOR times its Interval, at --until or else at the end of a capture'
__babel_dump_option 'events' -l expiry -x \
    -d 'Also report routes that expire, not announced again within FACTOR times their Interval'
__babel_dump_option 'links' -l expiry -x \
    -d 'Leave out what an IHU said FACTOR times its Interval ago, at --until or else at the end'
__babel_dump_option 'select' -l expiry -x \
    -d 'What was not announced or said again within FACTOR times its Interval counts no more'
__babel_dump_option 'show lookup normalise key pairs compare diff' -l hold \
    -d 'Keep a retracted route as unreachable, so that no less specific route takes its place'
__babel_dump_option 'events' -l ignore -x -a '(__fish_append , next-hop router-id seqno metric)' \
    -d 'Fields of a route that do not count: next-hop, router-id, seqno, metric, separated by commas'
__babel_dump_option 'events' -l to -x \
    -d 'Report changes of the answer for this destination, instead of route changes'
__babel_dump_option 'events' -l src -x \
    -d 'The source of that answer, of the destination'\''s family'
__babel_dump_option 'select' -l to -x \
    -d 'Only the routes that decide what is used for this destination'
__babel_dump_option 'select' -l src -x \
    -d 'The source besides, of the destination'\''s family'
__babel_dump_option 'select' -l etx \
    -d 'Links cost what ETX says, as on radio, and not 2-out-of-3 (RFC 8966, appendix A.2)'
__babel_dump_option 'select' -l cost -x \
    -d 'State what the link to the sender ADDRESS costs, from 1 to 65535, which is infinite'
__babel_dump_option 'events' -l requests \
    -d 'Also report the requests of each sender for routes'
__babel_dump_option 'senders extract' -l strict \
    -d 'Reject a capture if any datagram is left out'
__babel_dump_option 'select' -l strict \
    -d 'Reject a capture if any datagram is left out, or a TLV of a sender that counts is ignored'
__babel_dump_option 'events' -l strict \
    -d 'Stop with an error at the first ignored TLV or left-out datagram, or, at the end, if a sender has no Update'
__babel_dump_option 'show lookup normalise key pairs compare diff events select' -l v4-via-v6 \
    -d 'Read IPv4 routes with an IPv6 next hop (address encoding 4, RFC 9229)'
__babel_dump_option 'show lookup normalise key pairs compare diff' -l quiet \
    -d 'Suppress the notes on standard error, and, of show, what comes after the routes'
__babel_dump_option 'show lookup normalise key pairs compare diff senders links extract events select' -l accept-cut \
    -d 'Read a truncated capture up to its last complete record'
__babel_dump_option 'show lookup normalise key pairs compare diff links extract events select' -l accept-missing \
    -d 'Leave out datagrams of which fragments are missing'
__babel_dump_option 'show lookup normalise key pairs compare diff' -l max-routes -x \
    -d 'How many routes, and how many canonical pairs or differences, there may be, at most 51746593'
__babel_dump_option 'events' -l max-routes -x \
    -d 'How many routes there may be, of all senders together'
__babel_dump_option 'select' -l max-routes -x \
    -d 'How many routes there may be, of all senders that count, and entries of the source table together'
__babel_dump_option 'events select' -l json \
    -d 'Print one JSON object per line'
__babel_dump_option 'senders links extract events select' -l quiet \
    -d 'Suppress the notes on standard error'
__babel_dump_option 'show lookup normalise key pairs compare diff' -l max-octets -x \
    -d 'How many octets a dump may have, also one in a capture'
__babel_dump_option 'senders links extract' -l max-octets -x \
    -d 'How many octets the capture may have'
__babel_dump_option 'compare diff' -l other-since -x \
    -d 'The same for OTHER'
__babel_dump_option 'compare diff' -l other-until -x \
    -d 'The same for OTHER'
__babel_dump_option 'show pairs events select' -l within -x \
    -d 'Only destinations that are PREFIX or inside it'
__babel_dump_option 'diff' -l within -x \
    -d 'With --origins: only destinations that are PREFIX or inside it'
__babel_dump_option 'show pairs events select' -l match -x \
    -d 'Only destinations that contain PREFIX, which may be an address'
__babel_dump_option 'diff' -l match -x \
    -d 'With --origins: only destinations that contain PREFIX, which may be an address'
__babel_dump_option 'show pairs events select' -l source -x \
    -d 'Only sources that are exactly PREFIX'
__babel_dump_option 'diff' -l source -x \
    -d 'With --origins: only sources that are exactly PREFIX'
__babel_dump_option 'show pairs events' -l id -x \
    -d 'Only routes with this router-id: 16 hexadecimal digits, or with colons as babeld writes it'
__babel_dump_option 'diff' -l id -x \
    -d 'With --origins: only this router-id: 16 hexadecimal digits, or with colons as babeld writes it'
__babel_dump_option 'lookup normalise key pairs compare diff' -l strict \
    -d 'Reject a dump in which any TLV was ignored or a datagram left out, or that has no Update'
__babel_dump_option 'normalise key pairs compare diff' -l ignore -x -a '(__fish_append , next-hop router-id seqno metric)' \
    -d 'Fields of a route that do not count: next-hop, router-id, seqno, metric, separated by commas'
__babel_dump_option 'normalise' -l routes \
    -d 'Write the octets of the routes, not of the answers'
__babel_dump_option 'key' -l routes \
    -d 'Make the keys of the routes, not of the answers'
__babel_dump_option 'pairs' -l routes \
    -d 'Print the routes, a line for each, in place of the pairs'
__babel_dump_option 'normalise' -l body -x \
    -d 'How long the body of a packet may be, from 128 to 65535 octets'
__babel_dump_option 'normalise' -l hex \
    -d 'Write the octets as lower-case hexadecimal digits on one line'
__babel_dump_option 'show' -l summary \
    -d 'Print only how many routes, router-ids and next hops there are'
__babel_dump_option 'show' -l origins \
    -d 'Print who originates what: for each destination, source and router-id the least metric over all senders in the captures, and how many announce it'
__babel_dump_option 'diff' -l origins \
    -d 'Compare who originates what in two captures: for each destination, source and router-id the least metric over all senders'
__babel_dump_option 'diff' -l and -r \
    -d 'With --origins: the captures that are compared with all those before this option, each read by itself'
__babel_dump_option 'diff' -l stat \
    -d 'Print a last line: how many routes are gone, new, changed, and alike'
__babel_dump_option 'diff' -l color -x -a 'auto always never' \
    -d 'When to colour routes'
__babel_dump_option 'show lookup key pairs compare diff senders links' -l json \
    -d 'Print one JSON object per line'
__babel_dump_option 'show lookup pairs compare diff events' -l names -r \
    -d 'Print the names that the lines of FILE give addresses and router-ids, as '\''fe80::1 b1'\'', after senders, next hops and router-ids'
__babel_dump_option 'show lookup pairs compare diff senders links events select' -l short \
    -d 'Write addresses as RFC 5952 does, fe80::1, and leave out a source prefix of length 0'
__babel_dump_option 'compare' -l routes \
    -d 'Compare the routes, not the answers'
__babel_dump_option 'compare' -l all \
    -d 'List every largest block of destinations and sources on which the inputs differ, or, with --routes, every route'
__babel_dump_option 'compare' -l count \
    -d 'With --all or --routes: print only how many such blocks, or routes, there are'
__babel_dump_option 'pairs' -l count \
    -d 'Print only how many rows and how many canonical pairs there are'
__babel_dump_option 'lookup' -l with-prefix \
    -d 'Print the route that answers, with its destination and source prefixes'
__babel_dump_option 'lookup' -l to -x \
    -d 'The destination to look up'
__babel_dump_option 'lookup' -l src -x \
    -d 'The source to look up, of the destination'\''s family'
__babel_dump_option 'lookup' -l each -r \
    -d 'Look up each destination and source in the file PAIRS (- for standard input) instead of --to and --src'
