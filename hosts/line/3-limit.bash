# Only the first 16,777,216 bytes are read; what follows counts as absent.
limit=16777216

# A suite in which 12 is present and 1,234 is absent, then a long line and the first part of what
# stands at the limit, so that LENGTH bytes come before what follows it.
until_limit() {
    local length=$1 front=$2 start=$'suite 2 2 1 1 1\nins - - 12 7\n'
    printf '%s' "$start"
    head -c $((length - ${#start} - ${#front} - 1)) /dev/zero | tr '\0' x
    printf '\n%s' "$front"
}

ends "the limit within a name" $'no 14\nat 1 7' < <(until_limit $limit 'look - 12' && printf '34\nlook - 12\n')
ends "the limit after a name" $'no 14\nat 1 7' < <(until_limit $limit 'look - 12' && printf '\nlook - 12\n')
ends "the limit a byte later" $'no 14\nnone 0' < <(until_limit $((limit - 1)) 'look - 12' && printf '34\nlook - 12\n')
ends "the limit within a command" $'no 14\nno 14' < <(until_limit $limit 'look' && printf ' - 12\n')
ends "the limit before a command" $'no 14\nat 1 7' < <(until_limit $limit $'look - 12\n' && printf 'look - 12\n')
ends "the limit before an empty line" $'no 14\nat 1 7' < <(until_limit $limit $'look - 12\n' && printf '\n')
ends "the limit behind an empty line" $'at 1 7\nno 14' < <(until_limit $limit $'look - 12\n\n' && printf '\n')
ends "16 MiB and no byte more" $'no 14\nat 1 7' < <(until_limit $limit 'look - 12')
ends "a byte less than 16 MiB" $'no 14\nat 1 7' < <(until_limit $((limit - 1)) 'look - 12')
lines "one line of 16 MiB and a byte" 1 < <(head -c $((limit + 1)) /dev/zero)
lines "lines of 16 bytes, and a byte more" $((limit / 16)) < <(
    head -c $((limit + 1)) /dev/zero | tr '\0' x | sed 's/x\{15\}x/xxxxxxxxxxxxxxx\n/g'
)

"$out/generate" speed-script "$seed" >"$work/script"
both "the speed script" <"$work/script"
