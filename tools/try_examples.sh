#!/usr/bin/env bash
# try_examples.sh PROGRAM: runs `PROGRAM direct` on each file of examples/, and compares the status and the number of
# lines with what the file is to give. What the lines say is compared where they are one record's alone. Then it runs
# `PROGRAM check` on each description, which is to be right, and `PROGRAM collect` on those that run, and compares what is
# written. It works in a copy of examples/. PROGRAM is an absolute path, or one from the folder that it is called in.
set -u
program=$(realpath "$1")
work=$(mktemp -d)
trap 'rm -rf "$work"' EXIT
cp -r "$(dirname "$0")/../examples/." "$work"
cd "$work" || exit 1
out=out.json
flow='{"@type":"ipfix.entry","iana:sourceIPv4Address":"10.0.0.1","iana:destinationIPv4Address":"10.0.0.2","iana:octetDeltaCount":1000}'
source='{"@type":"ipfix.entry","iana:sourceIPv4Address":"10.0.0.1"}'
failed=0
# NAME STATUS LINES [LINE]
try() {
    "$program" direct "$1.ipfix" "$out" > /dev/null
    local status=$? lines
    lines=$(wc -l < "$out")
    if [ "$status" != "$2" ] || [ "$lines" != "$3" ]; then
        echo "$1: status $status and $lines lines, not $2 and $3"
        failed=1
    elif [ $# -gt 3 ] && [ "$(sort -u "$out")" != "$4" ]; then
        echo "$1: other lines"
        failed=1
    fi
}
try one_flow 0 1 "$flow"
try two_flows 0 2 "$flow"
try padded_flow 0 1 "$flow"
try torn_flow 0 1 "$flow"
try broken_stream 0 1 "$flow"
try template_withdrawn 0 2 "$flow"
try many_domains 0 1024 "$source"
try enterprise_field 0 1 "$source"
try first_template 0 1 "$source"
try second_template 0 1
try two_templates 0 2
try hundred_flows 0 100
try empty_template 0 0
try withdrawal 0 0
try data_alone 0 0
try no_sets 0 0
try variable_names 0 2 '{"@type":"ipfix.entry","iana:interfaceName":"abc"}'
try repeated_element 0 1 '{"@type":"ipfix.entry","iana:octetDeltaCount":[5,6],"en9:id7":"0xabcd"}'
try file_options 0 4
try options 0 1 '{"@type":"ipfix.options","iana:observationDomainId":1,"iana:ingressInterface":7}'
for description in descriptions/*.toml; do
    if [ "$("$program" check -c "$description")" != ok ]; then
        echo "$description: not ok"
        failed=1
    fi
done
# NAME COUNTS FILE COMMAND: `collect` ends with 0 and prints these counts among the others, and COMMAND of what FILE holds
# prints the text on standard input.
collect() {
    local printed status count
    printed=$("$program" collect -c "descriptions/$1.toml")
    status=$?
    if [ "$status" != 0 ] || [ "$(wc -l <<< "$printed")" != 17 ]; then
        echo "$1: status $status, printed $printed"
        failed=1
    fi
    for count in $2; do
        if ! grep -qx "${count/=/ }" <<< "$printed"; then
            echo "$1: no $count in $printed"
            failed=1
        fi
    done
    if [ "$(eval "$4" < "$3")" != "$(cat)" ]; then
        echo "$1: $3 holds something else"
        failed=1
    fi
}
collect simple 'sessions=1 messages=1 records=1' flows.json cat <<< "$flow"
collect two_files 'sessions=2 messages=2 records=3' flows.json 'wc -l' <<< 3
collect two_files 'sessions=2' order.log 'od -An -tu1 | tr -d " \n"' <<< 000000010101
collect filter 'records=100' flows.json 'grep -c "10\.0\.4\."' <<< 10
collect anonymise 'records=100' flows.json 'grep -c "198\.51\..*192\.0\.2\.0\""' <<< 100
collect elements 'records=1' flows.json cat <<< '{"@type":"ipfix.entry","iana:octetDeltaCount":[5,6],"vendor:tag":43981}'
collect listing 'records=2 redefined=1' page.txt cat << 'END'
session 0/0 open file
message 0/0 domain 1 export 100 sequence 0 records 2
  template 256 records 1
    iana:sourceIPv4Address="10.0.0.1"
  template 256 records 1
    iana:destinationIPv4Address="10.0.0.2"
session 0/0 close
END
collect three_outputs 'messages=1024 records=1024 crowded=1' flows.json cat << END
$source
$source
$source
$source
END
collect three_outputs 'records=1024' copy.ipfix 'wc -c' <<< 520
collect three_outputs 'records=1024' copy.ipfix '"$program" direct /dev/stdin back.json; grep -cxF "$source" back.json' <<< 10
collect three_outputs 'records=1024' page.txt cat << 'END'
session 0/0 open file
message 0/0 domain 7 export 100 sequence 0 records 1
  template 256 records 1
    iana:sourceIPv4Address="10.0.0.1"
session 0/0 close
END
collect copy 'messages=1 records=4' copy.ipfix 'wc -c' <<< 115
collect copy 'messages=1 records=4' copy.ipfix '"$program" direct /dev/stdin back.json; cat back.json' << END
$flow
{"@type":"ipfix.options","iana:ingressInterface":7,"iana:interfaceName":"eth0"}
END
if [ "$("$program" collect -c descriptions/everything.toml)" != 'source fault: archive' ]; then
    echo "everything: its first input isn't told as missing"
    failed=1
fi
[ "$failed" = 0 ] && echo "all examples as they are to be"
exit "$failed"
