# What packaging/test and packaging/test-in-boot share. $version is that of the package.
passed=0
failed=0

# check NAME COMMAND..: passes where the command's status is 0, and shows what it printed where not.
check() {
    local name=$1 said
    shift
    if said=$("$@" 2>&1); then
        echo "ok $name"
        passed=$((passed + 1))
    else
        echo "FAILED $name"
        printf '%s\n' "$said" | tail -n 40 | sed 's/^/    /'
        explain
        failed=$((failed + 1))
    fi
}
# What is shown besides where a check fails.
explain() {
    :
}
# same WHAT WANTED
same() {
    [ "$1" = "$2" ] && return
    diff <(printf '%s\n' "$2") <(printf '%s\n' "$1")
    return 1
}
# ask ADDRESS PORT LINE: the first line of the answer.
ask() {
    local answer
    { exec 9<> "/dev/tcp/$1/$2"; } 2> /dev/null || return 1
    printf '%s\n' "$3" >&9
    IFS= read -r -t 5 answer <&9
    exec 9>&-
    printf '%s\n' "$answer"
}
answers_now() {
    same "$(ask "$1" "$2" version)" "OK $version"
}
# answers ADDRESS PORT: that the server answers there within ten seconds.
answers() {
    local i
    for ((i = 0; i < 100; i++)); do
        answers_now "$1" "$2" > /dev/null && return
        sleep 0.1
    done
    answers_now "$1" "$2"
}
