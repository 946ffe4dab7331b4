# Completion of syslogbox in bash.
# Written by scripts/options.py from the table of options.

# The options of a command.
_syslogbox_options() {
    case "$1" in
        show)
            echo "--framing --trim --legacy --zone --dialect --endless --json --color --help"
            ;;
        check)
            echo "--framing --trim --legacy --zone --dialect --endless --summary --help"
            ;;
        convert)
            echo "--framing --trim --legacy --zone --dialect --endless --to --help"
            ;;
        archive)
            echo "--framing --trim --legacy --zone --dialect --spill --memory --quiet --help"
            ;;
        merge | migrate | union | common | minus | diff | root | prove | compact | add)
            echo "--quiet --help"
            ;;
        select)
            echo "--from --to --undated --only-undated --severity --facility --host --app --proc --msgid --id"
            echo "--message --host-like --app-like --not-host --not-app --not-message --quiet --help"
            ;;
        digest)
            echo "--by --root --quiet --help"
            ;;
        count)
            echo "--by --top --json --bars --quiet --help"
            ;;
        confirm | stat | backup)
            echo "--help"
            ;;
        read)
            echo "--from --to --undated --only-undated --severity --facility --host --app --proc --msgid --id"
            echo "--message --host-like --app-like --not-host --not-app --not-message --last --as --color --partial"
            echo "--help"
            ;;
        follow)
            echo "--from --to --undated --only-undated --severity --facility --host --app --proc --msgid --id"
            echo "--message --host-like --app-like --not-host --not-app --not-message --from-start --until-eof --help"
            ;;
        verify)
            echo "--against --quiet --help"
            ;;
        expire)
            echo "--before --keep --room --undated --dry-run --quiet --help"
            ;;
        seal)
            echo "--before --quiet --help"
            ;;
        reconcile)
            echo "--from --to --undated --pull --push --dry-run --room --timeout --quiet --help"
            ;;
        answer)
            echo "--read-only --room --timeout --help"
            ;;
        send)
            echo "--facility --severity --up-to --framing --host --app --proc --msgid --micros --help"
            ;;
        collect)
            echo "--trim --legacy --zone --dialect --help"
            ;;
        serve)
            echo "--udp --counted --lf --unix --inherited --allow --connections --per-peer --idle --commit"
            echo "--checkpoint --metrics --rate --until-eof --trim --legacy --zone --dialect --help"
            ;;
    esac
}

# What the value of a command's option is; nothing where it takes none.
_syslogbox_value() {
    case "$1 $2" in
        "show --framing" | "check --framing" | "convert --framing" | "archive --framing")
            echo "words datagram counted lf"
            ;;
        "show --legacy" | "show --zone" | "check --legacy" | "check --zone" | "convert --legacy" | \
        "convert --zone" | "archive --legacy" | "archive --zone" | "archive --memory" | "select --from" | \
        "select --to" | "select --host" | "select --app" | "select --proc" | "select --msgid" | "select --id" | \
        "select --message" | "select --host-like" | "select --app-like" | "select --not-host" | "select --not-app" | \
        "select --not-message" | "count --by" | "count --top" | "read --from" | "read --to" | "read --host" | \
        "read --app" | "read --proc" | "read --msgid" | "read --id" | "read --message" | "read --host-like" | \
        "read --app-like" | "read --not-host" | "read --not-app" | "read --not-message" | "read --last" | \
        "follow --from" | "follow --to" | "follow --host" | "follow --app" | "follow --proc" | "follow --msgid" | \
        "follow --id" | "follow --message" | "follow --host-like" | "follow --app-like" | "follow --not-host" | \
        "follow --not-app" | "follow --not-message" | "verify --against" | "expire --before" | "expire --keep" | \
        "expire --room" | "seal --before" | "reconcile --from" | "reconcile --to" | "reconcile --room" | \
        "reconcile --timeout" | "answer --room" | "answer --timeout" | "send --host" | "send --app" | \
        "send --proc" | "send --msgid" | "send --micros" | "collect --legacy" | "collect --zone" | "serve --udp" | \
        "serve --counted" | "serve --lf" | "serve --allow" | "serve --connections" | "serve --per-peer" | \
        "serve --idle" | "serve --commit" | "serve --checkpoint" | "serve --metrics" | "serve --rate" | \
        "serve --legacy" | "serve --zone")
            echo "text"
            ;;
        "show --dialect" | "check --dialect" | "convert --dialect" | "archive --dialect" | "collect --dialect" | \
        "serve --dialect")
            echo "words bsd wide"
            ;;
        "show --color" | "read --color")
            echo "words auto always never"
            ;;
        "convert --to" | "send --framing")
            echo "words counted lf"
            ;;
        "archive --spill")
            echo "folder"
            ;;
        "select --severity" | "read --severity" | "follow --severity" | "send --severity" | "send --up-to")
            echo "words emerg alert crit err warning notice info debug"
            ;;
        "select --facility" | "read --facility" | "follow --facility" | "send --facility")
            echo "words kern user mail daemon auth syslog lpr news uucp cron authpriv ftp ntp audit alert clock"
            echo "local0 local1 local2 local3 local4 local5 local6 local7"
            ;;
        "digest --by")
            echo "words month day hour"
            ;;
        "read --as")
            echo "words archive lines json show"
            ;;
        "serve --unix")
            echo "file"
            ;;
        "serve --inherited")
            echo "words udp counted lf"
            ;;
    esac
}

# What a command's value by its place is.
_syslogbox_place() {
    case "$1 $2" in
        "merge "* | "migrate "* | "union "* | "common "* | "minus "* | "diff "* | "prove "* | "confirm 3")
            echo "file"
            ;;
        "read "* | "follow "* | "verify "* | "stat "* | "compact "* | "add "* | "expire "* | "seal "* | \
        "reconcile "* | "answer "* | "backup "* | "serve "*)
            echo "folder"
            ;;
        "collect 1")
            echo "words udp counted lf"
            ;;
    esac
}

_syslogbox() {
    local command=${COMP_WORDS[1]} word=$2 previous=$3 kind="" action="" words=""
    local commands="show check convert archive merge migrate union common minus diff select digest count root prove confirm read follow verify stat compact add expire seal reconcile answer backup send collect serve help"
    if [ "$COMP_CWORD" -eq 1 ]; then
        words="$commands --help --version"
    elif [ "$command" = help ]; then
        words=$commands
    else
        kind=$(_syslogbox_value "$command" "$previous")
        if [ -z "$kind" ]; then
            words=$(_syslogbox_options "$command")
            kind=$(_syslogbox_place "$command" "$((COMP_CWORD - 1))")
        fi
    fi
    case $kind in
        words*) words="$words ${kind#words}" ;;
        file) action=-f ;;
        folder) action=-d ;;
    esac
    if [ -n "$action" ]; then compopt -o filenames 2> /dev/null; fi
    mapfile -t COMPREPLY < <(compgen $action -W "$words" -- "$word")
}

complete -F _syslogbox syslogbox
