# Sourced by `run`: what the words of its command line are, and plain words for what the program says of its end.
# It reads what the program was given, and changes nothing.

# Reads the words as the program does: app, resources, port, mode, and, where it would refuse them, why, in `fault`.
read_words() {
    local name value has
    app='' resources='' port=3500 mode=serve fault=''
    local -A seen=()
    while [ "$#" -gt 0 ] && [ -z "$fault" ]; do
        name=${1%%=*} value='' has=''
        [ "$name" = "$1" ] || { value=${1#*=} has=1; }
        shift
        case $name in
            --app-id | --resources-path | --dapr-http-port | --app-port | --workers | --peers | --drill)
                if [ -z "$has" ]; then
                    if [ "$#" -eq 0 ] || [ "${1#-}" != "$1" ]; then
                        fault="$name needs a value"
                        break
                    fi
                    value=$1
                    shift
                fi
                ;;
            --stdio | --check) [ -z "$has" ] || fault="$name takes no value" ;;
            -*) fault="unknown option $name" ;;
            *) fault="unexpected word $name" ;;
        esac
        [ -z "$fault" ] || break
        [ -z "${seen[$name]-}" ] || fault="$name stands twice"
        seen[$name]=1
        case $name in
            --app-id)
                app=$value
                [[ $value =~ ^[A-Za-z0-9_-]{1,64}$ ]] || fault="--app-id $value: 1 to 64 ASCII letters, digits, - or _"
                ;;
            --resources-path)
                resources=$value
                [ -n "$value" ] || fault="--resources-path needs a folder"
                ;;
            --dapr-http-port)
                port=$value
                is_number "$value" 65535 || fault="--dapr-http-port $value: a number from 1 to 65535"
                ;;
            --app-port) is_number "$value" 65535 || fault="--app-port $value: a number from 1 to 65535" ;;
            --peers) are_peers "$value" || fault="--peers $value: ID=HOST:PORT with commas between, at most 256, each id once and not the own one" ;;
            --drill)
                [ "$mode" = serve ] || fault="--stdio, --check and --drill exclude one another"
                [[ $value =~ ^[0-9]{1,20},0*[0-9]{1,5}$ ]] || fault="--drill $value: two numbers with a comma between, the first below 2^64, the second at most 99999"
                mode=drill
                ;;
            --workers) is_number "$value" 64 || fault="--workers $value: a number from 1 to 64" ;;
            --stdio | --check)
                [ "$mode" = serve ] || [ "--$mode" = "$name" ] || fault="--stdio, --check and --drill exclude one another"
                mode=${name#--}
                ;;
        esac
    done
    if [ -z "$fault" ]; then
        [ -n "${seen[--app-id]-}" ] || fault="--app-id is missing"
        [ "$mode" != check ] || [ -n "$resources" ] || fault="--check needs --resources-path"
    fi
}

is_number() {
    [[ $1 =~ ^[1-9][0-9]{0,4}$ ]] && [ "$1" -le "$2" ]
}

# Whether a list of peers has the form of one.
are_peers() {
    local item items
    [[ $1 != *, ]] || return 1
    IFS=, read -r -a items <<<"$1"
    [ "${#items[@]}" -ge 1 ] && [ "${#items[@]}" -le 256 ] || return 1
    for item in "${items[@]}"; do
        [[ $item =~ ^[A-Za-z0-9_-]{1,64}=[A-Za-z0-9.-]{1,253}:([0-9]+)$ ]] && is_number "${BASH_REMATCH[1]}" 65535 || return 1
    done
}

# Ends as the program would, before anything is built for words that it refuses.
refuse_words() {
    echo usage >&2
    explain 2 usage
    exit 2
}

# Plain words for an exit status and the last line on standard error.
explain() {
    case $1 in
        1) explain_input "$2" ;;
        2) say "${fault:-the words are refused} (./run --help lists the options)" ;;
        3) explain_resources "${2#resources: }" ;;
        4) explain_outside "${2#outside: }" ;;
        5) say "the process got no memory" ;;
        6) say "a connection has at most 100000 requests" ;;
        7) say "a store, a broker or the book of metadata has answered 2^62 calls; start the program anew" ;;
        137) say "it was ended by SIGKILL" ;;
    esac
}

explain_input() {
    case $1 in
        'input: cut') say "the input ended inside a request" ;;
        input:*) say "a request was refused, and answered so: docs/HTTP-API.md, \"Requests that are refused\" has ${1#input: }" ;;
    esac
}

# Of a refusal, as in `stores.yaml: LeftOut line 15`: what it means, and the line.
explain_resources() {
    local where=${1%%: *} what=${1#*: } number=
    local kind=${what%% *} rest=${what#* }
    case $rest in 'line '*) number=${rest#line } ;; esac
    [ "$where" != subscribe ] || say "what the app answered to GET /dapr/subscribe is refused"
    case $kind in
        Tab) say "a tab stands in the white space that begins the line, where YAML wants spaces" ;;
        LeftOut) say "YAML that is not read here: an anchor, alias, tag, directive or folded block, {a: b} with content, a plain text that goes on in the next line, or 33 levels" ;;
        Indent) say "the line stands in a column that belongs to no open mapping or sequence" ;;
        Scalar) say "no value, or no name with a colon, where one should be" ;;
        NotUtf8) say "the file is no UTF-8 text (bytes count from 0)" ;;
        TooLong) say "a resource file has at most 1048576 bytes" ;;
        Missing) say "the field $rest is not there, or is empty" ;;
        Wrong) say "the field $rest has a value that it can't have: docs/RESOURCES.md says which" ;;
        Repeated)
            if [ -n "$number" ]; then say "the mapping has this name already"; else say "$rest stands twice: two components of that name or over one file, or a target that is bound already"; fi
            ;;
        SecretRef) say "component $rest has a secretKeyRef; secrets are not supported, so give the value" ;;
        UnknownType) say "component $rest: its spec.type is not supported; there are state.in-memory, state.journal, pubsub.in-memory and bindings.http" ;;
        NoSuchPolicy) say "a target names the policy $rest, which its document doesn't have" ;;
        SelfDead) say "the dead-letter topic $rest is the subscription's own topic" ;;
        Rule) say "a rule of a subscription is not understood from byte ${rest#at } on (from 0): docs/RESOURCES.md has the grammar" ;;
        TooMany) say "there are at most 256 components and 256 subscriptions" ;;
        NotAJournal) say "component $where: its file is damaged, or is no journal, from byte ${rest#at } on; it was left as it is" ;;
    esac
    if [ -n "$number" ] && [ -f "$resources/$where" ]; then
        say "$resources/$where line $number: $(sed -n "${number}p" "$resources/$where")"
    fi
}

explain_outside() {
    case $1 in
        source) say "standard input could not be read" ;;
        sink) say "standard output could not be written" ;;
        acceptor) say "no more connections could be accepted" ;;
        disk) say "a journal could not be read or written to its end" ;;
        files) explain_files ;;
        outside) explain_start ;;
        link) say "the app gave no answer to GET /dapr/subscribe at its port: start the app first; any status will do, 200 with a list or 404 without" ;;
    esac
}

explain_files() {
    local file
    if [ ! -e "$resources" ]; then
        say "$resources: no such folder"
    elif [ ! -d "$resources" ]; then
        say "$resources: no folder"
    elif [ ! -r "$resources" ] || [ ! -x "$resources" ]; then
        say "$resources: permission denied"
    else
        for file in "$resources"/*.yaml "$resources"/*.yml; do
            if [ -d "$file" ]; then
                say "$file: a folder"
            elif [ -L "$file" ] && [ ! -e "$file" ]; then
                say "$file: a link to nothing"
            elif [ -e "$file" ] && [ ! -r "$file" ]; then
                say "$file: permission denied"
            fi
        done
    fi
}

# The port, then each journal: what stands in the way of a start.
explain_start() {
    local name path folder
    if [ "$mode" = serve ] && (: <"/dev/tcp/127.0.0.1/$port") 2>/dev/null; then
        say "the port 127.0.0.1:$port is in use; choose another by --dapr-http-port"
        return
    fi
    if [ "$mode" = serve ] && [ "$port" -lt 1024 ] && [ "$(id -u)" -ne 0 ]; then
        say "a port below 1024 may be refused to a user who is not root"
    fi
    while IFS=$'\t' read -r name path; do
        folder=$(dirname -- "$path")
        if [ -z "$path" ]; then
            say "journal $name: its path is empty"
        elif [ -d "$path" ]; then
            say "journal $name: $path is a folder"
        elif [ ! -d "$folder" ]; then
            say "journal $name: $path: no such folder"
        elif [ ! -e "$path" ] && [ ! -w "$folder" ]; then
            say "journal $name: $path: the folder can't be written"
        elif [ -e "$path" ] && { [ ! -r "$path" ] || [ ! -w "$path" ]; }; then
            say "journal $name: $path: permission denied"
        elif [ -e "$path" ] && command -v flock >/dev/null && ! flock -n "$path" true; then
            say "journal $name: $path is open in another program"
        fi
    done < <(journals)
}

# The journals of the folder, as its files write them: a line each, the component's name, a tab, and the path.
journals() {
    local file
    [ -n "$resources" ] || return 0
    for file in "$resources"/*.yaml "$resources"/*.yml; do
        [ -f "$file" ] && awk '
            function plain(text) { sub(/^[^:]*:[ ]*/, "", text); sub(/[ ]+#.*$/, "", text); gsub(/^["'\'']|["'\'']$/, "", text); return text }
            function flush() { if (journal) printf "%s\t%s\n", name, path; name = path = ""; journal = wanted = 0 }
            /^---/ { flush() }
            /^  name:/ && name == "" { name = plain($0) }
            /^ +type: *["'\'']?state\.journal/ { journal = 1 }
            /^ *(- )?name:/ { wanted = plain($0) == "path" }
            /^ *(- )?value:/ && wanted { path = plain($0); wanted = 0 }
            END { flush() }' "$file"
    done
}
