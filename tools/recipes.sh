#!/bin/sh
# Tries the recipes of docs/USAGE.md, each where its tools are installed: what is tried are the blocks of that page. A line for each check
# that fails, one for each recipe, and a closing count. Debian has pre-commit, python3-yaml, python3-jsonschema, nodejs and
# parallel, and from Debian 13 on ajv 8 as node-ajv; ajv is looked for in the folder of modules that NODE_MODULES names too, and an archive
# of `make dist` in dist/.
#
#     tools/recipes.sh PROGRAM
set -eu
program=$(realpath "$1")
top=$(cd "$(dirname "$0")/.." && pwd)
. "$(dirname "$0")/wanted.sh"
mkdir "$room/path" "$room/here"
ln -s "$program" "$room/path/cue2schema"
for python in python3 /usr/bin/python3; do
    if "$python" -c 'import jsonschema, yaml' 2> /dev/null; then ln -sf "$(command -v "$python")" "$room/path/python3"; fi
done
export PATH="$room/path:$PATH" PRE_COMMIT_HOME="$room/hooks" HOME="$room" PYTHONWARNINGS=ignore
cd "$room/here"

# block WORDS LANGUAGE: the first block of that language in docs/USAGE.md below a line that has these words
block() {
    awk -v words="$1" -v fence="\`\`\`$2" '
        index($0, words) { below = 1 }
        inside && $0 == "```" { exit }
        inside
        below && $0 == fence { inside = 1 }
    ' "$top/docs/USAGE.md"
}

# is_there TOOL COMMAND..: whether the command succeeds; where it doesn't, what is left of the recipe isn't tried
is_there() {
    tool=$1
    shift
    "$@" > "$room/out" 2>&1 || { missing=$tool; return 1; }
}

# runs STATUS COMMANDS: whether a shell ends so with these commands
runs() {
    status=0
    sh -c "$2" > "$room/out" 2> "$room/said" || status=$?
    [ "$status" -eq "$1" ]
}

# prints STATUS COMMANDS TEXT: the same, and the text is in what they print or say
prints() {
    runs "$1" "$2" && cat "$room/out" "$room/said" | grep -qF -- "$3"
}

# check NAME TEST..: one more check of the recipe
check() {
    label="$recipe: $1"
    shift
    if "$@"; then count "$label" yes; else count "$label" no; fi
}

printf '#Server: {host: string, port: #Port, log?: "on" | "off", tags?: [...string]}\n#Port: int & >=1 & <=65535\n' > server.cue
cue2schema export --root '#Server' server.cue > server.schema.json
cue2schema samples --root '#Server' server.cue > valid.jsonl
cue2schema samples --invalid --root '#Server' server.cue > invalid.jsonl

try_pre_commit() {
    is_there pre-commit pre-commit --version || return 0
    git init -q repository
    cp server.cue repository
    cd repository
    mkdir servers
    echo '{"host":"a","port":80}' > servers/a.json
    block '**pre-commit.**' yaml > .pre-commit-config.yaml
    git add .
    check 'all is well' runs 0 'pre-commit run'
    echo '{"host":"b","port":0}' > servers/b.json
    git add .
    check 'an invalid document' prints 1 'pre-commit run' 'servers/b.json:1:20: /port: found 0, want >=1 [server.cue:2:14 #Port]'
    check 'all documents' prints 1 'pre-commit run --all-files cue-vet' 'servers/a.json: valid'
    git rm -qf servers/b.json
    echo '#Log: *"on" | "off"' >> server.cue
    git add .
    check 'a fault of a definition' prints 1 'pre-commit run' 'server.cue:3:7: error 5: `--profile wide` takes defaults; without it default marks are left out'
    cd ..
}

# The commands of a step of the workflow, as the runner sees them.
step() { # name
    python3 -c '
import sys, yaml
steps = yaml.safe_load(sys.stdin)["jobs"]["schemas"]["steps"]
print(next(step["run"] for step in steps if step.get("name") == sys.argv[1]))' "$1" < workflow.yaml | sed "s|\${{ vars.CUE2SCHEMA }}|$archive|"
}

try_workflow() {
    is_there "yaml of Python" python3 -c 'import yaml' || return 0
    block '**A workflow of GitHub.**' yaml > workflow.yaml
    block 'A problem matcher for GitHub' json > matcher.json
    mkdir servers
    cp valid.jsonl servers/valid.json
    head -n 1 valid.jsonl > servers/valid.json
    archive="file://$(ls "$top"/dist/*.tar.gz 2> /dev/null | head -n 1)"
    step 'install cue2schema' > install.sh
    step judge > judge.sh
    check 'the steps are commands' runs 0 'bash -n install.sh && bash -n judge.sh'
    check 'valid documents' prints 0 'bash -e judge.sh' 'servers/valid.json: valid'
    echo '{"host":"b","port":0}' > servers/b.json
    check 'an invalid document' prints 1 'bash -e judge.sh' 'servers/b.json:1:20: /port: found 0, want >=1'
    grep '^servers/b.json:1' "$room/out" > lines
    printf '#A: *1 | int\n#B: int & string\n' > faulty.cue
    cue2schema check faulty.cue >> lines || true
    sed -i '1d' faulty.cue
    cue2schema check faulty.cue >> lines
    rm -r servers
    if is_there node node --version; then
        cat > matcher.cjs << 'END2'
const { readFileSync } = require("fs");
const pattern = JSON.parse(readFileSync("matcher.json", "utf8")).problemMatcher[0].pattern[0];
for (const line of readFileSync("lines", "utf8").trim().split("\n")) {
  const match = line.match(new RegExp(pattern.regexp));
  console.log(["file", "line", "column", "severity", "code", "message"].map((name) => match[pattern[name]]).join("|"));
}
END2
        check 'a reason is matched' prints 0 'node matcher.cjs' 'servers/b.json|1|20|||/port: found 0, want >=1 [server.cue:2:14 #Port]'
        check 'a fault is matched' prints 0 'node matcher.cjs' 'faulty.cue|1|5|error|5|`--profile wide` takes defaults; without it default marks are left out'
        check 'a warning is matched' prints 0 'node matcher.cjs' 'faulty.cue|1|1|warning||no document is an instance of #B'
    fi
    if [ -f "${archive#file://}" ] && is_there curl curl --version; then
        check 'the archive is installed' prints 0 'GITHUB_PATH=$PWD/added bash -e install.sh && "$(cat added)/cue2schema" --version' 'cue2schema '
    else
        missing='archive of make dist'
    fi
}

try_yaml() {
    is_there "yaml of Python" python3 -c 'import yaml' || return 0
    block '**Documents in YAML**' 'sh fragment' > yaml.sh
    yaml() { # name status text document
        printf "$4" > server.yaml
        check "$1" prints "$2" 'sh yaml.sh' "$3"
    }
    yaml 'a valid document' 0 valid 'host: a\nport: 8080\nlog: "on"\n'
    yaml 'on' 1 '/log: found true, want "on" | "off"' 'host: a\nport: 8080\nlog: on\n'
    yaml 'on as a key' 1 '/true: this key is not allowed' 'host: a\nport: 8080\non: 1\n'
    for port in 12:30 010 1_000; do yaml "$port" 0 valid "host: a\nport: $port\n"; done
    yaml 'nothing behind a key' 1 '/port: found null' 'host: a\nport:\n'
    yaml 'a fraction' 2 'error 26' 'host: a\nport: 8080.0\n'
    yaml 'a date' 2 'error 25' 'port: 8080\nhost: 2024-05-01\n'
    yaml 'a key twice' 0 valid 'host: a\nport: 0\nport: 1\n'
    yaml 'two documents' 2 'error 25' 'host: a\nport: 1\n---\nhost: a\nport: 1\n'
    printf '{"a":%s}\n' 750 8 1000 > wanted.jsonl
    for port in 12:30 010 1_000; do echo "a: $port" | python3 -c 'import json, sys, yaml; print(json.dumps(yaml.safe_load(sys.stdin), separators=(",", ":")))'; done > read.jsonl
    check 'numbers' runs 0 'cmp wanted.jsonl read.jsonl'
}

try_ajv() {
    is_there node node --version || return 0
    block '**ajv**' js > judge.mjs
    check 'the script is read' runs 0 'node --check judge.mjs'
    for modules in "${NODE_MODULES-}" "$top/node_modules" /usr/share/nodejs /usr/lib/node_modules /usr/local/lib/node_modules; do
        if [ -e "$modules/ajv/dist/2020.js" ]; then
            ln -s "$(realpath "$modules")" node_modules
            break
        fi
    done
    is_there 'ajv 8' test -e node_modules || return 0
    check 'valid documents' runs 0 '[ "$(node judge.mjs < valid.jsonl | sort -u)" = valid ]'
    check 'invalid documents' runs 0 '[ "$(node judge.mjs < invalid.jsonl | sort -u)" = invalid ]'
}

try_draft7() {
    is_there 'jsonschema of Python' python3 -c 'import jsonschema' || return 0
    block '**Readers of draft 7**' python > draft7.py
    block '**Readers of draft 7**' sh > lists.sh
    sh lists.sh
    cat > judge.py << 'END2'
import json
import sys
from jsonschema import Draft7Validator

validator = Draft7Validator(json.load(open(sys.argv[1])))
for line in sys.stdin:
    print("valid" if validator.is_valid(json.loads(line)) else "invalid")
END2
    # A validator of draft 7 refuses documents that it ought to take.
    for root in Pair Row; do
        cue2schema export --root "#$root" lists.cue > list.json
        cue2schema samples --root "#$root" lists.cue > list.jsonl
        check "#$root is misread" prints 0 'python3 judge.py list.json < list.jsonl' invalid
    done
    printf '#All: {pair: #Pair, row: #Row, any: [...int], none: [], either?: #Pair | null, [string]: _}\n' >> lists.cue
    for root in Pair Row All; do
        cue2schema export --root "#$root" lists.cue > list.json
        check "#$root is written" runs 0 'python3 draft7.py < list.json > list.draft7.json'
        for kind in valid invalid; do
            word=; if [ "$kind" = invalid ]; then word=--invalid; fi
            cue2schema samples $word --root "#$root" lists.cue > list.jsonl
            check "#$root, $kind documents" runs 0 "[ \"\$(python3 judge.py list.draft7.json < list.jsonl | sort -u)\" = $kind ]"
        done
    done
}

try_parallel() {
    is_there 'GNU parallel' sh -c 'parallel --version | grep -q "^GNU parallel"' || return 0
    mkdir servers
    for number in $(seq 300); do echo "{\"host\":\"a\",\"port\":$((number % 3))}" > "servers/server $number.json"; done
    block '**GNU parallel** judges many files' 'sh fragment' > parallel.sh
    sh -c 'cue2schema vet --root "#Server" server.cue --docs servers/*.json' | sort > wanted.txt || true
    check 'the status' sh -c 'status=0; sh parallel.sh > together.txt 2> said.txt || status=$?; [ "$status" -gt 0 ] && [ "$status" -le 101 ]'
    check 'the verdicts' runs 0 'sort together.txt | cmp - wanted.txt'
    rm -r servers
}

for recipe in pre_commit workflow yaml ajv draft7 parallel; do
    missing=
    try_$recipe
    if [ -z "$missing" ]; then echo "$recipe: tried"; else echo "$recipe: not all of it is tried, since there is no $missing here"; fi
done
closing
