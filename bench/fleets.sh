# Packages as people write them, and documents of them, which `judges.sh` reads: a fleet of deployments, and teams whose
# deployments differ.

# Nested structs, optional fields, enumerations, limits, lists of structs, references, and alternatives of two structs.
fleet_package() {
    cat << 'END'
#Fleet: {owner: string, stage: #Stage, apps: [...#App]}
#Stage: "dev" | "test" | "prod"
#App: {
    name: string
    team: string
    kind: "job" | "web"
    image: #Image
    count: #Count
    size: {cpu: int & >=10, mem: >=16}
    public?: bool
    spot?: bool
    ports?: [...#Port]
    routes?: [...#Route]
    mounts?: [...#Mount]
    env?: {[string]: string}
    tags?: {[string]: string}
    args?: [...string]
    check?: #Http | #Exec
    update: {surge: #Count, wait?: #Seconds}
}
#Image: {repo: string, tag: string, pull?: "always" | "never"}
#Port: {name?: string, port: #Number, to?: #Number, via: "tcp" | "udp"}
#Route: {host: string, path?: string, port: #Number}
#Mount: {name: string, path: string, size?: #Count, mode: "ro" | "rw"}
#Http: {path: string, port: #Number, every?: #Seconds}
#Exec: {run: [string, ...string], every?: #Seconds}
#Number: int & >=1 & <=65535
#Count: int & >=0 & <=1000
#Seconds: uint16
END
}

# A fleet of so many apps: 39 values each, of which 34 are members.
fleet() { # apps
    awk -v apps="$1" 'BEGIN {
        printf "{\"owner\":\"shop\",\"stage\":\"prod\",\"apps\":["
        for (i = 0; i < apps; i++) {
            printf "%s{\"name\":\"checkout-%05d\",\"team\":\"payments\",\"kind\":\"%s\"", (i ? ",\n" : ""), i, (i % 4 ? "web" : "job")
            printf ",\"image\":{\"repo\":\"registry.shop.io/cart\",\"tag\":\"1.%d.3\"%s}", i % 50, (i % 3 ? ",\"pull\":\"never\"" : "")
            printf ",\"count\":%d,\"size\":{\"cpu\":%d,\"mem\":%d}", i % 9, 10 + i % 990, 16 + i % 2000
            printf (i % 2 ? ",\"public\":true" : ",\"spot\":false")
            printf ",\"ports\":[{\"port\":%d,\"to\":80,\"via\":\"tcp\"},{\"name\":\"dns\",\"port\":53,\"via\":\"udp\"}]", 1024 + i % 60000
            if (i % 2) printf ",\"routes\":[{\"host\":\"www.shop.io\",\"path\":\"/\",\"port\":80}]"
            if (i % 3 == 0) printf ",\"mounts\":[{\"name\":\"volume-%d\",\"path\":\"/srv/data\",\"size\":%d,\"mode\":\"rw\"}]", i % 9, i % 1000
            printf ",\"env\":{\"MODE\":\"production\",\"ZONE\":\"eu%d\"},\"tags\":{\"tier\":\"front-%d\"}", i % 3, i % 40
            if (i % 2 == 0) printf ",\"args\":[\"-v\",\"-p\"]"
            if (i % 5) printf ",\"check\":{\"path\":\"/health\",\"port\":8080%s}", (i % 2 ? ",\"every\":9" : "")
            else printf ",\"check\":{\"run\":[\"/bin/up\"],\"every\":9}"
            printf ",\"update\":{\"surge\":1%s}}", (i % 2 ? ",\"wait\":30" : "")
        }
        print "]}"
    }'
}

# So many teams, each with a definition of its own for its apps.
teams_package() { # teams
    awk -v teams="$1" 'BEGIN {
        for (i = 0; i < teams; i++) printf "%steam%02d: [...#App%02d]", (i ? ", " : "#Teams: {"), i, i
        print "}"
        print "#Kind: \"job\" | \"web\""
        for (i = 0; i < teams; i++) {
            printf "#App%02d: {name: string, kind: #Kind, count: <=%d, port: uint16, ", i, 20 + i
            printf "args: [...string], public?: bool, wait?: <%d}\n", 100 + i
        }
    }'
}

# So many teams with ten apps each, of ten values and now and then eleven.
teams() { # teams
    awk -v teams="$1" 'BEGIN {
        for (i = 0; i < teams; i++) {
            printf "%s\"team%02d\":[", (i ? ",\n" : "{"), i
            for (k = 0; k < 10; k++) {
                printf "%s{\"name\":\"app-%02d\",\"kind\":\"%s\",\"count\":%d,\"port\":%d", (k ? "," : ""), k, (k % 3 ? "web" : "job"), k, 8000 + i
                printf ",\"args\":[\"-v\",\"-p80\"%s],\"public\":true,\"wait\":%d}", (k % 5 ? "" : ",\"--log\""), i
            }
            printf "]"
        }
        print "}"
    }'
}
