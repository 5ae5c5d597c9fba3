# shellcheck shell=bash disable=SC2154
# Sourced by ./run, .ci/run, the tests and the benchmarks, with `root` set to the repository's root and `self` to the name that messages begin with.
#
# A program or the archive for C counts as built while its own sum and the sums of all sources that it stands on are those of the time when it was
# proved: target/built/ has them. Times of files don't count, and nothing is written where it is built.

export LC_ALL=C # so that sums, and what tools say, are the same for everyone
unset CDPATH TMOUT

say() { printf '%s: %s\n' "$self" "$*" >&2; }

# need_tools TOOL..: ends where a command isn't there, and names all that are missing
need_tools() {
    local tool missing=''
    for tool; do command -v "$tool" > /dev/null || missing="$missing $tool"; done
    [ -z "$missing" ] || {
        say "commands that are needed and not on the path:$missing"
        exit 2
    }
}

# closure CRATE: what crates.txt says of the crates of the repository that a crate stands on, and of the crate itself, a line each
closure() {
    CRATE="$1" awk '
        function visit(name, names, count, i) {
            if (name in seen || !(name in stands_on)) return
            seen[name] = 1
            count = split(stands_on[name], names, " ")
            for (i = 1; i <= count; i++) visit(names[i])
            print head[name] ":" stands_on[name]
        }
        { sub(/#.*/, "") }
        /:/ {
            # a word behind the name says that the crate is a static library
            at = index($0, ":"); split(substr($0, 1, at - 1), words, " ")
            head[words[1]] = substr($0, 1, at - 1); stands_on[words[1]] = substr($0, at + 1)
        }
        END { visit(ENVIRON["CRATE"]) }' "$root/crates.txt"
}

# names CRATE: the names of these crates, a line each
names() { closure "$1" | sed 's/[ :].*//'; }

# sources CRATE: one sum of all sources that a crate stands on, and of what crates.txt says of these
sources() {
    (
        cd "$root" || exit
        closure "$1"
        names "$1" | sed 's,.*,crates/&/src crates/&/specs crates/&/proofs,' |
            xargs sh -c 'for folder; do [ ! -d "$folder" ] || find "$folder" -type f ! -name ".*" -print0; done' sh |
            sort -z | xargs -0 sha256sum --
    ) | sha256sum
}

# made CRATE FILE: the file in which rt leaves the program or, for a file that ends in .a, the library
made() { case "$2" in *.a) echo "$root/crates/$1/out/lib$1.a" ;; *) echo "$root/crates/$1/out/$1" ;; esac; }

# take CRATE FILE: copies what rt has just made to where it is wanted
take() {
    mkdir -p "$root/${2%/*}" && rm -f "$root/$2" && cp "$(made "$1" "$2")" "$root/$2" && chmod go+rX,go-w "$root/$2"
}

# record CRATE FILE SOURCES: a file was proved and written just now, of sources that had this sum when that began and still have it
record() {
    [ "$(sources "$1")" = "$3" ] || {
        say "the sources of $1 changed while it was proved"
        return 1
    }
    mkdir -p "$root/target/built" && printf '%s\n' "$3" "$(sha256sum < "$root/$2")" > "$root/target/built/$1"
}

# is_built CRATE FILE
is_built() {
    [ -f "$root/$2" ] && [ -f "$root/target/built/$1" ] &&
        [ "$(sources "$1"; sha256sum < "$root/$2")" = "$(< "$root/target/built/$1")" ]
}

# progress CRATE LOG: of what rt prints, a line for each crate that is proved, and for one that is not the name of the log
progress() {
    local line total crate='' known=''
    total=$(names "$1" | wc -l)
    while IFS= read -r line; do
        case "$line" in
        'crate '*': modules '*)
            crate="${line#crate }"
            crate="${crate%%:*}"
            ;;
        'logic=proved '*)
            [ -n "$crate" ] || continue
            # what it stands on is proved, too: of that which is unchanged nothing is printed
            known="$({ printf '%s\n' "$known"; names "$crate"; } | sort -u | sed '/^$/d')"
            say "$(printf '%s\n' "$known" | wc -l) of $total proved: $crate"
            crate=''
            ;;
        logic=not-proved*)
            [ -z "$crate" ] || say "$crate is not proved: $2 says why"
            crate=''
            ;;
        esac
    done
}

# prove CRATE FILE: proves a crate with all that it stands on, and has rt write the program, which is also run on an empty text, or the library
prove() {
    local total status verb=run log="$root/target/built/$1.log"
    [ "${2%.a}" = "$2" ] || verb=lib
    total=$(names "$1" | wc -l)
    say "$1 is not built, or its sources have changed: proving the $total crates that it stands on, which from nothing takes some minutes"
    rm -f "$(made "$1" "$2")" # what rt finds built it doesn't write again
    (cd "$root/crates/$1" && exec rt "$verb") < /dev/null 2>&1 | tee "$log" | progress "$1" "$log"
    status="${PIPESTATUS[0]}"
    [ "$status" -eq 0 ] || say "$1 was not built; $log has all that was said"
    return "$status"
}

# build CRATE FILE: proves and builds a program or, into a file that ends in .a, a library, where it isn't built; fails, having said why, where it can't
build() {
    is_built "$1" "$2" && return
    command -v rt > /dev/null || {
        say "$1 is not built, or its sources have changed, and the Rattle toolchain is not on the path: there is no command rt"
        return 1
    }
    (
        umask 022 # what is built is no secret
        if ! mkdir -p "$root/target/built" 2> /dev/null || ! [ -w "$root/target/built" ]; then
            say "$1 is not built, or its sources have changed, and $root/target can't be written to"
            exit 1
        fi
        # one at a time: a second call waits, and then finds it built
        if command -v flock > /dev/null; then
            exec 9> "$root/target/built/lock"
            flock -n 9 || {
                say "another call builds: waiting for it"
                flock 9
            }
        fi
        is_built "$1" "$2" && exit
        of="$(sources "$1")"
        rm -f "$root/$2"
        prove "$1" "$2" && take "$1" "$2" && record "$1" "$2" "$of"
    )
}
