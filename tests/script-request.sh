# To be sourced: the line of the dialogue that hands over a text as a script, by its bytes.
script_request() { # TEXT
    { printf 'script %d' "$(wc -c <"$1")"; od -An -v -tu1 "$1" | tr -s '\n ' ' ' | sed 's/ $//'; } | tr -d '\n'
    echo
}
