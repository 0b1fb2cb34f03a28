# The status of sessions: without steps, cut off, with a path that is none, with builds that are refused, into a full
# device, and named from the root.
session() {
    printf '%s' "$1" > session.json
    pb_tool session session.json 2>&1
    echo "status $?"
}
session '[]'
session '['
session '[{"build":{}},{"remove":"w"}]'
session '[{"build":{}},{"build":{}}]'
pb_tool session session.json 2>&1 > /dev/full
echo "status $?"
pb_tool session "$PWD/session.json"
echo "status $?"
