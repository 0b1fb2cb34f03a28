# A session is read from a file, and runs in memory; one that is not there is bad.
file one.json '[{"write":["/r/Cargo.toml","[package]\nname = \"b\"\n"]},{"build":{"manifest":"/r/Cargo.toml"}}]'
pb_tool session one.json
echo "status $?"
pb_tool session two.json 2>&1
echo "status $?"
