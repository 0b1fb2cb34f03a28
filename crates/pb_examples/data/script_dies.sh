# A build script whose runner dies; then one that runs it, which gives what a build from nothing gives, but that the
# script is compiled already.
package . a
file src/lib.rs
file build.rs 'print hello'
file k.sh 'kill -9 $$'
build --runner "sh $PWD/k.sh"
build --runner "$RUSTC --run" > first
cat first
rm -r target
build --runner "$RUSTC --run" > second
sed 's/"fresh":true/"fresh":false/' first | cmp - second && echo same
